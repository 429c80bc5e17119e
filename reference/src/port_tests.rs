//! Tests of the share and of the port.

use super::*;
use crate::cell::{header_check, LENGTH};
use crate::code_of;
use crate::engine_tests::{at, backward, data, engine_with, forward, octets, with_crc};
use crate::{Params, Rm};

/// The sum of min(demand, s), which is how document 02 defines the share.
fn used(demands: &[u64], share: u64) -> u64 {
    demands.iter().map(|demand| share.min(*demand)).sum()
}

/// Asserts that the share of a list is what its definition says.
fn defined(capacity: u64, demands: &[u64]) -> Option<u64> {
    let share = fair_share(capacity, demands).unwrap();
    match share {
        None => assert!(demands.iter().sum::<u64>() <= capacity),
        Some(share) => {
            assert!(used(demands, share) <= capacity, "{demands:?} {capacity}");
            assert!(
                used(demands, share + 1) > capacity,
                "{demands:?} {capacity}"
            );
        }
    }
    share
}

#[test]
fn shares_by_hand() {
    assert_eq!(defined(10, &[2, 8, 8]), Some(4));
    assert_eq!(defined(11, &[2, 8, 8]), Some(4)); // one is left over
    assert_eq!(defined(12, &[8, 8, 2]), Some(5));
    assert_eq!(defined(17, &[2, 8, 8]), Some(7));
    assert_eq!(defined(18, &[2, 8, 8]), None); // the plain sum fits
    assert_eq!(defined(5, &[6]), Some(5));
    assert_eq!(defined(6, &[6]), None);
    assert_eq!(defined(2, &[9, 9, 9]), Some(0));
    assert_eq!(defined(0, &[0, 1]), Some(0));
    assert_eq!(defined(0, &[0, 0]), None);
    assert_eq!(defined(7, &[0, 3, 3, 3]), Some(2));
}

#[test]
fn without_demands_there_is_no_limit() {
    assert_eq!(defined(0, &[]), None);
    assert_eq!(defined(u64::MAX, &[]), None);
}

/// All lists of up to four demands from 0 to 4, with every capacity up to their sum.
#[test]
fn every_small_list() {
    for count in 0..=4 {
        for number in 0..5_u64.pow(count) {
            let demands: Vec<u64> = (0..count).map(|i| number / 5_u64.pow(i) % 5).collect();
            let mut before = Some(0);
            for capacity in 0..=17 {
                let share = defined(capacity, &demands);
                let rank = |share: Option<u64>| share.unwrap_or(u64::MAX);
                assert!(rank(share) >= rank(before)); // more capacity, no lower share
                before = share;
            }
        }
    }
}

#[test]
fn the_order_of_the_demands_does_not_matter() {
    let mut demands: Vec<u64> = (0..100).map(|i| i * i * 7_919 % 10_007).collect();
    let share = defined(200_000, &demands);
    assert!(share.is_some());
    for turn in 0..100 {
        demands.rotate_left(turn);
        demands.swap(turn, 99 - turn);
        assert_eq!(defined(200_000, &demands), share);
    }
    demands.reverse();
    assert_eq!(defined(200_000, &demands), share);
}

#[test]
fn the_most_and_the_largest_demands() {
    let full = [LARGEST; DEMANDS_MAX];
    let sum = LARGEST * 1_024;
    assert_eq!(defined(sum, &full), None);
    assert_eq!(defined(u64::MAX, &full), None);
    assert_eq!(defined(sum - 1, &full), Some(LARGEST - 1));
    assert_eq!(defined(1_023, &full), Some(0));
    assert_eq!(defined(1_024, &full), Some(1));
}

#[test]
fn over_1_024_demands_are_refused_with_21_before_22() {
    let mut demands = vec![1; DEMANDS_MAX + 1];
    assert_eq!(fair_share(0, &demands[..DEMANDS_MAX]), Ok(Some(0)));
    assert_eq!(fair_share(0, &demands), Err(Refusal::TooManyDemands));
    demands[0] = LARGEST + 1;
    assert_eq!(fair_share(0, &demands), Err(Refusal::TooManyDemands));
    assert_eq!(
        fair_share(0, &demands[..DEMANDS_MAX]),
        Err(Refusal::DemandTooLarge)
    );
}

#[test]
fn a_demand_above_the_largest_rate_is_refused_with_22_wherever_it_is() {
    for place in 0..5 {
        let mut demands = [LARGEST; 5];
        demands[place] += 1;
        assert_eq!(fair_share(u64::MAX, &demands), Err(Refusal::DemandTooLarge));
        demands[place] = u64::MAX;
        assert_eq!(fair_share(0, &demands), Err(Refusal::DemandTooLarge));
    }
}

/// A backward cell with this ER, and every bit set that no field has: GFC, CLP, those of
/// octet 7 and the six before the CRC-10; QL, SN and the reserved octets as nobody writes
/// them.
fn passing(er: u32) -> Octets {
    let mut cell = octets(&Rm {
        er,
        ccr: 0x5001,
        mcr: 0x4001,
        ci: 1,
        ra: 1,
        ql: 0x0102_0304,
        sn: 0xF1F2_F3F4,
        ..backward(32)
    });
    cell[0] |= 0xF0;
    cell[3] |= 1;
    cell[4] = header_check(&cell[..4]);
    cell[6] |= 7;
    cell[21..51].fill(0x99);
    cell[51] |= 0xFC;
    cell::put_er(&mut cell, er);
    assert!(cell::read(&cell).is_ok());
    cell
}

/// The cell after a limit.
fn limited(rate: u64, cell: &Octets) -> Octets {
    let mut after = *cell;
    limit(rate, &mut after).unwrap();
    after
}

#[test]
fn er_becomes_the_code_of_the_lower_rate_and_all_else_stays() {
    let rates = [0, 1, 511, 512, 700, 512_000, 512_001, LARGEST, u64::MAX];
    for er in (0..=0x7FFF).step_by(37) {
        for rate in rates {
            let cell = passing(er);
            let expected = code_of(rate_of(er).min(rate)).unwrap();
            assert_eq!(limited(rate, &cell), passing(expected), "{er:x} {rate}");
        }
    }
}

#[test]
fn er_is_never_raised() {
    let cell = passing(0x4200);
    assert_eq!(limited(1_024, &cell), cell);
    assert_eq!(limited(1_025, &cell), cell);
    assert_eq!(limited(u64::MAX, &cell), cell);
}

/// A code of rate 0 with other bits set is written as 0x0000, also where it is the lower.
#[test]
fn the_code_written_is_canonical() {
    for er in [0x0001, 0x01FF, 0x3FFF] {
        assert_eq!(limited(u64::MAX, &passing(er)), passing(0));
    }
}

#[test]
fn forward_and_data_cells_stay() {
    let mut turned_round = passing(0x3FFF);
    turned_round[6] &= 0x7F;
    cell::put_er(&mut turned_round, 0x3FFF);
    for cell in [turned_round, octets(&forward(32)), data(32, true)] {
        assert_eq!(limited(0, &cell), cell);
        let mut after = cell;
        assert_eq!(port(0, &[1], &mut after), Ok(()));
        assert_eq!(after, cell);
    }
}

#[test]
fn with_no_limit_every_octet_stays() {
    for er in [0x3FFF, 0x7FFF] {
        let cell = passing(er);
        let mut after = cell;
        assert_eq!(port(10, &[5, 5], &mut after), Ok(()));
        assert_eq!(after, cell);
    }
}

#[test]
fn the_port_is_the_share_and_then_the_limit() {
    let demands = [RATES[0], RATES[1], RATES[1]];
    for capacity in [0, 100_000, 1_000_000, RATES[0] + 2 * RATES[1]] {
        let mut after = passing(0x7FFF);
        port(capacity, &demands, &mut after).unwrap();
        let expected = match defined(capacity, &demands) {
            Some(share) => limited(share, &passing(0x7FFF)),
            None => passing(0x7FFF),
        };
        assert_eq!(after, expected);
    }
}

/// Two rates in units.
const RATES: [u64; 2] = [300_000, 2_000_000];

/// Asserts that limit and port refuse a cell, and leave it.
fn refuses(refusal: Refusal, cell: &[u8]) {
    let mut after = cell.to_vec();
    assert_eq!(limit(0, &mut after), Err(refusal));
    assert_eq!(port(0, &[1], &mut after), Err(refusal)); // limited to 0
    assert_eq!(port(1, &[1], &mut after), Err(refusal)); // no limit
    assert_eq!(after, cell);
}

#[test]
fn the_refusals_of_a_cell_with_or_without_a_limit() {
    let good = passing(0x7FFF);
    refuses(Refusal::Length, &good[..52]);
    refuses(Refusal::Length, &[]);
    refuses(Refusal::Length, &[0; 54]);
    let mut cell = good;
    cell[4] ^= 1;
    refuses(Refusal::HeaderCheck, &cell);
    let mut cell = good;
    cell[3] = cell[3] & 0xF1 | 5 << 1;
    cell[4] = header_check(&cell[..4]);
    refuses(Refusal::PayloadType, &cell);
    let mut cell = octets(&backward(32));
    cell[5] = 2;
    refuses(Refusal::Crc, &cell);
    refuses(Refusal::Protocol, &with_crc(cell));
    for code in [7, 9, 11] {
        let mut cell = octets(&backward(32));
        cell[code] |= 0x80;
        refuses(Refusal::Crc, &cell);
        refuses(Refusal::ReservedBit, &with_crc(cell));
    }
}

#[test]
fn the_demands_are_looked_at_before_the_cell() {
    let many = [LARGEST + 1; DEMANDS_MAX + 1];
    for cell in [&mut [0; 52][..], &mut [0; LENGTH]] {
        assert_eq!(port(0, &many, cell), Err(Refusal::TooManyDemands));
        assert_eq!(port(0, &many[..1], cell), Err(Refusal::DemandTooLarge));
    }
}

/// Sources that follow the port are within its capacity in sum, if no minimum holds one
/// of them higher.
#[test]
fn sources_that_follow_the_port_stay_within_its_capacity() {
    let codes = [0x4801, 0x53E8, 0x5000, 0x5A00, 0x7FFF];
    let demands = codes.map(rate_of);
    for capacity in [0, 1_000, 100_000, 1_000_000, 10_000_000] {
        let allowed = codes.map(|code| {
            let mut engine = engine_with(&Params::house(code, 0, code));
            let mut cell = octets(&Rm {
                er: code,
                ..backward(32)
            });
            port(capacity, &demands, &mut cell).unwrap();
            engine.receive(&cell).unwrap();
            engine.acr(at(32)).unwrap()
        });
        assert!(allowed.iter().sum::<u64>() <= capacity);
    }
}
