//! The explicit-rate port (document 02, L10): the share held against its definition, on
//! small lists all of them and on random ones up to 1,024 demands; the limit on every ER.

use abr::{Refusal, Share, CELL_OCTETS, DEMANDS_MAX, RATE_MAX};
use abr_differential::lists;
use abr_differential::octets::{put_crc, put_header, Header};
use abr_differential::rng::Rng;
use abr_reference::{code_of, rate_of};

type Cell = [u8; CELL_OCTETS];

/// The share of the library and of the reference, which must agree.
fn share(capacity: u64, demands: &[u64]) -> Result<Share, Refusal> {
    let ours = abr::fair_share(capacity, demands);
    let theirs = abr_reference::fair_share(capacity, demands);
    let same = theirs.map(|share| share.map_or(Share::NoLimit, Share::Rate));
    let same = same.map_err(|refusal| refusal.number());
    let numbered = ours.map_err(|refusal| refusal.number());
    assert_eq!(numbered, same, "{capacity} among {demands:?}");
    ours
}

/// The sum of min(demand, s).
fn used(demands: &[u64], share: u64) -> u64 {
    demands.iter().map(|demand| share.min(*demand)).sum()
}

/// The share, which is what its definition says: it fits, and one more does not.
fn checked(capacity: u64, demands: &[u64]) -> Share {
    let found = share(capacity, demands).expect("demands in range");
    let right = match found {
        Share::NoLimit => demands.iter().sum::<u64>() <= capacity,
        Share::Rate(rate) => used(demands, rate) <= capacity && used(demands, rate + 1) > capacity,
    };
    assert!(right, "{found:?}: {capacity} among {demands:?}");
    found
}

/// All lists of up to five demands from 0 to 4, with every capacity up to their sum and
/// beyond.
#[test]
fn every_small_list() {
    for count in 0..=5 {
        for number in 0..5_u64.pow(count) {
            let demands: Vec<u64> = (0..count).map(|i| number / 5_u64.pow(i) % 5).collect();
            let mut before = Share::Rate(0);
            for capacity in 0..=21 {
                let now = checked(capacity, &demands);
                assert!(before <= now, "{capacity} among {demands:?}");
                before = now;
            }
        }
    }
}

/// The list that the library goes through most often: each pass finds some demands met
/// that the pass before left one unit short. The counts are of those not met yet.
#[test]
fn the_list_of_most_passes() {
    const ABOVE: [u64; 25] = [
        1024, 789, 608, 468, 360, 277, 213, 164, 126, 97, 75, 58, 45, 35, 27, 21, 16, 12, 9, 7, 5,
        4, 3, 2, 1,
    ];
    let capacity = 1_463_780_477_780_833;
    let (mut share, mut left) = (0, capacity);
    let mut demands = Vec::new();
    for pair in ABOVE.windows(2) {
        let step = left / pair[0] + 1;
        demands.extend((pair[1]..pair[0]).map(|_| share + 1));
        left -= step * pair[1] + (pair[0] - pair[1]);
        share += step;
    }
    demands.push(RATE_MAX);
    assert_eq!(demands.len(), DEMANDS_MAX);
    assert_eq!(checked(capacity, &demands), Share::Rate(2_036_143_994_787));
}

/// A random list: any rates, few different ones, powers of two, or all but one alike.
fn random_demands(rng: &mut Rng) -> Vec<u64> {
    let counts = [1, 2, 3, 17, 256, 1_023, 1_024, rng.within(0, 1_024)];
    let count = rng.pick(&counts) as usize;
    let most = RATE_MAX >> rng.below(42);
    let levels = [0; 3].map(|_| rng.below(most + 1));
    let shape = rng.below(4);
    let mut demands: Vec<u64> = (0..count)
        .map(|place| match shape {
            0 => rng.below(most + 1),
            1 => rng.pick(&levels),
            2 => 1 << (place % 41),
            _ => most,
        })
        .collect();
    if let Some(one) = demands.first_mut() {
        *one = rng.pick(&[*one, 0, 1, RATE_MAX]);
    }
    demands
}

#[test]
fn random_lists_in_any_order_and_rising_capacities() {
    let mut rng = Rng::new(lists::seed() + 5);
    for _ in 0..3_000 {
        let mut demands = random_demands(&mut rng);
        let (sum, count) = (demands.iter().sum::<u64>(), demands.len() as u64);
        let part = rng.below(sum + 1);
        let edges = [
            0,
            count,
            part,
            part + 1,
            part + count,
            sum,
            sum + 1,
            u64::MAX,
        ];
        let mut capacities = [edges, edges.map(|capacity| capacity.saturating_sub(1))].concat();
        capacities.sort_unstable();
        let shares: Vec<Share> = capacities
            .iter()
            .map(|capacity| checked(*capacity, &demands))
            .collect();
        assert!(shares.is_sorted(), "{capacities:?} among {demands:?}");
        rng.shuffle(&mut demands);
        for (capacity, before) in capacities.iter().zip(shares) {
            assert_eq!(share(*capacity, &demands), Ok(before));
        }
    }
}

#[test]
fn the_most_and_the_largest_demands() {
    let full = [RATE_MAX; DEMANDS_MAX];
    let sum = RATE_MAX * DEMANDS_MAX as u64;
    assert_eq!(checked(sum, &full), Share::NoLimit);
    assert_eq!(checked(u64::MAX, &full), Share::NoLimit);
    assert_eq!(checked(sum - 1, &full), Share::Rate(RATE_MAX - 1));
    assert_eq!(checked(1_024, &full), Share::Rate(1));
    assert_eq!(checked(1_023, &full), Share::Rate(0));
    assert_eq!(checked(0, &[]), Share::NoLimit);
}

#[test]
fn demands_that_are_refused_before_any_cell() {
    let refused = |refusal, demands: &[u64]| {
        for capacity in [0, 1, u64::MAX] {
            assert_eq!(share(capacity, demands), Err(refusal));
            for len in [0, 52, CELL_OCTETS] {
                let mut cell = [0xA5; CELL_OCTETS];
                let outcome = abr::port(capacity, demands, &mut cell[..len]);
                assert_eq!(outcome, Err(refusal));
                assert_eq!(cell, [0xA5; CELL_OCTETS]);
            }
        }
    };
    let mut demands = vec![0; DEMANDS_MAX + 1];
    refused(Refusal::TooManyDemands, &demands);
    for place in [0, 1, 511, 1_023] {
        for above in [RATE_MAX + 1, 1 << 41, 1 << 63, u64::MAX] {
            demands[place] = above;
            refused(Refusal::DemandTooLarge, &demands[..DEMANDS_MAX]);
            refused(Refusal::DemandTooLarge, &demands[..=place]);
            refused(Refusal::TooManyDemands, &demands);
        }
        demands[place] = RATE_MAX;
        checked(0, &demands[..DEMANDS_MAX]);
    }
}

/// A backward cell with this ER, whose other bits are random, GFC, CLP and the reserved ones
/// too.
fn passing(rng: &mut Rng, er: u32) -> Cell {
    let mut cell = [0; CELL_OCTETS];
    rng.fill(&mut cell);
    let header = Header {
        gfc: rng.within(0, 15),
        vpi: rng.within(0, 255),
        vci: rng.within(0, 65_535),
        pt: 6,
        clp: rng.within(0, 1),
    };
    put_header(&mut cell, &header);
    cell[5] = 1;
    cell[6] |= 0x80;
    cell[9] &= 0x7F;
    cell[11] &= 0x7F;
    with_er(cell, er)
}

/// The cell with another ER and its CRC-10, which is computed bit by bit.
fn with_er(mut cell: Cell, er: u32) -> Cell {
    cell[7..9].copy_from_slice(&(er as u16).to_be_bytes());
    put_crc(&mut cell);
    cell
}

/// The cell after a limit by a rate, and after a port with one demand above that rate.
fn limited(rate: u64, cell: &Cell) -> Cell {
    let [mut after, mut passed, mut theirs] = [*cell; 3];
    assert_eq!(abr::limit(rate, &mut after), Ok(()));
    assert_eq!(abr_reference::limit(rate, &mut theirs), Ok(()));
    assert_eq!(after, theirs, "{rate}: {cell:02x?}");
    if rate < RATE_MAX {
        assert_eq!(abr::port(rate, &[RATE_MAX], &mut passed), Ok(()));
        assert_eq!(after, passed, "{rate}: {cell:02x?}");
    }
    after
}

/// Every ER with limits around it: the lower of the two is written, and all other bits stay.
#[test]
fn every_er_with_limits_around_it() {
    let mut rng = Rng::new(lists::seed() + 6);
    for er in 0..=0x7FFF {
        let rate = rate_of(er);
        let any = rng.below(RATE_MAX + 1);
        for limit in [
            0,
            511,
            rate.saturating_sub(1),
            rate,
            rate + 1,
            any,
            u64::MAX,
        ] {
            let cell = passing(&mut rng, er);
            let code = code_of(rate.min(limit)).expect("the rate of a code at most");
            let expected = with_er(cell, code);
            assert_eq!(limited(limit, &cell), expected, "{er:x} {limit}");
        }
    }
}

/// Without a limit a cell stays, whatever its ER; and so do forward and data cells.
#[test]
fn cells_that_stay() {
    let mut rng = Rng::new(lists::seed() + 7);
    let stays = |capacity, demands: &[u64], cell: &Cell| {
        let mut after = *cell;
        assert_eq!(abr::port(capacity, demands, &mut after), Ok(()));
        assert_eq!(after, *cell, "{capacity} among {demands:?}");
    };
    for er in (0..=0x7FFF).step_by(7) {
        let cell = passing(&mut rng, er);
        stays(0, &[], &cell);
        stays(3, &[1, 2], &cell);
        let mut forward = cell;
        forward[6] &= 0x7F;
        put_crc(&mut forward);
        let mut data = cell;
        let (gfc, vpi, vci, clp) = (3, 0xA5, 32, 1);
        let pt = rng.within(0, 3);
        put_header(
            &mut data,
            &Header {
                gfc,
                vpi,
                vci,
                pt,
                clp,
            },
        );
        for cell in [forward, data] {
            stays(0, &[1], &cell);
            assert_eq!(limited(0, &cell), cell);
        }
    }
}

/// A cell with every bit flipped, alone: refused, with or without a limit, and left.
#[test]
fn damaged_cells_are_refused_and_left() {
    let mut rng = Rng::new(lists::seed() + 8);
    for bit in 0..8 * CELL_OCTETS {
        let mut cell = passing(&mut rng, 0x7FFF);
        cell[bit / 8] ^= 0x80 >> (bit % 8);
        let expected = Err(match bit {
            0..40 => Refusal::HeaderCheck,
            _ => Refusal::Crc,
        });
        for capacity in [0, 1] {
            let mut after = cell;
            let outcome = abr::port(capacity, &[1], &mut after);
            assert_eq!((outcome, after), (expected, cell), "bit {bit}");
        }
        let mut after = cell;
        let outcome = abr::limit(0, &mut after);
        assert_eq!((outcome, after), (expected, cell), "bit {bit}");
    }
}
