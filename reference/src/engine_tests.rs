//! Tests of the whole engine through its calls.

use crate::address_tests::on;
use crate::cell::{crc10, header_check, LENGTH};
use crate::engine::{Engine, TIME_MAX};
use crate::{
    code_of, rate_of, read, write_rm, Address, Cell, Kind, Opened, Params, Refusal, Rm, Sent,
    COMPARISONS_MAX, CONNECTIONS_MAX,
};

/// One millisecond, the gap at 1,000 cells per second.
pub(crate) const MS: u64 = 1_000_000;

/// The code of 1,000 cells per second.
pub(crate) const THOUSAND: u32 = 0x53E8;

/// A rate of 1,000 cells per second.
pub(crate) const RATE: u64 = 512_000;

/// An initial rate of 1,000 cells per second, between the least minimum and the
/// largest peak.
pub(crate) fn params() -> Params {
    Params::house(0x7FFF, 0x4000, THOUSAND)
}

/// The address of a VCI on VPI 0.
pub(crate) fn at(vci: u32) -> Address {
    Address::new(0, vci)
}

/// An engine with one connection, VCI 32 on VPI 0, opened at time 0.
pub(crate) fn engine_with(params: &Params) -> Engine {
    let mut engine = Engine::new();
    engine.open(at(32), 0, params).unwrap();
    engine
}

/// Opens channels at this time until the table is full: those from VCI 32 on, on VPI 0, that
/// are not open.
pub(crate) fn fill(engine: &mut Engine, time: u64) {
    let mut addresses = (32..).map(at);
    while engine.connections() < CONNECTIONS_MAX {
        let at = addresses.find(|at| engine.acr(*at).is_err()).unwrap();
        engine.open(at, time, &params()).unwrap();
    }
}

/// The answer of an accepted open, which makes one comparison since nothing waits yet.
pub(crate) fn opened(leaf: u32) -> Result<Opened, Refusal> {
    Ok(Opened {
        comparisons: 1,
        leaf,
    })
}

/// The comparisons of a received cell.
pub(crate) fn receive(engine: &mut Engine, cell: &[u8]) -> Result<u32, Refusal> {
    engine.receive(cell).map(|received| received.comparisons)
}

/// The answer of a slot for VCI 32 on leaf 0, whose rate of 1,000 cells per second stays.
pub(crate) fn sent(kind: Kind) -> Sent {
    Sent {
        vpi: 0,
        vci: 32,
        leaf: 0,
        kind,
        made: false,
        acr_before: RATE,
        acr: RATE,
        comparisons: COMPARISONS_MAX,
    }
}

/// The octets of an RM cell.
pub(crate) fn octets(rm: &Rm) -> [u8; LENGTH] {
    let mut cell = [0; LENGTH];
    write_rm(rm, &mut cell).unwrap();
    cell
}

/// A backward cell that leaves the rate as it is.
pub(crate) fn backward(vci: u32) -> Rm {
    Rm {
        vci,
        dir: 1,
        ni: 1,
        er: 0x7FFF,
        ..Rm::default()
    }
}

/// A forward cell as some other source may send it.
pub(crate) fn forward(vci: u32) -> Rm {
    Rm {
        vci,
        er: THOUSAND,
        ccr: 0x4000,
        mcr: 0x4000,
        ..Rm::default()
    }
}

/// A data cell.
pub(crate) fn data(vci: u32, efci: bool) -> [u8; LENGTH] {
    let mut cell = [0x77; LENGTH];
    let word = vci << 4 | u32::from(efci) << 2;
    cell[..4].copy_from_slice(&word.to_be_bytes());
    cell[4] = header_check(&cell[..4]);
    cell
}

/// The cell with a right CRC-10, the six reserved bits being 0.
pub(crate) fn with_crc(mut cell: [u8; LENGTH]) -> [u8; LENGTH] {
    let crc = (0..6).fold(crc10(&cell[5..51]), |crc, _| {
        let next = crc << 1;
        if next & 0x400 == 0 {
            next
        } else {
            next ^ 0x633
        }
    });
    cell[51..].copy_from_slice(&crc.to_be_bytes());
    cell
}

/// The data cells that wait on a channel, a path or a member; none if it is not open.
pub(crate) fn waiting(engine: &Engine, at: Address) -> u64 {
    engine.status(at).map_or(0, |status| status.waiting)
}

/// A slot whose kind alone counts; nothing when idle.
pub(crate) fn kind(engine: &mut Engine, time: u64) -> Option<Kind> {
    let sent = engine.slot(time, &mut [0; LENGTH]).unwrap();
    sent.map(|sent| sent.kind)
}

/// A slot and the RM cell that it wrote.
pub(crate) fn slot_rm(engine: &mut Engine, time: u64) -> (Sent, Rm) {
    let mut buffer = [0; LENGTH];
    let sent = engine.slot(time, &mut buffer).unwrap().unwrap();
    match read(&buffer) {
        Ok(Cell::Rm(rm)) => (sent, rm),
        other => panic!("no RM cell: {other:?}"),
    }
}

/// Asserts that a call is refused for a reason and changes nothing.
pub(crate) fn refused<T: std::fmt::Debug + PartialEq>(
    engine: &Engine,
    refusal: Refusal,
    call: impl FnOnce(&mut Engine) -> Result<T, Refusal>,
) {
    let mut after = engine.clone();
    assert_eq!(call(&mut after), Err(refusal));
    assert_eq!(&after, engine);
}

#[test]
fn the_first_cell_is_forward() {
    let mut engine = engine_with(&params());
    assert_eq!(kind(&mut engine, 5), None);
    engine.offer(at(32), 1).unwrap();
    let (answer, rm) = slot_rm(&mut engine, 5);
    assert_eq!(answer, sent(Kind::Forward));
    let expected = Rm {
        vci: 32,
        er: 0x7FFF,
        ccr: THOUSAND,
        mcr: 0x4000,
        ..Rm::default()
    };
    assert_eq!(rm, expected);
    assert_eq!(kind(&mut engine, 5 + MS - 1), None);
    assert_eq!(kind(&mut engine, 5 + MS), Some(Kind::Data));
    assert_eq!(kind(&mut engine, 5 + 2 * MS), None);
}

#[test]
fn ccr_is_the_code_below_the_rate() {
    let mut engine = engine_with(&params());
    engine.offer(at(32), 1).unwrap();
    let cut = Rm {
        ci: 1,
        ..backward(32)
    };
    for _ in 0..3 {
        engine.receive(&octets(&cut)).unwrap();
    }
    let acr = 421_875;
    assert_eq!(engine.acr(at(32)), Ok(acr));
    let (sent, rm) = slot_rm(&mut engine, 0);
    assert_eq!(sent.acr, acr);
    assert_eq!(Ok(rm.ccr), code_of(acr));
    assert!(rate_of(rm.ccr) < acr && acr < rate_of(rm.ccr + 1));
}

#[test]
fn a_forward_cell_comes_at_nrm_less_1() {
    let mut engine = engine_with(&params());
    engine.offer(at(32), 100).unwrap();
    for cycle in 0..2 {
        for k in 0..32 {
            let expected = if k == 0 { Kind::Forward } else { Kind::Data };
            assert_eq!(kind(&mut engine, (cycle * 32 + k) * MS), Some(expected));
        }
    }
}

#[test]
fn at_nrm_less_1_nothing_need_wait() {
    let mut engine = engine_with(&Params { n: 2, ..params() });
    engine.offer(at(32), 3).unwrap();
    for time in 0..4 {
        assert!(kind(&mut engine, time * MS).is_some());
    }
    assert_eq!(kind(&mut engine, 4 * MS - 1), None);
    assert_eq!(kind(&mut engine, 4 * MS), Some(Kind::Forward));
    assert_eq!(kind(&mut engine, 1_000 * MS), None);
}

#[test]
fn nrm_2_alternates() {
    let mut engine = engine_with(&Params { n: 1, ..params() });
    engine.offer(at(32), 3).unwrap();
    for time in 0..7 {
        let expected = if time % 2 == 0 {
            Kind::Forward
        } else {
            Kind::Data
        };
        assert_eq!(kind(&mut engine, time * MS), Some(expected));
    }
    assert_eq!(kind(&mut engine, 1_000 * MS), None);
}

#[test]
fn trm_with_nothing_waiting() {
    let mut engine = engine_with(&params());
    engine.offer(at(32), 2).unwrap();
    for time in [0, 1, 2] {
        assert!(kind(&mut engine, time * MS).is_some());
    }
    assert_eq!(kind(&mut engine, 100 * MS - 1), None);
    assert_eq!(kind(&mut engine, 100 * MS), Some(Kind::Forward));
    assert_eq!(kind(&mut engine, 1_000 * MS), None);
}

#[test]
fn trm_with_data_waiting() {
    for (time, expected) in [(100 * MS - 1, Kind::Data), (100 * MS, Kind::Forward)] {
        let mut engine = engine_with(&params());
        engine.offer(at(32), 9).unwrap();
        for time in [0, 1, 2] {
            assert!(kind(&mut engine, time * MS).is_some());
        }
        assert_eq!(kind(&mut engine, time), Some(expected));
    }
}

#[test]
fn trm_needs_two_cells() {
    let mut engine = engine_with(&params());
    engine.offer(at(32), 1).unwrap();
    assert_eq!(kind(&mut engine, 0), Some(Kind::Forward));
    assert_eq!(kind(&mut engine, MS), Some(Kind::Data));
    assert_eq!(kind(&mut engine, 500 * MS), None);
    engine.offer(at(32), 2).unwrap();
    assert_eq!(kind(&mut engine, 500 * MS), Some(Kind::Data));
    assert_eq!(kind(&mut engine, 501 * MS), Some(Kind::Forward));
    assert_eq!(kind(&mut engine, 502 * MS), Some(Kind::Data));
}

#[test]
fn trm_does_not_shorten_the_gap() {
    let mut engine = engine_with(&Params::house(0x4000, 0x4000, 0x4000));
    engine.offer(at(32), 2).unwrap();
    for time in [0, 1_000, 2_000] {
        assert!(kind(&mut engine, time * MS).is_some());
    }
    assert_eq!(kind(&mut engine, 3_000 * MS - 1), None); // Trm passed, the gap not
    assert_eq!(kind(&mut engine, 3_000 * MS), Some(Kind::Forward));
}

/// Feedback raises the rate to the peak; then a forward cell goes at `time`.
fn rate_after_pause(time: u64) -> u64 {
    let mut engine = engine_with(&Params { r: 0, ..params() });
    engine.offer(at(32), 9).unwrap();
    for time in [0, 1, 2] {
        assert!(kind(&mut engine, time * MS).is_some());
    }
    engine
        .receive(&octets(&Rm {
            ni: 0,
            ..backward(32)
        }))
        .unwrap();
    assert_eq!(engine.acr(at(32)), Ok(2_196_875_771_904));
    let (sent, rm) = slot_rm(&mut engine, time);
    assert_eq!(sent.kind, Kind::Forward);
    assert_eq!(code_of(sent.acr), Ok(rm.ccr));
    assert_eq!(engine.acr(at(32)), Ok(sent.acr));
    sent.acr
}

#[test]
fn at_exactly_adtf_the_rate_is_unchanged() {
    assert_eq!(rate_after_pause(500 * MS), 2_196_875_771_904);
    assert_eq!(rate_after_pause(500 * MS + 1), RATE);
}

#[test]
fn feedback_before_the_first_cell() {
    let mut engine = engine_with(&params());
    engine
        .receive(&octets(&Rm {
            ni: 0,
            ..backward(32)
        }))
        .unwrap();
    assert_eq!(engine.acr(at(32)), Ok(RATE + 2_196_875_771_904 / 16));
    engine.offer(at(32), 1).unwrap();
    let (sent, rm) = slot_rm(&mut engine, 0);
    assert_eq!((sent.acr, rm.ccr), (RATE, THOUSAND));
    assert_eq!(engine.acr(at(32)), Ok(RATE));
}

#[test]
fn idle_is_tested_before_unanswered() {
    let mut engine = engine_with(&Params {
        tbe: 32, // CRM 1
        r: 0,
        c: 1,
        ..params()
    });
    engine.offer(at(32), 9).unwrap();
    for time in [0, 1, 2] {
        assert!(kind(&mut engine, time * MS).is_some());
    }
    let raise = Rm {
        ni: 0,
        bn: 1,
        ..backward(32)
    };
    engine.receive(&octets(&raise)).unwrap();
    let (sent, _) = slot_rm(&mut engine, 501 * MS);
    assert_eq!(sent.acr, RATE / 2);
}

#[test]
fn unanswered_cells_cut_the_rate() {
    let mut engine = engine_with(&Params {
        n: 1,
        tbe: 3, // CRM 2
        ..params()
    });
    engine.offer(at(32), 50).unwrap();
    let mut rates = Vec::new();
    for step in 0..12 {
        let sent = engine
            .slot(step * 2 * MS, &mut [0; LENGTH])
            .unwrap()
            .unwrap();
        if sent.kind == Kind::Forward {
            rates.push(sent.acr);
        }
    }
    assert_eq!(
        rates,
        [512_000, 512_000, 480_000, 450_000, 421_875, 395_507]
    );
}

/// The rate of a third forward cell after a backward cell with this BN.
fn rate_after_answer(bn: u32) -> u64 {
    let mut engine = engine_with(&Params {
        n: 1,
        tbe: 3, // CRM 2
        ..params()
    });
    engine.offer(at(32), 9).unwrap();
    for step in 0..4 {
        assert!(kind(&mut engine, step * MS).is_some());
    }
    engine.receive(&octets(&Rm { bn, ..backward(32) })).unwrap();
    slot_rm(&mut engine, 4 * MS).0.acr
}

#[test]
fn bn_1_is_not_an_answer() {
    assert_eq!(rate_after_answer(0), 512_000);
    assert_eq!(rate_after_answer(1), 480_000);
}

#[test]
fn feedback_moves_its_own_connection_only() {
    let mut engine = engine_with(&params());
    engine.open(at(33), 0, &params()).unwrap();
    let cut = Rm {
        ci: 1,
        ..backward(33)
    };
    engine.receive(&octets(&cut)).unwrap();
    engine.receive(&octets(&cut)).unwrap();
    assert_eq!(engine.acr(at(32)), Ok(512_000));
    assert_eq!(engine.acr(at(33)), Ok(450_000));
}

#[test]
fn the_gap_is_that_of_the_present_rate() {
    let mut engine = engine_with(&params());
    engine.offer(at(32), 9).unwrap();
    assert_eq!(kind(&mut engine, 0), Some(Kind::Forward));
    engine
        .receive(&octets(&Rm {
            er: 0x4000,
            ..backward(32)
        }))
        .unwrap();
    assert_eq!(kind(&mut engine, 1_000 * MS - 1), None);
    engine
        .receive(&octets(&Rm {
            ni: 0,
            ..backward(32)
        }))
        .unwrap();
    assert_eq!(kind(&mut engine, 1_000 * MS - 1), Some(Kind::Data));
}

#[test]
fn a_turned_cell_alone_makes_a_connection_ready() {
    let mut engine = engine_with(&params());
    engine.receive(&octets(&forward(32))).unwrap();
    assert_eq!(kind(&mut engine, 0), Some(Kind::Forward));
    let (answer, rm) = slot_rm(&mut engine, MS);
    assert_eq!(answer, sent(Kind::Turned));
    assert_eq!(
        rm,
        Rm {
            dir: 1,
            ..forward(32)
        }
    );
    assert_eq!(kind(&mut engine, 2 * MS), None);
}

#[test]
fn one_turned_cell_and_then_data() {
    let mut engine = engine_with(&params());
    engine.offer(at(32), 2).unwrap();
    let mut kinds = Vec::new();
    for step in 0..6 {
        engine.receive(&octets(&forward(32))).unwrap();
        kinds.extend(kind(&mut engine, step * MS));
    }
    use Kind::{Data, Forward, Turned};
    assert_eq!(kinds, [Forward, Turned, Data, Data, Turned, Turned]);
}

#[test]
fn after_a_forward_cell_a_turned_one_is_first_again() {
    let mut engine = engine_with(&Params { n: 2, ..params() });
    engine.offer(at(32), 9).unwrap();
    let mut kinds = Vec::new();
    for step in 0..8 {
        engine.receive(&octets(&forward(32))).unwrap();
        kinds.extend(kind(&mut engine, step * MS));
    }
    use Kind::{Data, Forward, Turned};
    let cycle = [Forward, Turned, Data, Data];
    assert_eq!(kinds, [cycle, cycle].concat());
}

#[test]
fn a_later_forward_cell_replaces_the_waiting_one() {
    let mut engine = engine_with(&params());
    engine
        .receive(&octets(&Rm {
            sn: 1,
            ci: 1,
            ..forward(32)
        }))
        .unwrap();
    engine
        .receive(&octets(&Rm {
            sn: 2,
            ni: 1,
            ..forward(32)
        }))
        .unwrap();
    assert_eq!(kind(&mut engine, 0), Some(Kind::Forward));
    let (_, rm) = slot_rm(&mut engine, MS);
    assert_eq!(
        rm,
        Rm {
            sn: 2,
            ci: 1,
            ni: 1,
            dir: 1,
            ..forward(32)
        }
    );
    assert_eq!(kind(&mut engine, 2 * MS), None);
}

#[test]
fn the_mark_of_a_replaced_cell_is_kept_on_its_connection() {
    let mut engine = engine_with(&params());
    engine.open(at(33), 0, &params()).unwrap();
    engine.receive(&data(32, true)).unwrap();
    for vci in [32, 33, 32, 33] {
        engine.receive(&octets(&forward(vci))).unwrap();
    }
    for _ in [32, 33] {
        assert_eq!(kind(&mut engine, 0), Some(Kind::Forward));
    }
    for (vci, ci) in [(32, 1), (33, 0)] {
        let (sent, rm) = slot_rm(&mut engine, MS);
        assert_eq!((sent.vci, rm.ci), (vci, ci));
    }
    engine.receive(&octets(&forward(32))).unwrap(); // replaces nothing
    assert_eq!(slot_rm(&mut engine, 2 * MS).1.ci, 0);
}

#[test]
fn the_level_at_receipt_marks_the_cell() {
    let mut engine = engine_with(&params());
    engine.set_level(2).unwrap();
    engine.receive(&octets(&forward(32))).unwrap();
    engine.set_level(1).unwrap();
    assert_eq!(kind(&mut engine, 0), Some(Kind::Forward));
    let (_, rm) = slot_rm(&mut engine, MS);
    assert_eq!((rm.ci, rm.ni), (1, 0));
}

#[test]
fn the_level_holds_for_all_connections() {
    let mut engine = engine_with(&params());
    engine.set_level(1).unwrap();
    engine.close(at(32)).unwrap();
    for vci in [32, 33] {
        engine.open(at(vci), 0, &params()).unwrap();
        engine.receive(&octets(&forward(vci))).unwrap();
        assert_eq!(kind(&mut engine, 0), Some(Kind::Forward));
    }
    for _ in 0..2 {
        assert_eq!(slot_rm(&mut engine, MS).1.ni, 1);
    }
}

#[test]
fn data_and_idle_slots_do_not_write_the_buffer() {
    let mut engine = engine_with(&params());
    let mut buffer = [0xA5; LENGTH];
    assert_eq!(engine.slot(0, &mut buffer), Ok(None));
    assert_eq!(buffer, [0xA5; LENGTH]);
    engine.offer(at(32), 1).unwrap();
    assert_eq!(kind(&mut engine, 0), Some(Kind::Forward));
    assert_eq!(engine.slot(MS, &mut buffer), Ok(Some(sent(Kind::Data))));
    assert_eq!(buffer, [0xA5; LENGTH]);
}

#[test]
fn the_earliest_goes_first_and_ties_to_the_lower_vci() {
    let mut engine = Engine::new();
    for (vci, time) in [(50, 0), (40, 7), (60, 7), (45, 7)] {
        engine.open(at(vci), time, &params()).unwrap();
        engine.offer(at(vci), 9).unwrap();
    }
    let mut served = Vec::new();
    for time in [7, 8, 9, 10, MS + 7, MS + 8, MS + 9, MS + 10, MS + 10] {
        let sent = engine.slot(time, &mut [0; LENGTH]).unwrap();
        served.push(sent.map_or(0, |sent| sent.vci));
    }
    assert_eq!(served, [50, 40, 45, 60, 50, 40, 45, 60, 0]);
}

#[test]
fn the_earlier_ready_instant_is_first() {
    let mut engine = engine_with(&params());
    engine.open(at(40), 0, &params()).unwrap();
    engine.offer(at(32), 2).unwrap();
    assert_eq!(kind(&mut engine, 0), Some(Kind::Forward));
    engine.offer(at(40), 2).unwrap(); // ready since time 0, though data came later
    let sent = engine.slot(900 * MS, &mut [0; LENGTH]).unwrap().unwrap();
    assert_eq!(sent.vci, 40);
}

#[test]
fn a_vci_opened_again_starts_anew() {
    let mut engine = engine_with(&params());
    engine.offer(at(32), 9).unwrap();
    engine.receive(&data(32, true)).unwrap();
    engine.receive(&octets(&forward(32))).unwrap();
    engine
        .receive(&octets(&Rm {
            ci: 1,
            ..backward(32)
        }))
        .unwrap();
    assert_eq!(kind(&mut engine, 0), Some(Kind::Forward));
    engine.close(at(32)).unwrap();
    refused(&engine, Refusal::NotOpen, |engine| engine.acr(at(32)));
    engine.open(at(32), 0, &params()).unwrap();
    assert_eq!(engine, engine_with(&params()));
}

#[test]
fn offers_up_to_65_535() {
    let mut engine = engine_with(&params());
    refused(&engine, Refusal::TooMuchData, |engine| {
        engine.offer(at(32), 65_536)
    });
    refused(&engine, Refusal::TooMuchData, |engine| {
        engine.offer(at(32), u64::MAX)
    });
    assert!(engine.offer(at(32), 0).is_ok());
    assert_eq!(engine, engine_with(&params()));
    assert!(engine.offer(at(32), 65_535).is_ok());
    assert!(engine.offer(at(32), 0).is_ok());
    refused(&engine, Refusal::TooMuchData, |engine| {
        engine.offer(at(32), 1)
    });
    refused(&engine, Refusal::TooMuchData, |engine| {
        engine.offer(at(32), u64::MAX)
    });
    refused(&engine, Refusal::NotOpen, |engine| {
        engine.offer(at(33), u64::MAX)
    });
}

#[test]
fn calls_on_what_is_not_open_are_refused_with_11() {
    let engine = engine_with(&params());
    for vci in [0, 31, 33, 65_535, 65_536, 65_568, u32::MAX] {
        refused(&engine, Refusal::NotOpen, |engine| engine.close(at(vci)));
        refused(&engine, Refusal::NotOpen, |engine| engine.offer(at(vci), 0));
        refused(&engine, Refusal::NotOpen, |engine| engine.acr(at(vci)));
    }
    for cell in [data(33, true), octets(&forward(33)), octets(&backward(31))] {
        refused(&engine, Refusal::NotOpen, |engine| engine.receive(&cell));
    }
}

#[test]
fn levels_over_2_are_refused_with_9() {
    let mut engine = engine_with(&params());
    for level in 0..3 {
        assert_eq!(engine.set_level(level), Ok(()));
    }
    refused(&engine, Refusal::TooLarge, |engine| engine.set_level(3));
    refused(&engine, Refusal::TooLarge, |engine| {
        engine.set_level(u32::MAX)
    });
}

#[test]
fn vcis_that_open() {
    for vci in [32, 65_535] {
        let mut engine = Engine::new();
        assert!(engine.open(at(vci), 0, &params()).is_ok());
        assert_eq!(engine.acr(at(vci)), Ok(RATE));
    }
    let engine = Engine::new();
    for vci in [0, 31] {
        refused(&engine, Refusal::LowVci, |engine| {
            engine.open(at(vci), 0, &params())
        });
    }
    for vci in [65_536, u32::MAX] {
        refused(&engine, Refusal::Range, |engine| {
            engine.open(at(vci), 0, &params())
        });
    }
}

#[test]
fn the_latest_time() {
    let mut engine = Engine::new();
    refused(&engine, Refusal::Time, |engine| {
        engine.open(at(32), TIME_MAX + 1, &params())
    });
    refused(&engine, Refusal::Time, |engine| {
        engine.slot(TIME_MAX + 1, &mut [0; LENGTH])
    });
    assert_eq!(TIME_MAX, 4_611_686_018_427_387_904);
    assert!(engine.open(at(32), TIME_MAX, &params()).is_ok());
    engine.offer(at(32), 1).unwrap();
    assert_eq!(kind(&mut engine, TIME_MAX), Some(Kind::Forward));
    assert_eq!(kind(&mut engine, TIME_MAX), None);
}

#[test]
fn as_many_as_the_capacity_may_be_open() {
    let mut engine = Engine::new();
    fill(&mut engine, 0);
    assert_eq!(engine.connections(), CONNECTIONS_MAX);
    refused(&engine, Refusal::Full, |engine| {
        engine.open(at(2_000), 0, &params())
    });
    engine.close(at(40)).unwrap();
    assert!(engine.open(at(2_000), 0, &params()).is_ok());
}

#[test]
fn the_order_of_refusals_when_opening() {
    let mut engine = Engine::new();
    fill(&mut engine, 9);
    let bad = Params { n: 0, ..params() };
    let late = TIME_MAX + 1;
    refused(&engine, Refusal::LowVci, |engine| {
        engine.open(at(31), late, &bad)
    });
    refused(&engine, Refusal::Range, |engine| {
        engine.open(at(32), late, &bad)
    });
    refused(&engine, Refusal::Range, |engine| {
        engine.open(at(65_536), late, &params())
    });
    refused(&engine, Refusal::Time, |engine| {
        engine.open(at(32), late, &params())
    });
    refused(&engine, Refusal::AlreadyOpen, |engine| {
        engine.open(at(32), 8, &params())
    });
    refused(&engine, Refusal::Full, |engine| {
        engine.open(at(2_000), 8, &params())
    });
    engine.close(at(40)).unwrap();
    refused(&engine, Refusal::TimeBackward, |engine| {
        engine.open(at(2_000), 8, &params())
    });
    assert!(engine.open(at(2_000), 9, &params()).is_ok());
}

#[test]
fn the_order_of_refusals_of_a_slot() {
    let mut engine = engine_with(&params());
    engine.offer(at(32), 1).unwrap();
    engine.open(at(33), 9, &params()).unwrap();
    for length in [0, 52, 54] {
        let mut buffer = vec![0xA5; length];
        refused(&engine, Refusal::Length, |engine| {
            engine.slot(TIME_MAX + 1, &mut buffer)
        });
        refused(&engine, Refusal::Length, |engine| {
            engine.slot(8, &mut buffer)
        });
    }
    let mut buffer = [0xA5; LENGTH];
    refused(&engine, Refusal::Time, |engine| {
        engine.slot(TIME_MAX + 1, &mut buffer)
    });
    refused(&engine, Refusal::TimeBackward, |engine| {
        engine.slot(8, &mut buffer)
    });
    assert_eq!(buffer, [0xA5; LENGTH]);
    assert_eq!(kind(&mut engine, 9), Some(Kind::Forward));
}

#[test]
fn the_order_of_refusals_when_receiving() {
    let engine = engine_with(&params());
    let mut cell = octets(&forward(33));
    refused(&engine, Refusal::NotOpen, |engine| engine.receive(&cell));
    cell[5] = 0;
    refused(&engine, Refusal::Crc, |engine| engine.receive(&cell));
    refused(&engine, Refusal::Protocol, |engine| {
        engine.receive(&with_crc(cell))
    });
    cell[3] ^= 0x0A; // payload type 3 without the CLP touched
    cell[4] = header_check(&cell[..4]);
    refused(&engine, Refusal::NotOpen, |engine| engine.receive(&cell));
    cell[3] |= 0x0E;
    cell[4] = header_check(&cell[..4]);
    refused(&engine, Refusal::PayloadType, |engine| {
        engine.receive(&cell)
    });
    cell[1] |= 0x10; // another VPI, which is judged last
    cell[4] = header_check(&cell[..4]);
    refused(&engine, Refusal::PayloadType, |engine| {
        engine.receive(&cell)
    });
    cell[4] ^= 1;
    refused(&engine, Refusal::HeaderCheck, |engine| {
        engine.receive(&cell)
    });
    refused(&engine, Refusal::Length, |engine| {
        engine.receive(&cell[1..])
    });
}

#[test]
fn an_idle_slots_time_counts_and_a_refused_ones_does_not() {
    let mut engine = engine_with(&params());
    assert_eq!(kind(&mut engine, 10), None);
    refused(&engine, Refusal::TimeBackward, |engine| {
        engine.slot(9, &mut [0; LENGTH])
    });
    refused(&engine, Refusal::TimeBackward, |engine| {
        engine.open(at(33), 9, &params())
    });
    refused(&engine, Refusal::Length, |engine| engine.slot(20, &mut []));
    assert_eq!(kind(&mut engine, 10), None);
    assert!(engine.open(at(33), 10, &params()).is_ok());
}

#[test]
fn closing_does_not_reset_the_last_time() {
    let mut engine = Engine::new();
    engine.open(at(32), 10, &params()).unwrap();
    engine.close(at(32)).unwrap();
    refused(&engine, Refusal::TimeBackward, |engine| {
        engine.open(at(32), 9, &params())
    });
}

/// The code of the least rate of a connection in the random calls: those on even
/// VCIs have no minimum.
fn least_code(vci: u32) -> u32 {
    [0x0000, 0x4000][vci as usize % 2]
}

/// The connections of the random calls: equal VCIs on different VPIs, and VCIs that rise
/// where the names do not.
const RANDOM: [Address; 4] = [
    Address::new(0, 33),
    Address::new(1, 32),
    Address::new(1, 33),
    Address::new(255, 32),
];

/// The parameters of one of those.
fn random_params(at: Address) -> Params {
    Params::house(0x53E8, least_code(at.vci), 0x4A00)
}

/// Random numbers below a limit, by a linear congruence (Knuth) from a seed.
pub(crate) fn draws(seed: u64) -> impl FnMut(u32) -> u32 {
    let mut state = seed;
    move |limit| {
        state = state.wrapping_mul(6_364_136_223_846_793_005);
        state = state.wrapping_add(1_442_695_040_888_963_407);
        (state >> 33) as u32 % limit
    }
}

/// A random RM cell for an address.
fn random_rm(at: Address, mut draw: impl FnMut(u32) -> u32) -> Rm {
    Rm {
        vpi: at.vpi,
        vci: at.vci,
        dir: draw(2),
        bn: draw(2),
        ci: draw(2),
        ni: draw(2),
        er: draw(0x8000),
        ..Rm::default()
    }
}

/// A random call on the engine, on one of those, accepted or refused. Its
/// comparisons, 0 for a set level, an out-of-rate cell and an idle slot.
fn random_call(
    engine: &mut Engine,
    time: &mut u64,
    mut draw: impl FnMut(u32) -> u32,
) -> Result<u32, Refusal> {
    let at = RANDOM[draw(4) as usize];
    match draw(10) {
        0 if draw(8) == 0 => engine.close(at).map(|closed| closed.comparisons),
        0 => {
            let opened = engine.open(at, *time, &random_params(at));
            opened.map(|opened| opened.comparisons)
        }
        1 => engine.offer(at, u64::from(draw(9))),
        2 => engine.set_level(draw(4)).map(|()| 0),
        3 => receive(engine, &on(data(at.vci, draw(2) == 1), 0, at.vpi)),
        6 => engine.make(at, *time),
        7 => {
            let top = engine.top();
            let answer = engine.out_of_rate(at, *time, &mut [0; LENGTH]);
            assert_eq!(engine.top(), top);
            answer.map(|()| 0)
        }
        4 | 5 => receive(engine, &octets(&random_rm(at, draw))),
        _ => {
            *time += u64::from(draw(40_000_000));
            slot_of_the_top(engine, *time)
        }
    }
}

/// A slot, which goes to the winner of the tournament with a comparison at every level if
/// that one is ready, and else is idle.
fn slot_of_the_top(engine: &mut Engine, time: u64) -> Result<u32, Refusal> {
    let top = engine.top().filter(|(ready, _)| *ready <= time);
    let sent = engine.slot(time, &mut [0; LENGTH])?;
    let name = |sent: Sent| Address::new(sent.vpi, sent.vci).name();
    assert_eq!(sent.and_then(name), top.map(|(_, name)| name));
    let comparisons = sent.map_or(0, |sent| sent.comparisons);
    assert_eq!(
        comparisons,
        if sent.is_some() { COMPARISONS_MAX } else { 0 }
    );
    Ok(comparisons)
}

#[test]
fn rates_and_comparisons_stay_in_bounds_in_long_lists() {
    let mut engine = Engine::new();
    let (mut draw, mut time, mut moved, mut stopped) = (draws(1), 0, 0, 0);
    for _ in 0..200_000 {
        let before = engine.acr(at(33));
        let answer = random_call(&mut engine, &mut time, &mut draw);
        assert!(answer.is_err() || answer.is_ok_and(|comparisons| comparisons <= COMPARISONS_MAX));
        moved += u32::from(engine.acr(at(33)) != before);
        for at in RANDOM {
            let Ok(acr) = engine.acr(at) else { continue };
            assert!((rate_of(least_code(at.vci))..=512_000).contains(&acr));
            stopped += u32::from(acr == 0);
        }
    }
    assert!(moved > 1_000 && stopped > 1_000);
}
