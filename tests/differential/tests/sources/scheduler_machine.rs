//! The scheduler machine of source document 001.

use abr::{Kind, Params, Rm};

use crate::station::{
    code, paper, read, short_adtf, Station, BELOW_INITIAL, BELOW_INITIAL_CODE, INITIAL, MINIMUM,
    MS, PEAK_CODE, THREE_HUNDRED, THREE_HUNDRED_CODE,
};

/// A backward cell that no source made: it moves the rate and leaves Y.
fn notice(er: u32) -> Rm {
    Rm {
        bn: true,
        er,
        ..Rm::default()
    }
}

/// Kinds of cell in slots 5 ms apart, the gap at 200 cells per second.
fn kinds(station: &mut Station, start: u64, slots: u64) -> Vec<Option<Kind>> {
    let times = (0..slots).map(|i| start + i * 5 * MS);
    times.map(|time| station.kind(time)).collect()
}

#[test]
fn t1_starts_with_y_0() {
    // CRM 1. Before the first cell Y is 0, before the second 1 = CRM:
    // 102,400 x 7 / 8 = 89,600.
    let tbe = 16;
    let mut station = Station::open(&Params { tbe, ..paper() });
    assert_eq!(station.unanswered(2), [INITIAL, 89_600]);
}

#[test]
fn t2_by_time_then_by_count_from_zero_again() {
    let mut station = Station::open(&paper());
    station.round(0);
    station.offer(100);
    // k is 2 and Trm has passed: a forward cell although data waits.
    assert_eq!(station.kind(100 * MS), Some(Kind::Forward));
    // Both counts and the timer start again: 15 data cells at 105 to 175 ms,
    // within Trm of 100 ms, then the next forward cell.
    let sent = kinds(&mut station, 105 * MS, 16);
    assert_eq!(sent[..15], [Some(Kind::Data); 15]);
    assert_eq!(sent[15], Some(Kind::Forward));
}

#[test]
fn t2_turned_cells_count_too() {
    let mut station = Station::open(&paper());
    station.offer(100);
    station.receive_forward(Rm::default());
    station.forward(0);
    let sent = kinds(&mut station, 5 * MS, 16);
    assert_eq!(sent[0], Some(Kind::Turned));
    assert_eq!(sent[1..15], [Some(Kind::Data); 14]);
    assert_eq!(sent[15], Some(Kind::Forward));
}

#[test]
fn t2_waits_for_the_gap_and_needs_no_data() {
    let mut station = Station::open(&paper());
    station.offer(15);
    station.forward(0);
    kinds(&mut station, 5 * MS, 15);
    // 15 cells are sent and nothing waits: due 5 ms after the last, at 80 ms.
    assert_eq!(station.slot(80 * MS - 1), None);
    assert_eq!(station.kind(80 * MS), Some(Kind::Forward));
}

#[test]
fn t2_leaves_a_rate_not_above_icr_and_writes_it_as_ccr() {
    let mut station = Station::open(&short_adtf());
    station.round(0);
    station.receive_backward(notice(BELOW_INITIAL_CODE));
    // 240 ms is past ADTF, but 150 cells/s is below ICR.
    let sent = station.slot(240 * MS).expect("a forward cell");
    assert_eq!((sent.kind, sent.acr), (Kind::Forward, BELOW_INITIAL));
    assert_eq!(read(&sent.cell).ccr, BELOW_INITIAL_CODE);
}

/// The allowed rate after so many unanswered forward cells, a rise to 300
/// cells per second, and one more forward cell 240 ms after the last.
fn idle_after(rounds: u64, params: &Params) -> u64 {
    let mut station = Station::open(params);
    assert_eq!(station.unanswered(rounds), vec![INITIAL; rounds as usize]);
    station.receive_backward(notice(THREE_HUNDRED_CODE));
    assert_eq!(station.acr(), THREE_HUNDRED);
    station.forward((rounds - 1) * 100 * MS + 240 * MS)
}

#[test]
fn t3_and_t4_idle_with_y_below_crm() {
    // Y is 2, CRM 3: ICR and no more.
    assert_eq!(idle_after(2, &short_adtf()), INITIAL);
}

#[test]
fn t3_and_t5_idle_with_y_at_crm() {
    // Y is 3: ICR, then 102,400 x 7 / 8.
    assert_eq!(idle_after(3, &short_adtf()), 89_600);
    // MCR 180 cells/s, 92,160 = 2^7 x 720, is above 89,600.
    let mcr = code(7, 720);
    let params = Params {
        mcr,
        ..short_adtf()
    };
    assert_eq!(idle_after(3, &params), 180 * 512);
    // CDF zero, which the paper does not have: no cut.
    let c = 7;
    let params = Params { c, ..short_adtf() };
    assert_eq!(idle_after(3, &params), INITIAL);
}

#[test]
fn t3_waits_for_the_gap() {
    // ICR 1 cell/s, raised to 2 by ER; Nrm 2, ADTF 10 ms. A data cell at
    // 1,000 ms leaves k = Nrm - 1 and T past ADTF. The paper's T3 asks for no
    // gap and would send at once; the gap of 2 cells/s is 500 ms.
    let (one, two) = (code(0, 512), code(1, 512));
    let params = Params {
        mcr: one,
        icr: one,
        n: 1,
        adtf: 1,
        ..paper()
    };
    let mut station = Station::open(&params);
    station.offer(2);
    station.forward(0);
    station.receive_backward(notice(two));
    assert_eq!(station.kind(1_000 * MS), Some(Kind::Data));
    assert_eq!(station.acr(), 1_024);
    assert_eq!(station.slot(1_500 * MS - 1), None);
    assert_eq!(station.forward(1_500 * MS), 512);
}

#[test]
fn t5_cuts_without_idle_down_to_mcr() {
    // Y is 0, 1, 2, then 3 and more: 7/8 of the rate each time, rounded down,
    // at last 45,955, below MCR. Within ADTF the paper's T2 would not cut.
    let expected = [
        102_400, 102_400, 102_400, 89_600, 78_400, 68_600, 60_025, 52_521, MINIMUM, MINIMUM,
    ];
    assert_eq!(Station::open(&short_adtf()).unanswered(10), expected);
}

#[test]
fn t5_ccr_is_the_code_rate_not_above_acr() {
    // After seven rounds 60,025 x 7 / 8 = 52,521, and 52,521 / 2^6 = 820.6.
    let mut station = Station::open(&short_adtf());
    station.unanswered(7);
    let sent = station.slot(700 * MS).expect("a forward cell");
    assert_eq!((sent.kind, sent.acr), (Kind::Forward, 52_521));
    assert_eq!(read(&sent.cell).ccr, code(6, 820));
    assert_eq!(read(&sent.cell).er, PEAK_CODE);
}

#[test]
fn t6_and_t7_one_turned_cell_before_data_the_next_after() {
    let mut station = Station::open(&paper());
    station.offer(3);
    station.receive_forward(Rm::default());
    station.forward(0);
    assert_eq!(station.slot(5 * MS - 1), None); // the gap applies to T6
    assert_eq!(station.kind(5 * MS), Some(Kind::Turned));
    station.receive_forward(Rm::default());
    // X1 is 1 and data waits: data first, then the turned cell.
    assert_eq!(station.slot(10 * MS - 1), None); // and for T7
    let sent = kinds(&mut station, 10 * MS, 4);
    let data = Some(Kind::Data);
    assert_eq!(sent, [data, data, data, Some(Kind::Turned)]);
}

#[test]
fn t6_a_turned_cell_is_first_again_after_a_forward_cell() {
    let mut station = Station::open(&paper());
    station.offer(100);
    station.receive_forward(Rm::default());
    station.forward(0);
    assert_eq!(station.kind(5 * MS), Some(Kind::Turned));
    station.receive_forward(Rm::default());
    assert_eq!(kinds(&mut station, 10 * MS, 14), [Some(Kind::Data); 14]);
    assert_eq!(station.kind(80 * MS), Some(Kind::Forward));
    assert_eq!(station.kind(85 * MS), Some(Kind::Turned));
}

#[test]
fn t6_comes_after_a_forward_cell_that_is_due() {
    // By time: k is 2 and Trm has passed.
    let mut station = Station::open(&paper());
    station.round(0);
    station.receive_forward(Rm::default());
    assert_eq!(station.clone().kind(100 * MS - 1), Some(Kind::Turned));
    assert_eq!(station.kind(100 * MS), Some(Kind::Forward));
    // By count: 15 cells are sent.
    let mut station = Station::open(&paper());
    station.offer(15);
    station.forward(0);
    kinds(&mut station, 5 * MS, 15);
    station.receive_forward(Rm::default());
    assert_eq!(station.kind(80 * MS), Some(Kind::Forward));
    assert_eq!(station.kind(85 * MS), Some(Kind::Turned));
}

#[test]
fn t7_data_when_nothing_was_turned() {
    let mut station = Station::open(&paper());
    station.offer(2);
    let sent = kinds(&mut station, 0, 4);
    let data = Some(Kind::Data);
    assert_eq!(sent, [Some(Kind::Forward), data, data, None]);
}
