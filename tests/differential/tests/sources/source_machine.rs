//! The source machine of source document 001, transitions T1 to T7.

use abr::{Kind, Params, Rm};

use crate::station::{
    paper, read, Station, BELOW_INITIAL, BELOW_INITIAL_CODE, BELOW_MINIMUM_CODE, INITIAL,
    INITIAL_CODE, MINIMUM, MINIMUM_CODE, MS, PEAK, PEAK_CODE, THREE_HUNDRED, THREE_HUNDRED_CODE,
};

/// The allowed rate after one backward cell, from the initial rate.
fn rate_after(ci: bool, ni: bool, er: u32) -> u64 {
    let mut station = Station::open(&paper());
    station.receive_backward(feedback(ci, ni, er));
    station.acr()
}

fn feedback(ci: bool, ni: bool, er: u32) -> Rm {
    Rm {
        ci,
        ni,
        er,
        ..Rm::default()
    }
}

#[test]
fn t1_starts_at_icr_when_data_waits() {
    let mut station = Station::open(&paper());
    assert_eq!(station.acr(), INITIAL);
    assert_eq!(station.slot(0), None);
    station.offer(1);
    let sent = station.slot(0).expect("data waits");
    assert_eq!((sent.kind, sent.acr), (Kind::Forward, INITIAL));
    let cell = read(&sent.cell);
    assert_eq!(
        (cell.ccr, cell.er, cell.mcr),
        (INITIAL_CODE, PEAK_CODE, MINIMUM_CODE)
    );
    assert!(!cell.backward && !cell.bn && !cell.ci && !cell.ni);
}

#[test]
fn t1_starts_when_a_turned_cell_waits_too() {
    let mut station = Station::open(&paper());
    station.receive_forward(Rm::default());
    assert_eq!(station.kind(0), Some(Kind::Forward));
    assert_eq!(station.kind(5 * MS), Some(Kind::Turned));
}

#[test]
fn t1_takes_the_lesser_of_acr_and_icr() {
    // Raised before the first cell: back to ICR. Lowered: it stays, where
    // the paper's "ACR := ICR" would raise it.
    for (er, before, after) in [
        (THREE_HUNDRED_CODE, THREE_HUNDRED, INITIAL),
        (BELOW_INITIAL_CODE, BELOW_INITIAL, BELOW_INITIAL),
    ] {
        let mut station = Station::open(&paper());
        station.receive_backward(feedback(false, false, er));
        assert_eq!(station.acr(), before);
        station.offer(1);
        assert_eq!(station.forward(0), after);
    }
}

#[test]
fn t2_and_t3_only_bn_0_is_an_answer() {
    // Y is 3 = CRM. NI and a high ER do not change the rate; with BN 0 Y becomes 0.
    // Else the next forward cell is cut to 102,400 x 7 / 8.
    for (bn, expected) in [(false, INITIAL), (true, 89_600)] {
        let mut station = Station::open(&paper());
        station.unanswered(3);
        let cell = feedback(false, true, PEAK_CODE);
        station.receive_backward(Rm { bn, ..cell });
        assert_eq!(station.acr(), INITIAL);
        assert_eq!(station.forward(300 * MS), expected);
    }
}

#[test]
fn t2_and_t3_move_the_rate_alike() {
    // max(MCR, min(102,400 + 64,000, ER)) with ER 1,000 cells/s, BN 0 or 1.
    for bn in [false, true] {
        let mut station = Station::open(&paper());
        let cell = feedback(false, false, PEAK_CODE);
        station.receive_backward(Rm { bn, ..cell });
        assert_eq!(station.acr(), 166_400);
    }
}

#[test]
fn t4_ci_lowers_and_er_lowers_further() {
    for ni in [false, true] {
        // 102,400 x 7 / 8, below ER.
        assert_eq!(rate_after(true, ni, PEAK_CODE), 89_600);
        // ER 76,800 is below 89,600.
        assert_eq!(rate_after(true, ni, BELOW_INITIAL_CODE), BELOW_INITIAL);
        // ER 25,600, and ER 0, are below MCR.
        assert_eq!(rate_after(true, ni, BELOW_MINIMUM_CODE), MINIMUM);
        assert_eq!(rate_after(true, ni, 0), MINIMUM);
    }
}

#[test]
fn t4_rounds_down_and_stops_at_mcr() {
    let mut station = Station::open(&paper());
    // x 7 / 8 each time: exact down to 60,025, then 52,521.875, and
    // 45,955.875, which is below MCR 51,200.
    for expected in [89_600, 78_400, 68_600, 60_025, 52_521, MINIMUM, MINIMUM] {
        station.receive_backward(feedback(true, false, PEAK_CODE));
        assert_eq!(station.acr(), expected);
    }
}

#[test]
fn t5_no_marks_raise_up_to_er_and_pcr() {
    // 102,400 + 64,000; limited to ER 153,600.
    assert_eq!(rate_after(false, false, PEAK_CODE), 166_400);
    assert_eq!(rate_after(false, false, THREE_HUNDRED_CODE), THREE_HUNDRED);
    // Six steps give 486,400; the seventh would give 550,400, above PCR,
    // though ER is the largest.
    let mut station = Station::open(&paper());
    for _ in 0..6 {
        station.receive_backward(feedback(false, false, 0x7FFF));
    }
    assert_eq!(station.acr(), 486_400);
    station.receive_backward(feedback(false, false, 0x7FFF));
    assert_eq!(station.acr(), PEAK);
}

#[test]
fn t6_ni_leaves_a_rate_below_er() {
    assert_eq!(rate_after(false, true, PEAK_CODE), INITIAL);
    assert_eq!(rate_after(false, true, THREE_HUNDRED_CODE), INITIAL);
}

#[test]
fn t7_er_at_or_below_the_rate_is_taken() {
    for ni in [false, true] {
        assert_eq!(rate_after(false, ni, INITIAL_CODE), INITIAL);
        assert_eq!(rate_after(false, ni, BELOW_INITIAL_CODE), BELOW_INITIAL);
        // ER 25,600, and ER 0, are below MCR.
        assert_eq!(rate_after(false, ni, BELOW_MINIMUM_CODE), MINIMUM);
        assert_eq!(rate_after(false, ni, 0), MINIMUM);
    }
}

#[test]
fn a_source_at_rate_0_rises_by_an_out_of_rate_cell() {
    let mut station = Station::open(&Params { mcr: 0, ..paper() });
    station.offer(2);
    assert_eq!(station.forward(0), INITIAL);
    station.receive_backward(feedback(false, false, 0));
    assert_eq!(station.acr(), 0);
    assert_eq!(station.slot(90 * MS), None); // the gap at ICR is 5 ms
    let cell = station.out_of_rate(100 * MS);
    assert_eq!(cell[3] & 1, 1); // CLP
    let forward = read(&cell);
    assert_eq!((forward.er, forward.ccr, forward.mcr), (PEAK_CODE, 0, 0));
    assert_eq!(station.slot(100 * MS), None);
    // Turned round by the destination: no marks, and ER is PCR. Then 512,000 / 8.
    station.receive_backward(forward);
    assert_eq!(station.acr(), 64_000);
    // Due 8 ms after the last cell in a slot, at 8 ms: at once.
    assert_eq!(station.kind(100 * MS), Some(Kind::Data));
    assert_eq!(station.slot(108 * MS - 1), None);
    assert_eq!(station.kind(108 * MS), Some(Kind::Data));
}
