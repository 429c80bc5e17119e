//! The destination machine of source document 001, and the transitions T8 to
//! T12 by which its source machine queues what was turned.

use abr::{Kind, Rm};

use crate::station::{
    paper, read, written, Station, BELOW_INITIAL_CODE, INITIAL_CODE, MS, PEAK_CODE,
    THREE_HUNDRED_CODE, VCI, VPI,
};

/// A forward cell with these two marks, other fields set too.
fn marked(ci: bool, ni: bool) -> Rm {
    Rm {
        vpi: VPI,
        vci: VCI,
        ci,
        ni,
        ra: true,
        er: THREE_HUNDRED_CODE,
        ccr: INITIAL_CODE,
        mcr: BELOW_INITIAL_CODE,
        ql: 7,
        sn: 9,
        ..Rm::default()
    }
}

/// The backward cell with the same fields.
fn backward(forward: Rm) -> Rm {
    Rm {
        backward: true,
        ..forward
    }
}

/// The cell that a station turns, read: after its own first cell, at 5 ms.
fn turned(station: &mut Station) -> Rm {
    station.forward(0);
    let sent = station.slot(5 * MS).expect("a cell waits");
    assert_eq!(sent.kind, Kind::Turned);
    read(&sent.cell)
}

/// A forward cell after it was turned: under a congestion level, after data
/// cells with these congestion marks.
fn turn(level: u32, efci: &[bool], forward: Rm) -> Rm {
    let mut station = Station::open(&paper());
    station.set_level(level);
    efci.iter().for_each(|efci| station.receive_data(*efci));
    station.receive_forward(forward);
    turned(&mut station)
}

/// CI and NI of a cell that was received without marks, after it was turned.
fn marks(level: u32, efci: &[bool]) -> (bool, bool) {
    let cell = turn(level, efci, marked(false, false));
    (cell.ci, cell.ni)
}

#[test]
fn t1_the_last_data_cell_counts() {
    assert_eq!(marks(0, &[true]), (true, false));
    assert_eq!(marks(0, &[true, false]), (false, false));
    assert_eq!(marks(0, &[false, true]), (true, false));
}

#[test]
fn t2_turns_without_marks_and_keeps_those_received() {
    for (ci, ni) in [(false, false), (false, true), (true, false), (true, true)] {
        // All fields as received but DIR; the paper would clear CI and NI.
        let forward = marked(ci, ni);
        assert_eq!(turn(0, &[], forward), backward(forward));
    }
}

#[test]
fn t2_clears_bn() {
    let forward = marked(false, false);
    let bn = true;
    let with_bn = Rm { bn, ..forward };
    assert_eq!(turn(0, &[], with_bn), backward(forward));
}

#[test]
fn t3_saved_efci_becomes_ci_once() {
    let mut station = Station::open(&paper());
    station.receive_data(true);
    station.receive_forward(marked(false, true));
    let first = turned(&mut station);
    assert_eq!((first.ci, first.ni), (true, true)); // NI as received
    station.receive_forward(marked(false, false));
    let sent = station.slot(10 * MS).expect("a cell waits");
    assert!(!read(&sent.cell).ci);
}

#[test]
fn t4_and_t7_er_is_never_reduced() {
    for level in [0, 1, 2] {
        for efci in [false, true] {
            let cell = turn(level, &[efci], marked(false, false));
            assert_eq!(cell.er, THREE_HUNDRED_CODE);
        }
    }
}

#[test]
fn t5_level_1_sets_ni() {
    assert_eq!(marks(1, &[]), (false, true));
    // CI as received; the paper would clear it.
    assert!(turn(1, &[], marked(true, false)).ci);
}

#[test]
fn t6_level_2_sets_ci() {
    assert_eq!(marks(2, &[]), (true, false));
    assert!(turn(2, &[], marked(false, true)).ni); // as received
}

#[test]
fn t8_congestion_at_both_places() {
    assert_eq!(marks(1, &[true]), (true, true));
    assert_eq!(marks(2, &[true]), (true, false));
}

#[test]
fn t8_the_level_of_the_arrival_counts() {
    // Raised between the arrival and the sending: no mark.
    let mut station = Station::open(&paper());
    station.receive_forward(marked(false, false));
    station.set_level(2);
    assert!(!turned(&mut station).ci);
}

#[test]
fn t9_and_t10_congestion_alone_makes_no_cell() {
    let mut station = Station::open(&paper());
    for level in [1, 2] {
        station.set_level(level);
        assert_eq!(station.slot(0), None);
    }
    station.offer(1);
    station.forward(0);
    assert_eq!(station.kind(5 * MS), Some(Kind::Data));
    station.set_level(2);
    assert_eq!(station.slot(1_000 * MS), None);
}

/// The cell that a station makes with these marks: ER is PCR, CCR and MCR are 0.
fn made(ci: bool, ni: bool) -> Rm {
    Rm {
        vpi: VPI,
        vci: VCI,
        backward: true,
        bn: true,
        ci,
        ni,
        er: PEAK_CODE,
        ..Rm::default()
    }
}

/// The octets of the backward cell that a slot sends.
fn sent_back(station: &mut Station, time: u64) -> Rm {
    let sent = station.slot(time).expect("a cell waits");
    assert_eq!(sent.kind, Kind::Turned);
    let cell = read(&sent.cell);
    assert_eq!(sent.cell, written(&cell)); // no reserved bit
    cell
}

#[test]
fn t9_level_2_makes_a_cell_with_ci_and_t10_level_1_one_with_ni() {
    for (level, ci, ni) in [(2, true, false), (1, false, true)] {
        let mut station = Station::open(&paper());
        station.set_level(level);
        station.make(0);
        station.set_level(3 - level); // a later level changes nothing
        station.forward(0);
        assert_eq!(sent_back(&mut station, 5 * MS), made(ci, ni));
        assert_eq!(station.slot(10 * MS), None);
    }
}

#[test]
fn t9_leaves_the_saved_efci_for_the_next_turned_cell() {
    let mut station = Station::open(&paper());
    station.receive_data(true);
    station.set_level(1);
    station.make(0);
    station.set_level(0);
    station.forward(0);
    assert_eq!(sent_back(&mut station, 5 * MS), made(false, true));
    station.receive_forward(marked(false, false));
    assert!(sent_back(&mut station, 10 * MS).ci);
}

#[test]
fn t13_a_made_cell_goes_after_the_waiting_one_and_does_not_alter_it() {
    for turned_first in [false, true] {
        let mut station = Station::open(&paper());
        if turned_first {
            station.receive_forward(marked(false, true));
        }
        station.set_level(2);
        station.make(0);
        station.set_level(0);
        if !turned_first {
            station.receive_forward(marked(false, true));
        }
        station.forward(0);
        assert_eq!(
            sent_back(&mut station, 5 * MS),
            backward(marked(false, true))
        );
        assert_eq!(sent_back(&mut station, 10 * MS), made(true, false));
    }
}

#[test]
fn t13_one_made_cell_waits_the_last() {
    // Two cells are made 100 ms apart, before any is sent; the first with CI.
    let mut station = Station::open(&paper());
    station.set_level(2);
    station.make(0);
    station.set_level(1);
    station.make(100 * MS);
    station.forward(100 * MS);
    assert_eq!(sent_back(&mut station, 105 * MS), made(false, true));
    assert_eq!(station.slot(110 * MS), None);
}

#[test]
fn t14_an_empty_queue_takes_the_cell() {
    let mut station = Station::open(&paper());
    station.receive_forward(marked(false, false));
    assert_eq!(turned(&mut station).sn, 9);
    assert_eq!(station.slot(1_000 * MS), None); // k is 1 and nothing waits
}

#[test]
fn t12_a_new_cell_drops_the_waiting_one() {
    // The waiting cell was marked by EFCI and received with NI; the new one is
    // received without marks. CI stays (document 02), NI and SN are its own.
    let mut station = Station::open(&paper());
    station.receive_data(true);
    station.receive_forward(marked(false, true));
    let sn = 10;
    let second = |ci| Rm {
        sn,
        ..marked(ci, false)
    };
    station.receive_forward(second(false));
    assert_eq!(turned(&mut station), backward(second(true)));
    // One cell waited, not two as after the rewriting of T11.
    assert_eq!(station.slot(1_000 * MS), None);
}

#[test]
fn t12_ci_outlives_two_replaced_cells_and_ends_with_the_sent_one() {
    let mut station = Station::open(&paper());
    station.set_level(2);
    station.receive_forward(marked(false, false));
    station.set_level(0);
    station.receive_forward(marked(false, false));
    station.receive_forward(marked(false, false));
    assert!(turned(&mut station).ci);
    station.receive_forward(marked(false, false)); // replaces nothing
    assert!(!sent_back(&mut station, 10 * MS).ci);
}

#[test]
fn a_turned_cell_is_octet_for_octet_the_backward_one() {
    let mut station = Station::open(&paper());
    station.receive_forward(marked(false, true));
    station.forward(0);
    let sent = station.slot(5 * MS).expect("a cell waits");
    assert_eq!(sent.cell, written(&backward(marked(false, true))));
}

#[test]
fn what_comes_in_between_leaves_the_waiting_cell() {
    // A turned cell was sent since the last forward cell: data is sent before
    // the next, which waits marked by EFCI and by level 1.
    let mut station = Station::open(&paper());
    station.receive_forward(marked(false, false));
    turned(&mut station);
    station.set_level(1);
    station.receive_data(true);
    let sn = 10;
    let second = |ci, ni| Rm {
        sn,
        ..marked(ci, ni)
    };
    station.receive_forward(second(false, false));
    station.set_level(0);
    for (time, efci) in [(10, true), (15, false), (20, true)] {
        station.receive_data(efci);
        station.offer(1);
        station.receive_backward(marked(false, true)); // NI, and ER 300: 200 as before
        assert_eq!(station.kind(time * MS), Some(Kind::Data));
    }
    let sent = station.slot(25 * MS).expect("a cell waits");
    assert_eq!(sent.cell, written(&backward(second(true, true))));
    // It no longer waits, also after more cells; the EFCI saved at 20 ms marks
    // the third. Trm ends at 100 ms.
    assert_eq!(station.slot(30 * MS), None);
    station.receive_forward(marked(false, false));
    let sent = station.slot(35 * MS).expect("a cell waits");
    assert_eq!(sent.cell, written(&backward(marked(true, false))));
    station.receive_data(true);
    station.offer(1);
    assert_eq!(station.kind(40 * MS), Some(Kind::Data));
    assert_eq!(station.slot(45 * MS), None);
}
