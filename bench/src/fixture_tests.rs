use abr::ffi;
use abr_reference::{Kind, Refusal};

use super::*;
use crate::engines::{Library, Reference};
use crate::workload::rows;

/// The slots that a test makes.
const SLOTS: u64 = 4_096;

/// As many connections as may be open, and some of them.
const MOST: u32 = abr::CONNECTIONS_MAX as u32;
const SOME: u32 = if MOST < 64 { MOST } else { 64 };

/// What the slots of a workload send, on the reference.
fn sent(connections: u32, workload: Workload) -> Vec<Option<abr_reference::Sent>> {
    let mut fixture = Fixture::<Reference>::new(connections, workload);
    fixture.refill(SLOTS);
    let mut buffer = [0; abr::CELL_OCTETS];
    let slots = (1..=SLOTS).map(|i| {
        let time = fixture.time + i * fixture.step;
        fixture.engine.engine.slot(time, &mut buffer).unwrap()
    });
    slots.collect()
}

/// Every measured slot of busy connections sends, and one in Nrm sends a
/// forward cell.
#[test]
fn busy_slots_are_not_idle() {
    for row in rows().filter(|row| row.workload.sends()) {
        let sent = sent(row.connections, row.workload);
        let kinds = sent.iter().map(|sent| sent.expect("a busy slot").kind);
        let forward = kinds.filter(|kind| *kind == Kind::Forward).count();
        let n = match row.workload {
            Workload::Turns { n } => n,
            _ => Params::HOUSE_N,
        };
        let expected = SLOTS as usize >> n;
        let connections = row.connections as usize;
        let all = expected - connections / 16..=expected + connections;
        assert!(all.contains(&forward), "{}: {forward}", row.name);
    }
}

/// Any stretch of slots has its share of forward cells, however many connections
/// there are; a longer one if they are fewer than the places between two forward cells.
#[test]
fn forward_cells_are_spread() {
    let slots = if MOST < 32 { 32 * MOST } else { 256 } as usize;
    let share = slots / 32;
    let sent = sent(MOST, Workload::Turns { n: 5 });
    for stretch in sent.chunks(slots) {
        let kinds = stretch.iter().map(|sent| sent.expect("a busy slot").kind);
        let forward = kinds.filter(|kind| *kind == Kind::Forward).count();
        assert!(forward.abs_diff(share) <= 2, "{forward}");
    }
}

/// The members of a path send in turn, or the only one with data does.
#[test]
fn members_take_turns() {
    for (workload, members) in [
        (Workload::Members { members: 256 }, 256),
        (Workload::LoneMember { members: 256 }, 1),
    ] {
        let slots = sent(0, workload).into_iter().flatten();
        let data = slots.filter(|sent| sent.kind == Kind::Data);
        let turns = (0..members).map(member).cycle();
        assert!(data
            .zip(turns)
            .all(|(sent, member)| sent_by(&sent) == member));
    }
}

/// The measured member is added and removed, and the last one is offered to.
#[test]
fn members_are_added_and_offered_to() {
    let mut fixture = Fixture::<Reference>::new(0, Workload::AddRemove { members: 255 });
    let engine = &mut fixture.engine.engine;
    assert_eq!(engine.add_member(below_members()), Ok(()));
    assert_eq!(engine.remove_member(below_members()).unwrap().cells, 0);
    assert_eq!(engine.offer_member(member(254), 0), Ok(1));
}

/// Where nothing waits, every slot is idle.
#[test]
fn idle_slots_are_idle() {
    for row in rows().filter(|row| row.workload == Workload::Idle) {
        assert!(sent(row.connections, row.workload)
            .iter()
            .all(Option::is_none));
    }
}

/// The connection that a slot went to.
fn sent_by(sent: &abr_reference::Sent) -> Address {
    Address::new(sent.vpi, sent.vci)
}

/// The connections send in turn from the one that was opened last to the first.
#[test]
fn the_last_opened_sends_first() {
    let order = order(SOME, Workload::LastFirst);
    let sent = sent(SOME, Workload::LastFirst);
    let turns = order.iter().rev().cycle();
    assert!(sent
        .iter()
        .zip(turns)
        .all(|(sent, place)| sent.is_some_and(|sent| sent_by(&sent) == address(*place))));
}

/// Both sides give a measured cell the answer of its sort.
#[test]
fn both_sides_answer_the_same() {
    for row in rows() {
        let expected = match row.workload {
            Workload::Receive(Sort::Damaged) => Some(Refusal::Crc),
            Workload::Receive(_) => None,
            Workload::Unknown(_) => Some(Refusal::NotOpen),
            _ => continue,
        };
        let mut library = Fixture::<Library>::new(row.connections, row.workload);
        let mut reference = Fixture::<Reference>::new(row.connections, row.workload);
        assert_eq!(library.cells, reference.cells, "{}", row.name);
        for cell in reference.cells {
            let table = &mut *library.engine.table;
            // SAFETY: both pointers are live and the length is the cell's own.
            let answer = unsafe { ffi::abr_receive(table, cell.as_ptr(), cell.len()) };
            let number = expected.map_or(0, Refusal::number);
            assert_eq!(answer.refusal, number, "{}", row.name);
            let answer = reference.engine.engine.receive(&cell).err();
            assert_eq!(answer, expected, "{}", row.name);
        }
    }
}

/// Each of the cells in turn moves the rate.
#[test]
fn moving_cells_move_the_rate() {
    let mut fixture = Fixture::<Reference>::new(SOME, Workload::Receive(Sort::Moving));
    for round in 0..1_000 {
        let before = fixture.engine.engine.acr(fixture.last);
        let cell = fixture.cells[round % 2];
        fixture.engine.engine.receive(&cell).unwrap();
        assert_ne!(fixture.engine.engine.acr(fixture.last), before);
    }
}

/// The measured makings are accepted on both sides.
#[test]
fn makings_are_accepted() {
    let mut library = Fixture::<Library>::new(SOME, Workload::Make);
    let mut reference = Fixture::<Reference>::new(SOME, Workload::Make);
    let at = library.last;
    for time in (1..10).map(|i| library.time + i * library.step) {
        let table = &mut *library.engine.table;
        // SAFETY: the pointer is live for the call.
        let ours = unsafe { ffi::abr_make(table, at.vpi, at.vci, time) };
        assert_eq!(ours.refusal, 0);
        let theirs = reference.engine.engine.make(at, time);
        assert_eq!(theirs, Ok(ours.comparisons));
    }
}

/// The measured out-of-rate cells are accepted on both sides, and are the same.
#[test]
fn out_of_rate_cells_are_accepted() {
    let mut library = Fixture::<Library>::new(SOME, Workload::OutOfRate);
    let mut reference = Fixture::<Reference>::new(SOME, Workload::OutOfRate);
    let at = library.last;
    for time in (1..10).map(|i| library.time + i * library.step) {
        let (mut cell, mut other) = ([0; abr::CELL_OCTETS], [0; abr::CELL_OCTETS]);
        let table = &mut *library.engine.table;
        let (octets, len) = (cell.as_mut_ptr(), cell.len());
        // SAFETY: both pointers are live and the length is the buffer's own.
        let ours = unsafe { ffi::abr_out_of_rate(table, at.vpi, at.vci, time, octets, len) };
        assert_eq!(ours, 0);
        let theirs = reference.engine.engine.out_of_rate(at, time, &mut other);
        assert_eq!((theirs, cell), (Ok(()), other));
    }
}

/// Where the next ready instant is asked for there is one, and it is that of both sides.
#[test]
fn a_next_ready_instant_is_found() {
    for connections in [1, MOST] {
        let library = Fixture::<Library>::new(connections, Workload::Next);
        let reference = Fixture::<Reference>::new(connections, Workload::Next);
        // SAFETY: the pointer is live for the call.
        let ours = unsafe { ffi::abr_next_ready(&*library.engine.table) };
        assert_ne!(ours, ffi::ABR_NEVER);
        assert_eq!(reference.engine.engine.next_ready(), Some(ours));
    }
}

/// The time to pass to a slot is asked for where it is not the slot's own, and it is that of both sides.
#[test]
fn a_slot_time_is_behind() {
    for connections in [1, MOST] {
        let library = Fixture::<Library>::new(connections, Workload::SlotTime);
        let reference = Fixture::<Reference>::new(connections, Workload::SlotTime);
        let now = library.time + library.step;
        // SAFETY: the pointer is live for the call.
        let ours = unsafe { ffi::abr_slot_time(&*library.engine.table, now, LAG) };
        assert!(ours < now);
        assert_eq!(reference.engine.engine.slot_time(now, LAG), ours);
    }
}

/// What is read of a connection and of a member is there, and is that of both sides.
#[test]
fn readings_are_accepted() {
    for row in rows() {
        let (library, reference) = (
            Fixture::<Library>::new(row.connections, row.workload),
            Fixture::<Reference>::new(row.connections, row.workload),
        );
        let at = match row.workload {
            Workload::Status => library.last,
            Workload::StatusMember { members } => member(members - 1),
            _ => continue,
        };
        // SAFETY: the pointer is live for the call.
        let ours = unsafe { ffi::abr_status(&*library.engine.table, at.vpi, at.vci) };
        let theirs = reference.engine.engine.status(at).unwrap();
        assert_eq!((ours.refusal, ours.leaf), (0, theirs.leaf), "{}", row.name);
        assert_eq!((ours.vpi, ours.vci, ours.acr), (at.vpi, at.vci, theirs.acr));
    }
}

/// The measured exports are accepted, and the two imports are one with and one without a
/// remainder.
#[test]
fn doubles_are_accepted() {
    let fixture = Fixture::<Reference>::new(SOME, Workload::Export);
    let exported = fixture.engine.engine.export(fixture.last).unwrap();
    assert_eq!(abr_reference::import(exported.pcr).unwrap().code, CODE);
    let remainder = |cells| abr_reference::import(cells).unwrap().remainder;
    assert_eq!(remainder(1_000.0), 0.0);
    assert!(remainder(1_000.7) > 0.0);
}

/// The measured shares are limits, and the measured cells are backward ones whose ER is
/// lowered.
#[test]
fn ports_limit() {
    for row in rows() {
        let fixture = Fixture::<Reference>::new(0, row.workload);
        let share = abr_reference::fair_share(fixture.capacity, &fixture.demands).unwrap();
        let rate = match row.workload {
            Workload::Limit => LIMIT,
            Workload::FairShare { .. } | Workload::Port { .. } => share.expect("a limit"),
            _ => continue,
        };
        for mut cell in fixture.cells {
            let before = cell;
            assert_eq!(
                abr_reference::limit(rate, &mut cell),
                Ok(()),
                "{}",
                row.name
            );
            assert_ne!(cell, before, "{}", row.name);
        }
    }
}

/// The measured opens and closes are accepted.
#[test]
fn opens_are_accepted() {
    let mut fixture = Fixture::<Reference>::new(MOST - 1, Workload::OpenClose);
    let time = fixture.time;
    let engine = &mut fixture.engine.engine;
    for at in [highest(), lowest()] {
        let opened = engine.open(at, time, &fixture.params).unwrap();
        assert_eq!(opened.leaf, MOST - 1);
        assert_eq!(engine.close(at).unwrap().comparisons, 1);
    }
}
