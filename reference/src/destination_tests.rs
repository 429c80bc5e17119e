//! Tests of the saved mark and of the cells that wait, without an engine.

use super::*;
use crate::spacing::INTERVAL;

const AT: Address = Address::new(0xA5, 32);

/// The code and the rate of 1,000 cells per second.
const THOUSAND: u32 = 0x53E8;
const RATE: u64 = 512_000;

/// Octet 7 of the next cell to send, which then no longer waits.
fn bits(destination: &mut Destination) -> u8 {
    destination.take().expect("a cell waits").cell[6]
}

/// A forward cell without marks.
fn plain() -> Rm {
    Rm {
        vpi: AT.vpi,
        vci: AT.vci,
        ..Rm::default()
    }
}

#[test]
fn the_saved_mark_is_replaced_and_then_cleared() {
    let mut destination = Destination::default();
    let mut turned = |marks: &[bool]| {
        marks
            .iter()
            .for_each(|mark| destination.receive_data(*mark));
        destination.receive_forward(AT, &cell::rm_octets(&plain()), 0);
        bits(&mut destination)
    };
    assert_eq!(turned(&[]), 0x80);
    assert_eq!(turned(&[true]), 0xA0);
    assert_eq!(turned(&[]), 0x80);
    assert_eq!(turned(&[true, false]), 0x80);
    assert_eq!(turned(&[false, true]), 0xA0);
}

#[test]
fn the_level_sets_one_mark_only() {
    let mut destination = Destination::default();
    let mut turned = |level, received: &Rm| {
        destination.receive_forward(AT, &cell::rm_octets(received), level);
        bits(&mut destination)
    };
    assert_eq!(turned(0, &plain()), 0x80);
    assert_eq!(turned(1, &plain()), 0x90);
    assert_eq!(turned(2, &plain()), 0xA0);
    let marked = Rm {
        ci: 1,
        ni: 1,
        bn: 1,
        ..plain()
    };
    for level in 0..3 {
        assert_eq!(turned(level, &marked), 0xB0);
    }
}

#[test]
fn a_made_cell_octet_by_octet() {
    for (level, bits) in [(1, 0xD0), (2, 0xE0)] {
        let mut destination = Destination::default();
        assert_eq!(destination.make(AT, 0, level, RATE), Ok(()));
        let cell = destination.take().expect("a cell waits").cell;
        assert_eq!(cell[..4], [0x0A, 0x50, 0x02, 0x0C]);
        assert_eq!(cell[4], cell::header_check(&cell[..4]));
        assert_eq!(cell[5..7], [0x01, bits]);
        assert_eq!(cell[7..13], [0x53, 0xE8, 0, 0, 0, 0]);
        assert_eq!(cell[13..21], [0; 8]);
        assert_eq!(cell[21..51], [0x6A; 30]);
        assert!(matches!(cell::read(&cell), Ok(cell::Cell::Rm(rm)) if rm.er == THOUSAND));
        assert!(!destination.waits());
    }
}

#[test]
fn a_made_cell_neither_takes_nor_uses_up_the_saved_mark() {
    let mut destination = Destination::default();
    destination.receive_data(true);
    destination.make(AT, 0, 1, RATE).unwrap();
    assert_eq!(bits(&mut destination), 0xD0);
    destination.receive_forward(AT, &cell::rm_octets(&plain()), 0);
    assert_eq!(bits(&mut destination), 0xA0);
}

#[test]
fn a_turned_cell_takes_nothing_from_a_made_one() {
    let mut destination = Destination::default();
    destination.make(AT, 0, 2, RATE).unwrap();
    destination.receive_forward(AT, &cell::rm_octets(&plain()), 0);
    assert_eq!(bits(&mut destination), 0x80); // turned, which goes first
    assert_eq!(bits(&mut destination), 0xE0);
    assert_eq!(destination.take(), None);
}

#[test]
fn a_later_made_cell_replaces_the_earlier() {
    let mut destination = Destination::default();
    destination.make(AT, 0, 2, RATE).unwrap();
    destination.make(AT, INTERVAL, 1, RATE).unwrap();
    assert_eq!(bits(&mut destination), 0xD0); // no mark of the replaced one
    assert_eq!(destination.take(), None);
}

#[test]
fn the_interval_counts_from_the_last_accepted_making() {
    let mut destination = Destination::default();
    let start = 7;
    assert_eq!(destination.make(AT, start, 1, RATE), Ok(()));
    for time in [start, start + INTERVAL - 1] {
        assert_eq!(
            destination.make(AT, time, 1, RATE),
            Err(Refusal::MadeTooSoon)
        );
        assert_eq!(
            destination.make(AT, time, 0, RATE),
            Err(Refusal::NotCongested)
        );
    }
    destination.take(); // sent or not
    let refused = destination.make(AT, start + INTERVAL - 1, 2, RATE);
    assert_eq!(refused, Err(Refusal::MadeTooSoon));
    assert!(!destination.waits());
    let next = start + INTERVAL;
    assert_eq!(
        destination.make(AT, next, 0, RATE),
        Err(Refusal::NotCongested)
    );
    assert_eq!(destination.make(AT, next, 1, RATE), Ok(()));
    assert_eq!(
        destination.make(AT, next + INTERVAL - 1, 1, RATE),
        Err(Refusal::MadeTooSoon)
    );
    assert_eq!(destination.make(AT, next + INTERVAL, 1, RATE), Ok(()));
}

/// Octet 7 of the last of these forward cells, turned at level 0 one after the
/// other, none being sent before.
fn last_of(destination: &mut Destination, received: &[Rm]) -> u8 {
    for rm in received {
        destination.receive_forward(AT, &cell::rm_octets(rm), 0);
    }
    let last = bits(destination);
    assert_eq!(destination.turned, None);
    last
}

#[test]
fn ci_of_a_replaced_cell_is_kept_and_ni_is_not() {
    let ci = Rm { ci: 1, ..plain() };
    let ni = Rm { ni: 1, ..plain() };
    let both = Rm { ci: 1, ..ni };
    let mut destination = Destination::default();
    let mut last = |received: &[Rm]| last_of(&mut destination, received);
    assert_eq!(last(&[ci, plain()]), 0xA0);
    assert_eq!(last(&[plain()]), 0x80); // the one before was sent
    assert_eq!(last(&[ci, plain(), plain()]), 0xA0); // replaced twice
    assert_eq!(last(&[ni, plain()]), 0x80);
    assert_eq!(last(&[both, plain()]), 0xA0);
    assert_eq!(last(&[ci, ni]), 0xB0);
    assert_eq!(last(&[plain(), plain()]), 0x80);
}

#[test]
fn ci_is_kept_wherever_it_came_from() {
    let mut destination = Destination::default();
    destination.receive_data(true);
    assert_eq!(last_of(&mut destination, &[plain(), plain()]), 0xA0);
    destination.receive_forward(AT, &cell::rm_octets(&plain()), 2);
    assert_eq!(last_of(&mut destination, &[plain()]), 0xA0);
    destination.receive_forward(AT, &cell::rm_octets(&plain()), 1);
    assert_eq!(last_of(&mut destination, &[plain()]), 0x80);
}

#[test]
fn a_made_cell_beside_it_neither_gives_nor_takes_a_mark() {
    let mut destination = Destination::default();
    destination.make(AT, 0, 2, RATE).unwrap();
    assert_eq!(last_of(&mut destination, &[plain(), plain()]), 0x80);
    let ci = Rm { ci: 1, ..plain() };
    destination.receive_forward(AT, &cell::rm_octets(&ci), 0);
    destination.make(AT, INTERVAL, 1, RATE).unwrap();
    assert_eq!(last_of(&mut destination, &[plain()]), 0xA0);
    assert_eq!(bits(&mut destination), 0xD0);
}
