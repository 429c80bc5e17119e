//! Tests of the readings: leaves, what a received cell and a slot answer, and all fields of a
//! connection, a member and the link, with numbers computed by hand.

use crate::address_tests::on;
use crate::cell::{Octets, LENGTH};
use crate::engine::{Arrival, Engine, Received, TIME_MAX};
use crate::engine_tests::{
    at, backward, data, engine_with, forward, kind, octets, opened, params, sent, MS, RATE,
};
use crate::spacing::INTERVAL;
use crate::{
    Address, Kind, Member, Params, Refusal, Rm, Sent, Sort, Status, Totals, COMPARISONS_MAX,
    CONNECTIONS_MAX,
};

/// VCI 32 on VPI 0, opened at 0 on leaf 0 and nothing done since: the house set at 1,000 cells
/// per second, with CRM = ceil(16,777,215 / 32).
fn fresh() -> Status {
    Status {
        sort: Sort::Channel,
        vpi: 0,
        vci: 32,
        leaf: 0,
        waiting: 0,
        params: params(),
        crm: 524_288,
        icr_used: RATE,
        acr: RATE,
        change: 0,
        opened: 0,
        last_sent: None,
        last_forward: None,
        ready: None,
        last_made: None,
        last_out_of_rate: None,
        k: 0,
        unanswered: 0,
        backward_sent: false,
        efci: false,
        turned: false,
        made_level: None,
        served: None,
    }
}

/// The status of VCI 32 on VPI 0.
fn status(engine: &Engine) -> Status {
    engine.status(at(32)).unwrap()
}

/// The path on VPI 3 and a pair on it.
const PATH: Address = Address::of_path(3);
const fn of(vci: u32) -> Address {
    Address::new(3, vci)
}

/// An engine with a channel on leaf 0 and the path on leaf 1, opened at 7, with these members
/// and so many cells on each.
fn path_with(members: &[(u32, u64)]) -> Engine {
    let mut engine = engine_with(&params());
    assert_eq!(engine.open_path(3, 7, &params()), opened(1));
    for (vci, cells) in members {
        engine.add_member(of(*vci)).unwrap();
        engine.offer_member(of(*vci), *cells).unwrap();
    }
    engine
}

/// A slot, which is given to a connection.
fn slot(engine: &mut Engine, time: u64) -> Sent {
    engine.slot(time, &mut [0; LENGTH]).unwrap().unwrap()
}

/// A backward cell for VCI 32 with CI 1: the rate falls by a sixteenth.
fn cut() -> Octets {
    octets(&Rm {
        ci: 1,
        ..backward(32)
    })
}

/// A backward cell for VCI 32 that raises the rate to 1,000 cells per second.
fn up() -> Octets {
    octets(&Rm {
        ni: 0,
        er: 0x53E8,
        ..backward(32)
    })
}

#[test]
fn an_open_answers_the_lowest_free_leaf() {
    let mut engine = Engine::new();
    for (leaf, vci) in [(0, 90), (1, 33), (2, 50), (3, 34)] {
        assert_eq!(engine.open(at(vci), 0, &params()), opened(leaf));
    }
    assert_eq!(engine.open_path(9, 0, &params()), opened(4));
    for vci in [50, 90] {
        engine.close(at(vci)).unwrap(); // leaf 2, then leaf 0
    }
    assert_eq!(engine.open_path(8, 0, &params()), opened(0));
    assert_eq!(engine.open(at(50), 0, &params()), opened(2));
    assert_eq!(engine.open(at(90), 0, &params()), opened(5));
    engine.close(Address::of_path(9)).unwrap();
    engine.close(at(33)).unwrap();
    assert_eq!(engine.open(at(33), 0, &params()), opened(1)); // its own again, by chance
    assert_eq!(engine.open(at(35), 0, &params()), opened(4));
}

#[test]
fn a_leaf_is_kept_whatever_is_called() {
    let mut engine = path_with(&[(40, 9)]);
    let leaves = |engine: &Engine| [at(32), PATH, of(40)].map(|at| engine.status(at).unwrap().leaf);
    engine.offer(at(32), 3).unwrap();
    engine.open(at(20_000), 7, &params()).unwrap();
    engine.set_level(2).unwrap();
    engine.make(PATH, 8).unwrap();
    assert_eq!(leaves(&engine), [0, 1, 1]);
    for time in 1..20 {
        slot(&mut engine, time * MS);
        assert_eq!(leaves(&engine), [0, 1, 1]);
        if status(&engine).waiting == 0 {
            engine.offer(at(32), 1).unwrap();
        }
    }
    engine.close(at(20_000)).unwrap();
    assert_eq!(leaves(&engine), [0, 1, 1]);
}

#[test]
fn at_reads_the_connection_in_a_leaf() {
    let mut engine = path_with(&[(40, 9)]);
    assert_eq!(engine.at(0), engine.status(at(32)));
    assert_eq!(engine.at(1), engine.status(PATH));
    let last = CONNECTIONS_MAX as u32 - 1;
    for leaf in [2, last, last + 1, u32::MAX] {
        assert_eq!(engine.at(leaf), Err(Refusal::NotOpen));
    }
    engine.close(at(32)).unwrap();
    assert_eq!(engine.at(0), Err(Refusal::NotOpen));
    assert_eq!(engine.at(1), engine.status(PATH));
    for leaf in [0].into_iter().chain(2..=last) {
        assert_eq!(engine.open(at(100 + leaf), 7, &params()), opened(leaf));
    }
    assert_eq!(engine.at(last).map(|status| status.vci), Ok(100 + last));
    assert_eq!(engine.at(last + 1), Err(Refusal::NotOpen));
}

#[test]
fn unknown_pairs_are_refused() {
    let engine = path_with(&[(40, 9)]);
    let unknown = [
        at(31),
        at(33),
        of(32),
        of(41),
        Address::of_path(0),
        Address::of_path(4),
        Address::new(256, 32),
        Address::new(259, 40), // VPI 3 if it were cut
        Address::new(259, 6),
        of(65_536 + 40),
        at(65_536 + 32),
        at(3 * 65_536 + 6), // the path's name
        Address::new(u32::MAX, u32::MAX),
    ];
    for pair in unknown {
        assert_eq!(engine.status(pair), Err(Refusal::NotOpen), "{pair:?}");
    }
    assert_eq!(Engine::new().status(at(32)), Err(Refusal::NotOpen));
}

#[test]
fn a_connection_just_opened() {
    assert_eq!(status(&engine_with(&params())), fresh());
    let mut engine = Engine::new();
    let params = Params {
        n: 3,
        tbe: 1_001,  // CRM = ceil(1,001 / 8)
        mcr: 0x0001, // a code of rate 0, kept as it was given
        adtf: 7,
        trm: 2,
        ..params()
    };
    engine.open(at(32), TIME_MAX, &params).unwrap();
    let expected = Status {
        params,
        crm: 126,
        opened: TIME_MAX,
        ..fresh()
    };
    assert_eq!(status(&engine), expected);
}

#[test]
fn the_initial_rate_that_is_used() {
    // 512,000,000 x 1,001 / FRTT: more than the given rate, just that, and a quarter of it.
    let rates = [(1_000_000, RATE), (1_001_000, RATE), (4_004_000, 128_000)];
    for (frtt, icr) in rates {
        let params = Params {
            tbe: 1_001,
            frtt,
            ..params()
        };
        let expected = Status {
            params,
            crm: 32, // ceil(1,001 / 32)
            icr_used: icr,
            acr: icr,
            ..fresh()
        };
        assert_eq!(status(&engine_with(&params)), expected);
    }
}

/// VCI 32 with its first cell sent at 5, and three data cells waiting.
fn started() -> (Engine, Status) {
    let mut engine = engine_with(&params());
    engine.offer(at(32), 3).unwrap();
    let waiting = Status {
        waiting: 3,
        ready: Some(0), // the opening
        ..fresh()
    };
    assert_eq!(status(&engine), waiting);
    assert_eq!(slot(&mut engine, 5), sent(Kind::Forward));
    let started = Status {
        last_sent: Some(5),
        last_forward: Some(5),
        ready: Some(MS + 5),
        unanswered: 1,
        ..waiting
    };
    assert_eq!(status(&engine), started);
    (engine, started)
}

#[test]
fn the_cells_of_slots_and_their_instants() {
    let (mut engine, started) = started();
    for (k, time) in [(1, MS + 5), (2, 4 * MS)] {
        assert_eq!(slot(&mut engine, time), sent(Kind::Data));
        let expected = Status {
            waiting: 3 - u64::from(k),
            last_sent: Some(time),
            ready: Some(time + MS),
            k,
            ..started
        };
        assert_eq!(status(&engine), expected);
    }
    assert_eq!(slot(&mut engine, 6 * MS), sent(Kind::Data));
    let last = Status {
        waiting: 0,
        last_sent: Some(6 * MS),
        ready: Some(100 * MS + 5), // Trm after the forward cell
        k: 3,
        ..started
    };
    assert_eq!(status(&engine), last);
    assert_eq!(slot(&mut engine, 200 * MS), sent(Kind::Forward));
    let forward = Status {
        last_sent: Some(200 * MS),
        last_forward: Some(200 * MS),
        ready: None, // never
        k: 0,
        unanswered: 2,
        ..last
    };
    assert_eq!(status(&engine), forward);
}

#[test]
fn feedback_moves_the_rate_and_answers_what_is_unanswered() {
    let mut engine = engine_with(&params());
    engine.offer(at(32), 9).unwrap();
    slot(&mut engine, 0);
    let before = status(&engine);
    let bn = octets(&Rm {
        ci: 1,
        bn: 1,
        ..backward(32)
    });
    engine.receive(&bn).unwrap();
    let cut_once = Status {
        acr: 480_000, // 15/16
        change: -32_000,
        ready: Some(1_066_667), // ceil(512,000,000,000 / 480,000)
        ..before
    };
    assert_eq!((before.unanswered, status(&engine)), (1, cut_once));
    engine.receive(&cut()).unwrap();
    let cut_twice = Status {
        acr: 450_000,
        change: -30_000,
        ready: Some(1_137_778), // ceil(512,000,000,000 / 450,000)
        unanswered: 0,
        ..cut_once
    };
    assert_eq!(status(&engine), cut_twice);
    engine.receive(&octets(&backward(32))).unwrap();
    assert_eq!(status(&engine).change, 0);
    engine.receive(&up()).unwrap();
    assert_eq!(
        (status(&engine).acr, status(&engine).change),
        (512_000, 62_000)
    );
}

/// A rate of 0 is never ready, and out-of-rate cells count for nothing but their own instant.
#[test]
fn a_rate_of_0_and_out_of_rate_cells() {
    let mut engine = engine_with(&Params::house(0x53E8, 0, 0x53E8));
    engine.offer(at(32), 9).unwrap();
    slot(&mut engine, 3);
    let stop = octets(&Rm {
        er: 0,
        ..backward(32)
    });
    engine.receive(&stop).unwrap();
    let stopped = Status {
        params: Params::house(0x53E8, 0, 0x53E8),
        waiting: 9,
        acr: 0,
        change: -512_000,
        last_sent: Some(3),
        last_forward: Some(3),
        ..fresh()
    };
    assert_eq!(status(&engine), stopped);
    for time in [4, 4 + INTERVAL] {
        engine.out_of_rate(at(32), time, &mut [0; LENGTH]).unwrap();
        let written = Status {
            last_out_of_rate: Some(time),
            ..stopped
        };
        assert_eq!(status(&engine), written);
    }
    let refused = engine.out_of_rate(at(32), 5 + INTERVAL, &mut [0; LENGTH]);
    assert_eq!(refused, Err(Refusal::OutOfRateTooSoon));
    assert_eq!(status(&engine).last_out_of_rate, Some(4 + INTERVAL));
}

/// VCI 32 with a turned cell and one made at level 2, at 6; the level is 0 again.
fn backward_cells_wait() -> (Engine, Status) {
    let mut engine = engine_with(&params());
    engine.receive(&data(32, true)).unwrap();
    let marked = Status {
        efci: true,
        ..fresh()
    };
    assert_eq!(status(&engine), marked);
    engine.set_level(2).unwrap();
    engine.make(at(32), 6).unwrap();
    engine.set_level(0).unwrap();
    let made = Status {
        ready: Some(0), // the opening
        last_made: Some(6),
        made_level: Some(2), // the level of its making
        ..marked
    };
    assert_eq!(status(&engine), made);
    engine.receive(&octets(&forward(32))).unwrap();
    let both = Status {
        efci: false, // the turned cell took it
        turned: true,
        ..made
    };
    assert_eq!(status(&engine), both);
    (engine, both)
}

#[test]
fn the_turned_cell_goes_and_then_the_made_one() {
    let (mut engine, both) = backward_cells_wait();
    assert_eq!(slot(&mut engine, 6), sent(Kind::Forward));
    assert_eq!(slot(&mut engine, MS + 6), sent(Kind::Turned));
    let turned_sent = Status {
        last_sent: Some(MS + 6),
        last_forward: Some(6),
        ready: Some(2 * MS + 6),
        k: 1,
        unanswered: 1,
        backward_sent: true,
        turned: false,
        ..both
    };
    assert_eq!(status(&engine), turned_sent);
    let of_made = Sent {
        made: true,
        ..sent(Kind::Turned)
    };
    assert_eq!(slot(&mut engine, 2 * MS + 6), of_made);
    let made_sent = Status {
        last_sent: Some(2 * MS + 6),
        ready: Some(100 * MS + 6), // Trm after the forward cell
        k: 2,
        made_level: None,
        ..turned_sent
    };
    assert_eq!(status(&engine), made_sent);
    assert_eq!(slot(&mut engine, 100 * MS + 6), sent(Kind::Forward));
    let now = status(&engine);
    assert_eq!(
        (now.k, now.backward_sent, now.last_made),
        (0, false, Some(6))
    );
}

#[test]
fn the_level_of_the_made_cell_that_waits() {
    let mut engine = engine_with(&params());
    for (level, time) in [(1, 0), (2, INTERVAL), (1, 2 * INTERVAL)] {
        engine.set_level(level).unwrap();
        engine.make(at(32), time).unwrap();
        let now = status(&engine);
        assert_eq!((now.made_level, now.last_made), (Some(level), Some(time)));
    }
    engine.set_level(0).unwrap();
    assert_eq!(status(&engine).made_level, Some(1));
    assert_eq!(
        engine.make(at(32), 9 * INTERVAL),
        Err(Refusal::NotCongested)
    );
    assert_eq!(status(&engine).last_made, Some(2 * INTERVAL));
}

/// A connection that is opened anew has nothing of the one before.
#[test]
fn nothing_outlives_a_close() {
    let mut engine = engine_with(&params());
    engine.set_level(1).unwrap();
    engine.offer(at(32), 9).unwrap();
    engine.receive(&octets(&forward(32))).unwrap();
    engine.receive(&data(32, true)).unwrap();
    engine.receive(&cut()).unwrap();
    engine.make(at(32), 0).unwrap();
    engine.out_of_rate(at(32), 0, &mut [0; LENGTH]).unwrap();
    slot(&mut engine, 0);
    slot(&mut engine, 2 * MS);
    engine.close(at(32)).unwrap();
    let opened = 2 * MS;
    engine.open(at(32), opened, &params()).unwrap();
    assert_eq!(status(&engine), Status { opened, ..fresh() });
}

/// The path of [`path_with`] with so many cells on its members, and nothing sent.
fn fresh_path(waiting: u64) -> Status {
    Status {
        sort: Sort::Path,
        vpi: 3,
        vci: 6,
        leaf: 1,
        waiting,
        opened: 7,
        ready: Some(7),
        ..fresh()
    }
}

/// A member of a path, with so many cells of its own.
fn member(path: Status, vci: u32, waiting: u64) -> Status {
    Status {
        sort: Sort::Member,
        vci,
        waiting,
        ..path
    }
}

#[test]
fn a_path_has_the_sum_of_its_members() {
    let engine = path_with(&[(50, 65_535), (40, 65_535), (60, 2)]);
    let path = fresh_path(131_072);
    assert_eq!(engine.status(PATH), Ok(path));
    assert_eq!(engine.status(of(40)), Ok(member(path, 40, 65_535)));
    assert_eq!(engine.status(of(60)), Ok(member(path, 60, 2)));
    assert_eq!(status(&engine), fresh()); // the channel
    let without = Status {
        ready: None,
        ..fresh_path(0)
    };
    assert_eq!(path_with(&[]).status(PATH), Ok(without));
    let engine = path_with(&[(40, 0)]);
    assert_eq!(engine.status(of(40)), Ok(member(without, 40, 0)));
}

#[test]
fn the_member_served_last() {
    let mut engine = path_with(&[(50, 9), (40, 9), (60, 2)]);
    let forward = Sent {
        vpi: 3,
        vci: 6,
        leaf: 1,
        ..sent(Kind::Forward)
    };
    assert_eq!(slot(&mut engine, 7), forward);
    assert_eq!(engine.status(PATH).unwrap().served, None);
    for (time, vci) in [(2, 40), (4, 50), (6, 60), (8, 40)] {
        let kind = Kind::Data;
        let data = Sent {
            vci,
            kind,
            ..forward
        };
        assert_eq!(slot(&mut engine, time * MS), data);
        assert_eq!(engine.status(PATH).unwrap().served, Some(vci));
    }
    let served = Status {
        last_sent: Some(8 * MS),
        last_forward: Some(7),
        ready: Some(9 * MS),
        k: 4,
        unanswered: 1,
        served: Some(40),
        ..fresh_path(16)
    };
    assert_eq!(engine.status(PATH), Ok(served));
    assert_eq!(engine.status(of(40)), Ok(member(served, 40, 7)));
    assert_eq!(engine.status(of(60)), Ok(member(served, 60, 1)));
}

#[test]
fn a_member_that_goes() {
    let mut engine = path_with(&[(40, 9), (50, 3)]);
    for time in [7, 2 * MS] {
        slot(&mut engine, time);
    }
    engine.remove_member(of(40)).unwrap();
    let path = engine.status(PATH).unwrap();
    assert_eq!((path.waiting, path.served), (3, Some(40))); // it was the last still
    assert_eq!(engine.status(of(40)), Err(Refusal::NotOpen));
    assert_eq!(engine.status(of(50)), Ok(member(path, 50, 3)));
    engine.close(PATH).unwrap();
    for pair in [PATH, of(50)] {
        assert_eq!(engine.status(pair), Err(Refusal::NotOpen));
    }
}

#[test]
fn a_received_cell_says_what_it_is() {
    let mut engine = path_with(&[(40, 1)]); // the path alone is ready
    let rm = |rm: Rm| octets(&Rm { vpi: 3, ..rm });
    let cut = Rm {
        ci: 1,
        ..backward(6)
    };
    let cells = [
        (rm(forward(6)), Arrival::Forward, 6, RATE),
        (on(data(40, true), 0, 3), Arrival::Data, 40, RATE),
        (rm(cut), Arrival::Backward, 6, 480_000), // the rate afterwards
        (on(data(40, true), 0, 3), Arrival::Data, 40, 480_000),
    ];
    for (cell, kind, vci, acr) in cells {
        let of_path = Received {
            kind,
            vpi: 3,
            vci,
            leaf: 1,
            acr,
            comparisons: COMPARISONS_MAX,
        };
        assert_eq!(engine.receive(&cell), Ok(of_path));
    }
    let of_channel = Received {
        kind: Arrival::Data,
        vpi: 0,
        vci: 32,
        leaf: 0,
        acr: RATE,
        comparisons: 1,
    };
    assert_eq!(engine.receive(&data(32, false)), Ok(of_channel));
}

#[test]
fn a_slot_answers_the_rate_before_the_first_move() {
    let mut engine = engine_with(&Params {
        icr: 0x4000,
        ..params()
    });
    engine.offer(at(32), 1).unwrap();
    engine.receive(&up()).unwrap();
    let first = Sent {
        acr: 512, // down to the initial rate
        ..sent(Kind::Forward)
    };
    assert_eq!(slot(&mut engine, 0), first);
    engine.receive(&up()).unwrap();
    assert_eq!(slot(&mut engine, MS), sent(Kind::Data));
}

#[test]
fn a_slot_answers_the_rate_before_a_cut() {
    let mut engine = engine_with(&Params {
        n: 1,
        tbe: 2, // CRM 1
        ..params()
    });
    engine.offer(at(32), 9).unwrap();
    let mut rates = [0; 5].map(|_| (0, 0));
    for (time, rates) in (0..).zip(&mut rates) {
        let sent = slot(&mut engine, 2 * MS * time);
        *rates = (sent.acr_before, sent.acr);
    }
    // Forward cells at 0, 4 and 8 ms: Y is 0, 1 and 2.
    let (whole, cut, twice) = (RATE, 480_000, 450_000);
    let expected = [
        (whole, whole),
        (whole, whole),
        (whole, cut),
        (cut, cut),
        (cut, twice),
    ];
    assert_eq!(rates, expected);
}

#[test]
fn members_by_their_numbers() {
    let mut engine = Engine::new();
    assert_eq!(engine.member_at(0), Err(Refusal::NotOpen));
    let pairs = [(200, 32), (3, 65_535), (200, 40), (3, 33), (0, 60_000)];
    for vpi in [200, 0, 3, 7] {
        engine.open_path(vpi, 0, &params()).unwrap();
    }
    assert_eq!(engine.member_at(0), Err(Refusal::NotOpen));
    engine.open(of(50), 0, &params()).unwrap();
    for (cells, (vpi, vci)) in (1..).zip(pairs) {
        let pair = Address::new(vpi, vci);
        engine.add_member(pair).unwrap();
        engine.offer_member(pair, cells).unwrap();
    }
    let listed = |engine: &Engine| -> Vec<(u32, u32, u64)> {
        let members = (0..).map_while(|number| engine.member_at(number).ok());
        members
            .map(|Member { vpi, vci, waiting }| (vpi, vci, waiting))
            .collect()
    };
    let rising = [
        (0, 60_000, 5),
        (3, 33, 4),
        (3, 65_535, 2),
        (200, 32, 1),
        (200, 40, 3),
    ];
    assert_eq!(listed(&engine), rising);
    for number in [5, 255, 256, u32::MAX] {
        assert_eq!(engine.member_at(number), Err(Refusal::NotOpen));
    }
    engine.remove_member(of(33)).unwrap();
    assert_eq!(
        listed(&engine),
        [rising[0], rising[2], rising[3], rising[4]]
    );
    engine.close(Address::of_path(200)).unwrap();
    assert_eq!(listed(&engine), [rising[0], rising[2]]);
}

/// An engine with nothing open.
const EMPTY: Totals = Totals {
    connections: 0,
    connections_max: CONNECTIONS_MAX,
    members: 0,
    level: 0,
    last: 0,
};

#[test]
fn the_link_counts_connections_and_members() {
    let mut engine = Engine::new();
    assert_eq!(engine.link(), EMPTY);
    engine.open(at(32), 4, &params()).unwrap();
    engine.open_path(3, 5, &params()).unwrap();
    engine.open_path(4, 5, &params()).unwrap();
    for pair in [of(40), of(41), Address::new(4, 40)] {
        engine.add_member(pair).unwrap();
    }
    engine.set_level(2).unwrap();
    let three = Totals {
        connections: 3,
        members: 3,
        level: 2,
        last: 5,
        ..EMPTY
    };
    assert_eq!(engine.link(), three);
    engine.close(PATH).unwrap();
    engine.set_level(1).unwrap();
    let two = Totals {
        connections: 2,
        members: 1,
        level: 1,
        ..three
    };
    assert_eq!(engine.link(), two);
}

#[test]
fn the_last_time_of_the_link() {
    let mut engine = path_with(&[]);
    engine.set_level(1).unwrap();
    assert_eq!(engine.link().last, 7); // of the path's open
    assert_eq!(kind(&mut engine, 8), None);
    assert_eq!(engine.link().last, 8); // an idle slot counts
    engine.make(at(32), 9).unwrap();
    assert_eq!(engine.link().last, 9);
    engine.out_of_rate(PATH, 10, &mut [0; LENGTH]).unwrap();
    assert_eq!(engine.link().last, 10);
    engine.make(at(32), 11).unwrap_err(); // too soon
    engine.slot(9, &mut [0; LENGTH]).unwrap_err();
    engine.offer(at(32), 1).unwrap();
    engine.close(PATH).unwrap();
    assert_eq!(engine.link().last, 10);
}
