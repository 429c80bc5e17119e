//! Tests of paths and their members through the calls of an engine (document 02, L13).

use crate::address_tests::on;
use crate::cell::{Octets, LENGTH};
use crate::engine::{Closed, Engine, TIME_MAX};
use crate::engine_tests::{
    at, backward, data, draws, fill, forward, kind, octets, opened, params, receive, refused,
    slot_rm, waiting, MS, RATE,
};
use crate::{Address, Kind, Params, Refusal, Rm, COMPARISONS_MAX};

/// The VPI of the path.
const VPI: u32 = 3;

/// The path's own name.
const PATH: Address = Address::of_path(VPI);

/// A member or a channel on the path's VPI.
const fn of(vci: u32) -> Address {
    Address::new(VPI, vci)
}

/// An engine with the path, opened at time 0, and these members, with so many cells each.
fn path_with(members: &[(u32, u64)]) -> Engine {
    let mut engine = Engine::new();
    assert_eq!(engine.open_path(VPI, 0, &params()), opened(0));
    for (vci, cells) in members {
        engine.add_member(of(*vci)).unwrap();
        engine.offer_member(of(*vci), *cells).unwrap();
    }
    engine
}

/// A forward cell of the path arrives.
fn arriving() -> Octets {
    let vpi = VPI;
    octets(&Rm { vpi, ..forward(6) })
}

/// The VCI and the kind of a slot.
fn served(engine: &mut Engine, time: u64) -> Option<(u32, Kind)> {
    let sent = engine.slot(time, &mut [0; LENGTH]).unwrap()?;
    assert_eq!((sent.vpi, sent.comparisons), (VPI, COMPARISONS_MAX));
    Some((sent.vci, sent.kind))
}

#[test]
fn the_name_of_a_path() {
    assert_eq!((PATH.vpi, PATH.vci), (3, 6));
    assert_eq!(PATH.name(), Some(3 * 65_536 + 6));
}

#[test]
fn the_refusals_of_opening_a_path_in_their_order() {
    let mut engine = Engine::new();
    let wrong = Params {
        icr: 0x8000,
        n: 9,
        ..params()
    };
    refused(&engine, Refusal::ReservedBit, |engine| {
        engine.open_path(256, TIME_MAX + 1, &wrong)
    });
    let out_of_range = Params { n: 9, ..params() };
    refused(&engine, Refusal::Range, |engine| {
        engine.open_path(VPI, TIME_MAX + 1, &out_of_range)
    });
    for vpi in [256, VPI + 256, 65_536 + VPI, u32::MAX] {
        refused(&engine, Refusal::Range, |engine| {
            engine.open_path(vpi, TIME_MAX + 1, &params())
        });
    }
    engine.open_path(VPI, 7, &params()).unwrap();
    for (refusal, vpi, time) in [
        (Refusal::Time, VPI, TIME_MAX + 1),
        (Refusal::AlreadyOpen, VPI, 6),
        (Refusal::TimeBackward, 0, 6),
    ] {
        refused(&engine, refusal, |engine| {
            engine.open_path(vpi, time, &params())
        });
    }
    assert_eq!(engine.open_path(0, 7, &params()), opened(1));
    assert_eq!(engine.open_path(255, 7, &params()), opened(2));
    fill(&mut engine, 7);
    for (refusal, vpi) in [(Refusal::Full, 9), (Refusal::AlreadyOpen, 255)] {
        refused(&engine, refusal, |engine| {
            engine.open_path(vpi, 6, &params())
        });
    }
}

/// No open makes the name of a path a channel.
#[test]
fn vci_6_is_opened_by_no_other_call() {
    let engine = Engine::new();
    refused(&engine, Refusal::LowVci, |engine| {
        engine.open(PATH, 0, &params())
    });
    refused(&path_with(&[]), Refusal::LowVci, |engine| {
        engine.open(PATH, 0, &params())
    });
}

#[test]
fn the_refusals_of_adding_in_their_order() {
    let mut engine = path_with(&[(40, 0)]);
    engine.open(of(50), 0, &params()).unwrap();
    for vci in [0, 6, 31] {
        refused(&engine, Refusal::LowVci, |engine| {
            engine.add_member(of(vci))
        });
        refused(&engine, Refusal::LowVci, |engine| {
            engine.add_member(Address::new(256, vci))
        });
    }
    refused(&engine, Refusal::NotOpen, |engine| {
        engine.add_member(at(40))
    });
    refused(&engine, Refusal::NotOpen, |engine| {
        engine.add_member(Address::new(VPI + 256, 41))
    });
    refused(&engine, Refusal::NotOpen, |engine| {
        engine.add_member(of(65_536))
    });
    refused(&engine, Refusal::NotOpen, |engine| {
        engine.add_member(of(65_536 + 41))
    });
    refused(&engine, Refusal::AlreadyOpen, |engine| {
        engine.add_member(of(50))
    });
    refused(&engine, Refusal::AlreadyMember, |engine| {
        engine.add_member(of(40))
    });
}

/// With 256 members 26 comes last.
#[test]
fn the_refusals_of_adding_to_256_members() {
    let mut engine = path_with(&[(40, 0)]);
    engine.open(of(50), 0, &params()).unwrap();
    for vci in 100..355 {
        engine.add_member(of(vci)).unwrap();
    }
    refused(&engine, Refusal::MembersFull, |engine| {
        engine.add_member(of(41))
    });
    refused(&engine, Refusal::AlreadyMember, |engine| {
        engine.add_member(of(40))
    });
    refused(&engine, Refusal::AlreadyOpen, |engine| {
        engine.add_member(of(50))
    });
    engine.remove_member(of(40)).unwrap();
    assert_eq!(engine.add_member(of(41)), Ok(()));
}

/// The 256 are those of all paths together; a closed path has none.
#[test]
fn all_paths_share_the_members() {
    let mut engine = path_with(&[]);
    engine.open_path(200, 0, &params()).unwrap();
    for vci in 0..128 {
        engine.add_member(of(32 + vci)).unwrap();
        engine.add_member(Address::new(200, 65_535 - vci)).unwrap();
    }
    refused(&engine, Refusal::MembersFull, |engine| {
        engine.add_member(Address::new(200, 32))
    });
    refused(&engine, Refusal::NotOpen, |engine| {
        engine.add_member(Address::new(201, 32))
    });
    engine.close(PATH).unwrap();
    assert_eq!(engine.add_member(Address::new(200, 32)), Ok(()));
    refused(&engine, Refusal::NotOpen, |engine| {
        engine.add_member(of(32))
    });
}

#[test]
fn a_pair_is_a_channel_or_a_member() {
    let mut engine = path_with(&[(40, 2)]);
    refused(&engine, Refusal::AlreadyMember, |engine| {
        engine.open(of(40), 0, &params())
    });
    refused(&engine, Refusal::Time, |engine| {
        engine.open(of(40), TIME_MAX + 1, &params())
    });
    engine.open(of(41), 5, &params()).unwrap();
    refused(&engine, Refusal::AlreadyOpen, |engine| {
        engine.add_member(of(41))
    });
    refused(&engine, Refusal::AlreadyOpen, |engine| {
        engine.open(of(41), 4, &params())
    });
    refused(&engine, Refusal::AlreadyMember, |engine| {
        engine.open(of(40), 4, &params())
    });
    refused(&engine, Refusal::TimeBackward, |engine| {
        engine.open(of(42), 4, &params())
    });
    assert_eq!(engine.open(at(40), 5, &params()), opened(2)); // on another VPI
    fill(&mut engine, 5);
    refused(&engine, Refusal::Full, |engine| {
        engine.open(of(42), 5, &params())
    });
    refused(&engine, Refusal::AlreadyMember, |engine| {
        engine.open(of(40), 5, &params())
    });
    engine.remove_member(of(40)).unwrap();
    engine.close(of(41)).unwrap();
    assert_eq!(engine.open(of(40), 5, &params()), opened(1));
    assert_eq!(engine.add_member(of(41)), Ok(()));
    engine.close(PATH).unwrap();
    assert_eq!(engine.open(of(41), 5, &params()), opened(0));
}

#[test]
fn the_refusals_of_a_members_offer_and_removal() {
    let mut engine = path_with(&[(40, 65_530)]);
    engine.open(of(50), 0, &params()).unwrap();
    for vci in [0, 6, 41, 50] {
        refused(&engine, Refusal::NotAMember, |engine| {
            engine.offer_member(of(vci), u64::MAX)
        });
        refused(&engine, Refusal::NotAMember, |engine| {
            engine.remove_member(of(vci))
        });
    }
    for pair in [at(40), Address::new(VPI + 256, 40)] {
        refused(&engine, Refusal::NotOpen, |engine| {
            engine.offer_member(pair, u64::MAX)
        });
        refused(&engine, Refusal::NotOpen, |engine| {
            engine.remove_member(pair)
        });
    }
    refused(&engine, Refusal::TooMuchData, |engine| {
        engine.offer_member(of(40), 6)
    });
    engine.offer_member(of(40), 5).unwrap();
    refused(&engine, Refusal::TooMuchData, |engine| {
        engine.offer_member(of(40), 1)
    });
    assert_eq!(engine.offer_member(of(40), 0), Ok(COMPARISONS_MAX));
}

/// A VCI over 65,535 is no member's: 28 where the path is open, whatever it would be if it
/// were cut or added to the VPI, and 11 where it is not. It is never added.
#[test]
fn a_vci_out_of_range_is_no_member_of_an_open_path() {
    let mut engine = path_with(&[(40, 9)]);
    engine.open_path(VPI - 1, 0, &params()).unwrap();
    engine.open(of(50), 0, &params()).unwrap();
    for vci in [65_536, 65_542, 65_576, 65_586, 70_000, u32::MAX] {
        for path in [VPI - 1, VPI] {
            let pair = Address::new(path, vci);
            refused(&engine, Refusal::NotAMember, |engine| {
                engine.offer_member(pair, 0)
            });
            refused(&engine, Refusal::NotAMember, |engine| {
                engine.offer_member(pair, u64::MAX)
            });
            refused(&engine, Refusal::NotAMember, |engine| {
                engine.remove_member(pair)
            });
            refused(&engine, Refusal::NotOpen, |engine| engine.add_member(pair));
            refused(&engine, Refusal::NotOpen, |engine| engine.offer(pair, 0));
        }
        for path in [0, 256, VPI + 256, u32::MAX] {
            let pair = Address::new(path, vci);
            refused(&engine, Refusal::NotOpen, |engine| {
                engine.offer_member(pair, u64::MAX)
            });
            refused(&engine, Refusal::NotOpen, |engine| {
                engine.remove_member(pair)
            });
            refused(&engine, Refusal::NotOpen, |engine| engine.add_member(pair));
        }
    }
    engine.close(PATH).unwrap();
    refused(&engine, Refusal::NotOpen, |engine| {
        engine.offer_member(of(70_000), 0)
    });
    refused(&engine, Refusal::NotOpen, |engine| {
        engine.remove_member(of(70_000))
    });
}

/// Each member has a limit of its own, and the path none.
#[test]
fn members_fill_one_by_one() {
    let mut engine = path_with(&[(40, 65_535), (41, 65_535), (42, 0)]);
    assert_eq!(waiting(&engine, PATH), 131_070);
    assert_eq!(engine.offer_member(of(42), 65_535), Ok(COMPARISONS_MAX));
    assert_eq!(engine.close(PATH).unwrap().cells, 3 * 65_535);
}

#[test]
fn plain_calls_on_a_members_pair_meet_11() {
    let mut engine = path_with(&[(40, 9)]);
    engine.set_level(1).unwrap();
    refused(&engine, Refusal::NotOpen, |engine| {
        engine.offer(of(40), u64::MAX)
    });
    refused(&engine, Refusal::NotOpen, |engine| engine.close(of(40)));
    refused(&engine, Refusal::NotOpen, |engine| engine.make(of(40), 0));
    refused(&engine, Refusal::NotOpen, |engine| {
        engine.out_of_rate(of(40), 0, &mut [0; LENGTH])
    });
    refused(&engine, Refusal::NotOpen, |engine| engine.allowed(of(40)));
    refused(&engine, Refusal::NotOpen, |engine| {
        engine.export(of(40)).map(|_| ())
    });
}

#[test]
fn plain_calls_on_a_paths_own_name() {
    let mut engine = path_with(&[(40, 9)]);
    engine.set_level(1).unwrap();
    refused(&engine, Refusal::NotAMember, |engine| engine.offer(PATH, 0));
    refused(&engine, Refusal::NotAMember, |engine| {
        engine.offer(PATH, u64::MAX)
    });
    refused(&engine, Refusal::NotOpen, |engine| {
        engine.offer(Address::of_path(4), 0)
    });
    assert_eq!(engine.acr(PATH), Ok(RATE));
    assert_eq!(engine.export(PATH).unwrap().icr, 1_000.0);
    assert_eq!(engine.make(PATH, 0), Ok(COMPARISONS_MAX));
    let mut cell = [0; LENGTH];
    assert_eq!(engine.out_of_rate(PATH, 0, &mut cell), Ok(()));
    assert_eq!(cell[..4], [0x00, 0x30, 0x00, 0x6D]); // VPI 3, VCI 6, payload type 6, CLP 1
    assert_eq!(engine.close(PATH).unwrap().cells, 9);
    refused(&engine, Refusal::NotOpen, |engine| engine.close(PATH));
}

/// Forward, turned and made cells bear the path's name; data that of the member.
#[test]
fn rm_cells_have_vci_6() {
    let mut engine = path_with(&[(40, 9)]);
    let (sent, rm) = slot_rm(&mut engine, 0);
    assert_eq!((sent.vpi, sent.vci, sent.kind), (VPI, 6, Kind::Forward));
    assert_eq!((rm.vpi, rm.vci, rm.dir), (VPI, 6, 0));
    assert_eq!(receive(&mut engine, &arriving()), Ok(COMPARISONS_MAX));
    engine.set_level(2).unwrap();
    assert_eq!(engine.make(PATH, 0), Ok(COMPARISONS_MAX));
    let (sent, rm) = slot_rm(&mut engine, MS);
    assert_eq!((sent.vci, sent.kind), (6, Kind::Turned));
    assert_eq!((rm.vpi, rm.vci, rm.dir, rm.bn), (VPI, 6, 1, 0));
    assert_eq!(served(&mut engine, 2 * MS), Some((40, Kind::Data)));
    let cells = engine.remove_member(of(40)).unwrap().cells;
    assert_eq!(cells, 8);
    let (sent, rm) = slot_rm(&mut engine, 3 * MS);
    assert_eq!((sent.vci, sent.kind, rm.vci), (6, Kind::Turned, 6));
    assert_eq!((rm.bn, rm.ci), (1, 1));
}

#[test]
fn an_rm_cell_on_a_members_pair_is_refused() {
    let engine = path_with(&[(40, 1)]);
    for rm in [forward(40), backward(40)] {
        let cell = octets(&Rm { vpi: VPI, ..rm });
        refused(&engine, Refusal::NotOpen, |engine| engine.receive(&cell));
    }
}

#[test]
fn a_data_cell_on_a_paths_own_name_is_refused() {
    let engine = path_with(&[(40, 1)]);
    refused(&engine, Refusal::NotOpen, |engine| {
        engine.receive(&on(data(6, true), 0, VPI))
    });
    refused(&engine, Refusal::NotOpen, |engine| {
        engine.receive(&on(data(41, true), 0, VPI))
    });
}

/// The mark of the last data cell of any member is the path's.
#[test]
fn members_share_the_saved_mark() {
    for (marks, ci) in [
        ([(40, false), (41, true)], 1),
        ([(41, true), (40, false)], 0),
    ] {
        let mut engine = path_with(&[(40, 1), (41, 0)]);
        assert_eq!(kind(&mut engine, 0), Some(Kind::Forward));
        for (vci, efci) in marks {
            let cell = on(data(vci, efci), 0, VPI);
            assert_eq!(receive(&mut engine, &cell), Ok(COMPARISONS_MAX));
        }
        engine.receive(&arriving()).unwrap();
        let (sent, rm) = slot_rm(&mut engine, MS);
        assert_eq!((sent.kind, rm.ci), (Kind::Turned, ci));
    }
}

/// A mark stays when the member that brought it is removed.
#[test]
fn a_saved_mark_outlives_its_member() {
    let mut engine = path_with(&[(40, 1)]);
    engine.receive(&on(data(40, true), 0, VPI)).unwrap();
    engine.remove_member(of(40)).unwrap();
    engine.receive(&arriving()).unwrap();
    assert_eq!(kind(&mut engine, 0), Some(Kind::Forward));
    assert_eq!(slot_rm(&mut engine, MS).1.ci, 1);
}

#[test]
fn feedback_moves_the_path() {
    let mut engine = path_with(&[(40, 1)]);
    let cell = octets(&Rm {
        vpi: VPI,
        ci: 1,
        ..backward(6)
    });
    engine.receive(&cell).unwrap();
    assert_eq!(engine.acr(PATH), Ok(480_000));
}

/// One rate for all members, whose turns come round.
#[test]
fn one_rate_for_all_members() {
    let mut engine = path_with(&[(50, 2), (40, 2), (45, 0)]);
    assert_eq!(served(&mut engine, 0), Some((6, Kind::Forward)));
    let turns = [40, 50, 40, 50];
    for (ms, vci) in (1..).zip(turns) {
        assert_eq!(engine.slot(ms * MS - 1, &mut [0; LENGTH]), Ok(None));
        assert_eq!(served(&mut engine, ms * MS), Some((vci, Kind::Data)));
    }
    assert_eq!(served(&mut engine, 5 * MS), None); // nothing waits
}

#[test]
fn the_last_served_goes_with_the_path() {
    let mut engine = path_with(&[(40, 2), (50, 2)]);
    assert_eq!(served(&mut engine, 0), Some((6, Kind::Forward)));
    assert_eq!(served(&mut engine, MS), Some((40, Kind::Data)));
    assert_eq!(engine.close(PATH).unwrap().cells, 3);
    engine.open_path(VPI, MS, &params()).unwrap();
    refused(&engine, Refusal::NotAMember, |engine| {
        engine.offer_member(of(40), 0)
    });
    for vci in [40, 50] {
        engine.add_member(of(vci)).unwrap();
        engine.offer_member(of(vci), 1).unwrap();
    }
    assert_eq!(served(&mut engine, MS), Some((6, Kind::Forward)));
    assert_eq!(served(&mut engine, 2 * MS), Some((40, Kind::Data)));
}

#[test]
fn comparisons_of_the_paths_leaf() {
    let mut engine = Engine::new();
    engine.open(at(32), 0, &params()).unwrap(); // leaf 0
    engine.open_path(VPI, 0, &params()).unwrap(); // leaf 1
    assert_eq!(engine.add_member(of(40)), Ok(()));
    assert_eq!(engine.offer_member(of(40), 0), Ok(1)); // nobody is ready
    assert_eq!(receive(&mut engine, &on(data(40, true), 0, VPI)), Ok(1));
    assert_eq!(engine.offer_member(of(40), 1), Ok(COMPARISONS_MAX)); // it wins at every level
    assert_eq!(engine.offer(at(32), 1), Ok(COMPARISONS_MAX)); // now leaf 0, with the lower name
    assert_eq!(engine.offer_member(of(40), 1), Ok(1)); // it wins nowhere
    assert_eq!(receive(&mut engine, &on(data(40, true), 0, VPI)), Ok(1));
    engine.close(at(32)).unwrap();
    let removed = Closed {
        cells: 2,
        comparisons: COMPARISONS_MAX,
    };
    assert_eq!(engine.remove_member(of(40)), Ok(removed)); // it is no longer ready
    engine.add_member(of(40)).unwrap();
    let removed = Closed {
        cells: 0,
        comparisons: 1,
    };
    assert_eq!(engine.remove_member(of(40)), Ok(removed));
}

/// A path's name is lower than that of every channel on its VPI.
#[test]
fn ties_by_the_paths_name() {
    let mut engine = Engine::new();
    engine.open(of(32), 0, &params()).unwrap();
    engine.offer(of(32), 1).unwrap();
    engine
        .open(Address::new(VPI - 1, 65_535), 0, &params())
        .unwrap();
    engine.offer(Address::new(VPI - 1, 65_535), 1).unwrap();
    engine.open_path(VPI, 0, &params()).unwrap();
    engine.add_member(of(65_535)).unwrap();
    engine.offer_member(of(65_535), 1).unwrap();
    let mut order = Vec::new();
    for _ in 0..3 {
        let sent = engine.slot(0, &mut [0; LENGTH]).unwrap().unwrap();
        order.push((sent.vpi, sent.vci));
    }
    assert_eq!(order, [(2, 65_535), (3, 6), (3, 32)]);
}

/// In every stretch of slots through which two members have data their cells differ by one
/// at most, whatever the others do.
#[test]
fn two_members_with_data_have_equal_shares() {
    let mut draw = draws(3);
    for _ in 0..50 {
        let mut engine = path_with(&[(100, 60_000), (200, 60_000)]);
        let mut balance = vec![0i64];
        for ms in 0..400 {
            let other = of(32 + draw(300));
            match draw(4) {
                0 => drop(engine.add_member(other)),
                1 => drop(engine.offer_member(other, draw(3).into())),
                2 if ![100, 200].contains(&other.vci) => drop(engine.remove_member(other)),
                _ => {}
            }
            match served(&mut engine, ms * MS) {
                Some((100, Kind::Data)) => balance.push(balance.last().unwrap() + 1),
                Some((200, Kind::Data)) => balance.push(balance.last().unwrap() - 1),
                _ => {}
            }
        }
        let (least, most) = (balance.iter().min(), balance.iter().max());
        assert!(balance.len() > 30 && most.unwrap() - least.unwrap() <= 1);
    }
}
