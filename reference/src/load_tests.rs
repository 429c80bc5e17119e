//! Tests of the turns of a path's members.

use super::*;

/// Members with so many cells each.
fn members(cells: &[(u32, u64)]) -> Members {
    let mut members = Members::default();
    for (vci, cells) in cells {
        members.add(*vci);
        members.offer(*vci, *cells).unwrap();
    }
    members
}

/// The next turns, until nobody has data.
fn turns(members: &mut Members) -> Vec<u32> {
    std::iter::from_fn(|| members.take()).collect()
}

#[test]
fn rising_and_round_to_the_lowest() {
    let mut members = members(&[(50, 2), (40, 3), (60, 0), (70, 1)]);
    assert_eq!(turns(&mut members), [40, 50, 70, 40, 50, 40]);
    assert_eq!(members.take(), None);
    assert_eq!(members.served, Some(40));
}

#[test]
fn before_any_was_served_the_lowest_with_data() {
    let mut members = members(&[(40, 0), (50, 0), (60, 1)]);
    assert_eq!(members.turn(), Some(60));
    members.offer(50, 1).unwrap();
    assert_eq!(members.turn(), Some(50));
}

#[test]
fn one_member_has_every_turn() {
    let mut members = members(&[(40, 0), (65_535, 3), (50, 0)]);
    assert_eq!(turns(&mut members), [65_535; 3]);
}

#[test]
fn the_turn_stays_when_the_one_served_last_is_removed() {
    let mut members = members(&[(40, 5), (50, 5), (60, 5)]);
    assert_eq!((members.take(), members.take()), (Some(40), Some(50)));
    assert_eq!(members.remove(50), Ok(4));
    assert_eq!(members.take(), Some(60)); // not 40 again
    members.add(50);
    members.offer(50, 1).unwrap();
    assert_eq!((members.take(), members.take()), (Some(40), Some(50)));
}

#[test]
fn a_member_that_comes_is_served_in_its_place() {
    let mut members = members(&[(40, 9), (60, 9)]);
    assert_eq!(members.take(), Some(40));
    members.add(50);
    assert_eq!(members.take(), Some(60)); // 50 has no data
    members.offer(50, 1).unwrap();
    members.add(32);
    members.offer(32, 1).unwrap();
    assert_eq!(turns(&mut members)[..5], [32, 40, 50, 60, 40]);
}

#[test]
fn each_member_has_its_own_limit() {
    let mut members = members(&[(40, 65_535), (50, 65_535)]);
    assert_eq!(members.offer(40, 1), Err(Refusal::TooMuchData));
    assert_eq!(members.offer(40, 0), Ok(()));
    assert_eq!(members.offer(50, u64::MAX), Err(Refusal::TooMuchData));
    let mut load = Load::Path(members);
    assert_eq!(load.waiting(), 131_070);
    assert_eq!(load.offer(0), Err(Refusal::NotAMember));
}

#[test]
fn no_member() {
    let mut members = members(&[(40, 1)]);
    assert_eq!(members.offer(41, 0), Err(Refusal::NotAMember));
    assert_eq!(members.remove(41), Err(Refusal::NotAMember));
    assert_eq!(members.waiting(41), Err(Refusal::NotAMember));
    assert_eq!(members.remove(40), Ok(1));
    assert_eq!(members.remove(40), Err(Refusal::NotAMember));
    assert_eq!(members.count(), 0);
}

#[test]
fn a_channel_has_no_members() {
    let mut load = Load::channel();
    load.offer(2).unwrap();
    assert_eq!(load.take(), None);
    assert_eq!((load.waiting(), load.members()), (1, None));
}
