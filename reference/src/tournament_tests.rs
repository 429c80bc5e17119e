//! Tests of the tournament without an engine.

use super::*;

/// A tournament with these entrants; the VCI of leaf x is 32 + x.
fn with(entrants: &[(usize, u64)]) -> Tournament {
    let mut tournament = Tournament::default();
    for (leaf, ready) in entrants {
        tournament.replay(*leaf, Some((*ready, 32 + *leaf as u32)));
    }
    tournament
}

#[test]
fn the_first_match_without_a_winner_as_before_ends_it() {
    let mut tournament = Tournament::default();
    assert_eq!(tournament.replay(5, None), 1);
    assert_eq!(tournament.top(), None);
}

#[test]
fn the_only_entrant_wins_at_every_level() {
    for leaf in [0, 1, LEAVES / 2 - 1, LEAVES / 2, LEAVES - 1] {
        let mut tournament = Tournament::default();
        assert_eq!(tournament.replay(leaf, Some((7, 32))), COMPARISONS_MAX);
        assert_eq!(tournament.top(), Some((7, 32)));
        assert_eq!(tournament.replay(leaf, Some((7, 32))), COMPARISONS_MAX); // unchanged, but the leaf itself
        assert_eq!(tournament.replay(leaf, None), COMPARISONS_MAX); // from that leaf to none at each
        assert_eq!(tournament.replay(leaf, None), 1);
    }
}

#[test]
fn a_leaf_that_leads_d_levels_replays_one_more() {
    // Leaf 2^d and leaf 0, which is earlier, meet at level d + 1.
    for d in 0..COMPARISONS_MAX {
        let leaf = 1 << d;
        let mut tournament = with(&[(0, 5)]);
        for ready in [7, 6, 7, 7, 5] {
            assert_eq!(tournament.replay(leaf, Some((ready, 9_999))), d + 1);
        }
        assert_eq!(tournament.replay(leaf, Some((4, 9_999))), COMPARISONS_MAX);
        assert_eq!(tournament.replay(leaf, Some((5, 9_999))), COMPARISONS_MAX); // leaf 0 wins again
        assert_eq!(tournament.replay(leaf, None), d + 1);
    }
}

#[test]
fn it_ends_below_a_winner_that_is_neither_new_nor_that_leaf() {
    const HALF: usize = LEAVES / 2; // the first leaf of the upper half
    let mut tournament = with(&[(0, 5), (4, 6), (6, 7), (HALF, 4)]);
    assert_eq!(tournament.replay(7, Some((8, 100))), 1); // 6 wins as before
    assert_eq!(tournament.replay(7, Some((6, 100))), 2); // 7 at level 1, 4 at level 2
    assert_eq!(tournament.replay(7, Some((5, 100))), 3); // 7 at level 2, 0 at level 3
    assert_eq!(tournament.replay(7, Some((5, 31))), COMPARISONS_MAX); // 7 in its half, HALF at the last level
    assert_eq!(tournament.top(), Some((4, 32 + HALF as u32)));
    assert_eq!(tournament.replay(6, None), 1); // 7 wins as before
    assert_eq!(tournament.replay(HALF, None), COMPARISONS_MAX); // none in its half, 7 at the last level
    assert_eq!(tournament.top(), Some((5, 31)));
}

#[test]
fn ties_go_to_the_lower_name_and_not_to_the_lower_leaf() {
    let mut tournament = Tournament::default();
    assert_eq!(tournament.replay(3, Some((5, 40))), COMPARISONS_MAX);
    assert_eq!(tournament.replay(2, Some((5, 41))), 1);
    assert_eq!(tournament.replay(2, Some((5, 39))), COMPARISONS_MAX);
    assert_eq!(tournament.top(), Some((5, 39)));
}

#[test]
fn the_lowest_free_leaf_is_taken() {
    let mut tournament = Tournament::default();
    assert!((0..LEAVES).all(|leaf| tournament.take() == Some(leaf)));
    assert_eq!(tournament.take(), None);
    let rising = [3, LEAVES / 2, LEAVES / 2 + 5, LEAVES - 1];
    for place in [2, 0, 3, 1] {
        assert_eq!(tournament.release(rising[place]), 1);
    }
    assert_eq!(rising.map(|_| tournament.take()), rising.map(Some));
    assert_eq!(tournament.take(), None);
}

/// The winner of a leaf's match at a level, by looking at every leaf below it.
fn scanned(tournament: &Tournament, level: usize, leaf: usize) -> Option<usize> {
    let first = leaf >> level << level;
    let playing = (first..first + (1 << level)).filter(|leaf| tournament.entrants[*leaf].is_some());
    playing.min_by_key(|leaf| tournament.entrants[*leaf])
}

#[test]
fn winners_and_counts_are_those_of_a_scan() {
    let mut tournament = Tournament::default();
    let mut state = 1u64;
    let mut draw = |limit: u64| {
        state = state.wrapping_mul(6_364_136_223_846_793_005);
        state = state.wrapping_add(1_442_695_040_888_963_407);
        (state >> 33) % limit
    };
    let mut seen = [0; LEVELS + 1];
    for _ in 0..20_000 {
        let leaf = (draw(LEAVES as u64) >> draw(LEVELS as u64)) as usize;
        let entrant = (draw(4) > 0).then_some((draw(50), 32 + leaf as u32));
        let before: Vec<_> = (1..=LEVELS)
            .map(|level| scanned(&tournament, level, leaf))
            .collect();
        let count = tournament.replay(leaf, entrant) as usize;
        let after: Vec<_> = (1..=LEVELS)
            .map(|level| scanned(&tournament, level, leaf))
            .collect();
        let goes_on = |level: usize| before[level] != after[level] || after[level] == Some(leaf);
        assert!((0..count - 1).all(goes_on));
        assert!(count == LEVELS || !goes_on(count - 1));
        assert!(
            (1..=LEVELS).all(|level| tournament.winners[level][leaf >> level] == after[level - 1])
        );
        seen[count] += 1;
    }
    assert!(seen[1..].iter().all(|times| *times > 20), "{seen:?}");
}
