//! What is changed in a trace that passes, and the verdict that follows.

use abr::{RATE_MAX, TIME_MAX};
use abr_reference::Refusal;

use super::{Draft, Verdict};
use crate::coverage::Event;
use crate::rng::Rng;
use crate::trace::{put, CELL, HEAD};

/// Changes a draft and gives the verdict.
type Change = fn(&mut Draft, &mut Rng) -> Verdict;

/// All changes, by what they are an example of.
pub const CHANGES: [(Event, Change); 24] = [
    (Event::TraceNoCell, no_cell),
    (Event::TraceFirstRate, first_rate),
    (Event::TraceFirstKind, first_kind),
    (Event::TraceGapLessOne, gap_less_one),
    (Event::TraceRateZero, rate_zero),
    (Event::TraceForwardEarly, forward_early),
    (Event::TraceForwardMissing, forward_missing),
    (Event::TraceGapBeforeKind, gap_before_kind),
    (Event::TraceBrokenTwice, broken_twice),
    (Event::TraceEmpty, empty),
    (Event::TraceHalfHead, half_head),
    (Event::TraceCut, cut),
    (Event::TraceLastGroupZero, last_group_zero),
    (Event::TraceTenthOctet, tenth_octet),
    (Event::TraceN, n),
    (Event::TraceTrm, trm),
    (Event::TraceFirstTime, first_time),
    (Event::TraceKind, kind),
    (Event::TraceRate, rate),
    (Event::TraceSum, sum),
    (Event::TraceFormBeforeRange, form_before_range),
    (Event::TraceRangeThenForm, range_then_form),
    (Event::TraceFormThenRange, form_then_range),
    (Event::TraceRefusedAfterBroken, refused_after_broken),
];

/// The refusals.
const FORM: Verdict = Err(Refusal::TraceNumber);
const END: Verdict = Err(Refusal::TraceEnd);
const RANGE: Verdict = Err(Refusal::TraceRange);

/// The verdict that a cell, counted from 0, breaks a rule.
fn breaks(place: usize, rule: u32) -> Verdict {
    Ok((place as u64 + 1, rule))
}

/// A cell behind the first, with so many behind it.
fn later(draft: &Draft, behind: usize, rng: &mut Rng) -> usize {
    1 + rng.below((draft.trace.cells() - 1 - behind) as u64) as usize
}

/// A later cell at which a forward cell is due, or isn't. The second cell never is one; one
/// that is may have to be sent first.
fn later_that(draft: &mut Draft, due: bool, rng: &mut Rng) -> usize {
    loop {
        let places = 1..draft.due.len();
        let those: Vec<usize> = places.filter(|place| draft.due[*place] == due).collect();
        if !those.is_empty() {
            return rng.pick(&those);
        }
        draft.send(rng);
    }
}

fn no_cell(draft: &mut Draft, _: &mut Rng) -> Verdict {
    draft.trace.numbers.truncate(HEAD);
    Ok((0, 0))
}

fn first_rate(draft: &mut Draft, rng: &mut Rng) -> Verdict {
    draft.trace.cell(0)[2] = rng.pick(&[0, 1, RATE_MAX]);
    Ok((0, 0))
}

fn first_kind(draft: &mut Draft, rng: &mut Rng) -> Verdict {
    draft.trace.cell(0)[1] = rng.pick(&[2, 3]);
    breaks(0, 1)
}

fn gap_less_one(draft: &mut Draft, rng: &mut Rng) -> Verdict {
    let place = later(draft, 0, rng);
    let cell = draft.trace.cell(place);
    cell[0] = abr_reference::gap(cell[2]).expect("a rate above 0") - 1;
    breaks(place, 2)
}

fn rate_zero(draft: &mut Draft, rng: &mut Rng) -> Verdict {
    let place = later(draft, 0, rng);
    draft.trace.cell(place)[2] = 0;
    breaks(place, 2)
}

fn forward_early(draft: &mut Draft, rng: &mut Rng) -> Verdict {
    let place = later_that(draft, false, rng);
    draft.trace.cell(place)[1] = 1;
    breaks(place, 3)
}

fn forward_missing(draft: &mut Draft, rng: &mut Rng) -> Verdict {
    let place = later_that(draft, true, rng);
    draft.trace.cell(place)[1] = rng.pick(&[2, 3]);
    breaks(place, 3)
}

fn gap_before_kind(draft: &mut Draft, rng: &mut Rng) -> Verdict {
    let verdict = forward_early(draft, rng);
    let (cell, _) = verdict?;
    let place = cell as usize - 1;
    draft.trace.cell(place)[0] = 0;
    breaks(place, 2)
}

fn broken_twice(draft: &mut Draft, rng: &mut Rng) -> Verdict {
    let first = later(draft, 1, rng);
    for place in first..draft.trace.cells() {
        draft.trace.cell(place)[2] = 0;
    }
    breaks(first, 2)
}

fn empty(draft: &mut Draft, _: &mut Rng) -> Verdict {
    draft.cut = Some(0);
    END
}

fn half_head(draft: &mut Draft, _: &mut Rng) -> Verdict {
    draft.cut = Some(1);
    END
}

/// Ends inside a record, of cells that may break a rule.
fn cut(draft: &mut Draft, rng: &mut Rng) -> Verdict {
    if rng.once_in(2) {
        let _ = rate_zero(draft, rng);
    }
    let (mut octets, mut ends) = (Vec::new(), Vec::new());
    for (place, number) in draft.trace.numbers.iter().enumerate() {
        if place >= HEAD && (place - HEAD).is_multiple_of(CELL) {
            ends.push(octets.len());
        }
        put(&mut octets, *number);
    }
    let inside: Vec<usize> = (0..octets.len()).filter(|at| !ends.contains(at)).collect();
    draft.cut = Some(rng.pick(&inside));
    END
}

/// Any number, by its place.
fn any_place(draft: &Draft, rng: &mut Rng) -> usize {
    rng.below(draft.trace.numbers.len() as u64) as usize
}

/// A number with a last group of 0.
fn longer(number: u64) -> Vec<u8> {
    let mut octets = Vec::new();
    put(&mut octets, number);
    *octets.last_mut().expect("a number has an octet") |= 0x80;
    octets.push(0);
    octets
}

fn last_group_zero(draft: &mut Draft, rng: &mut Rng) -> Verdict {
    let place = any_place(draft, rng);
    draft
        .other
        .push((place, longer(draft.trace.numbers[place])));
    FORM
}

/// Nine groups that say that more follow, and then not the one bit that is left.
fn tenth_octet(draft: &mut Draft, rng: &mut Rng) -> Verdict {
    let place = any_place(draft, rng);
    let any = rng.pick(&[0x00, 0x02, 0x03, 0x7F, 0x80, 0x81, 0xFF]);
    let mut octets = vec![rng.pick(&[0x80, 0xFF, 0x81]); 9];
    octets.push(any);
    draft.other.push((place, octets));
    FORM
}

/// Numbers of more bits than any range has, and an allowed one in the low ones.
const FAR: [u64; 3] = [1 << 7 | 1, 1 << 32 | 1, 1 << 63 | 1];

fn n(draft: &mut Draft, rng: &mut Rng) -> Verdict {
    draft.trace.numbers[0] = rng.pick(&[0, 9, FAR[0], FAR[1], FAR[2], u64::MAX]);
    RANGE
}

fn trm(draft: &mut Draft, rng: &mut Rng) -> Verdict {
    draft.trace.numbers[1] = rng.pick(&[8, 8, FAR[0], FAR[1], FAR[2], u64::MAX]);
    RANGE
}

fn first_time(draft: &mut Draft, rng: &mut Rng) -> Verdict {
    draft.trace.cell(0)[0] = rng.pick(&[1, 1_000_000, TIME_MAX, u64::MAX]);
    RANGE
}

fn kind(draft: &mut Draft, rng: &mut Rng) -> Verdict {
    let place = rng.below(draft.trace.cells() as u64) as usize;
    draft.trace.cell(place)[1] = rng.pick(&[0, 4, FAR[0], FAR[1], FAR[2], u64::MAX]);
    RANGE
}

fn rate(draft: &mut Draft, rng: &mut Rng) -> Verdict {
    let place = rng.below(draft.trace.cells() as u64) as usize;
    draft.trace.cell(place)[2] = rng.pick(&[RATE_MAX + 1, 1 << 41, FAR[2], u64::MAX]);
    RANGE
}

/// A sum of times over 2^62, by one or by more than 64 bits hold.
fn sum(draft: &mut Draft, rng: &mut Rng) -> Verdict {
    let place = later(draft, 0, rng);
    let before: u64 = (0..place).map(|place| draft.trace.cell(place)[0]).sum();
    let least = TIME_MAX - before + 1;
    let around = (u64::MAX - before).saturating_add(1);
    draft.trace.cell(place)[0] = rng.pick(&[least, least, around, u64::MAX]);
    RANGE
}

/// A number of this place that is in no range, of less than 64 bits.
fn out_of_range(place: usize) -> u64 {
    match place {
        0 | 1 => 9,
        _ => [TIME_MAX + 1, 4, RATE_MAX + 1][(place - HEAD) % CELL],
    }
}

fn form_before_range(draft: &mut Draft, rng: &mut Rng) -> Verdict {
    let place = any_place(draft, rng);
    let zero = place == 0 || (place > HEAD && (place - HEAD) % CELL == 1);
    let number = if zero { 0 } else { out_of_range(place) };
    draft.other.push((place, longer(number)));
    FORM
}

/// Two places, the first one first.
fn two_places(draft: &Draft, rng: &mut Rng) -> [usize; 2] {
    let first = rng.below(draft.trace.numbers.len() as u64 - 1) as usize;
    let behind = (draft.trace.numbers.len() - first - 1) as u64;
    [first, first + 1 + rng.below(behind) as usize]
}

fn range_then_form(draft: &mut Draft, rng: &mut Rng) -> Verdict {
    let [first, second] = two_places(draft, rng);
    draft.trace.numbers[first] = out_of_range(first);
    draft.other.push((second, vec![0x80, 0]));
    RANGE
}

fn form_then_range(draft: &mut Draft, rng: &mut Rng) -> Verdict {
    let [first, second] = two_places(draft, rng);
    draft
        .other
        .push((first, longer(draft.trace.numbers[first])));
    draft.trace.numbers[second] = out_of_range(second);
    FORM
}

/// A cell that breaks a rule, and a refusal in the last one.
fn refused_after_broken(draft: &mut Draft, rng: &mut Rng) -> Verdict {
    let place = later(draft, 1, rng);
    draft.trace.cell(place)[2] = 0;
    let last = draft.trace.numbers.len() - 1;
    match rng.below(3) {
        0 => {
            draft.other.push((last, longer(draft.trace.numbers[last])));
            FORM
        }
        1 => {
            draft.trace.numbers.pop();
            END
        }
        _ => {
            draft.trace.numbers[last - 1] = 4;
            RANGE
        }
    }
}
