//! Tests of the judge.

use super::*;
use crate::engine_tests::{at, engine_with, MS, RATE, THOUSAND as CODE};
use crate::{Engine, Params};

/// 1,000 cells per second: the gap is a millisecond.
const THOUSAND: u64 = RATE;
const FORWARD: u64 = 1;
const BACKWARD: u64 = 2;
const DATA: u64 = 3;

/// A cell: time since the one before, kind, rate.
type Cell = (u64, u64, u64);

/// The octets of a number.
fn octets(number: u64) -> Vec<u8> {
    match number >> 7 {
        0 => vec![number as u8],
        more => [vec![number as u8 | 0x80], octets(more)].concat(),
    }
}

/// The octets of a trace.
fn trace(n: u64, trm: u64, cells: &[Cell]) -> Vec<u8> {
    let cells = cells
        .iter()
        .flat_map(|(time, kind, rate)| [*time, *kind, *rate]);
    [n, trm].into_iter().chain(cells).flat_map(octets).collect()
}

/// The verdict on a trace: cell and rule, zeros if it passes.
fn verdict(trace: &[u8]) -> Result<(u64, u32), Refusal> {
    let breach = judge(trace)?;
    Ok(breach.map_or((0, 0), |breach| (breach.cell, breach.rule)))
}

/// The verdict on some cells, with Nrm 4 and Trm 781,250 ns.
fn judged(cells: &[Cell]) -> Result<(u64, u32), Refusal> {
    verdict(&trace(2, 0, cells))
}

const PASSES: Result<(u64, u32), Refusal> = Ok((0, 0));

/// A first cell as it should be.
const FIRST: Cell = (0, FORWARD, THOUSAND);

#[test]
fn a_trace_without_a_cell_passes() {
    assert_eq!(verdict(&[5, 7]), PASSES);
    for n in 1..=8 {
        for trm in 0..=7 {
            assert_eq!(verdict(&[n, trm]), PASSES);
        }
    }
}

#[test]
fn an_empty_trace_and_one_inside_its_first_record_are_refused_with_24() {
    assert_eq!(verdict(&[]), Err(Refusal::TraceEnd));
    assert_eq!(verdict(&[5]), Err(Refusal::TraceEnd));
    assert_eq!(verdict(&[0x85]), Err(Refusal::TraceEnd));
    assert_eq!(verdict(&[5, 0x87]), Err(Refusal::TraceEnd));
}

#[test]
fn a_trace_may_end_behind_a_record_only() {
    let cells = [FIRST, (MS, DATA, THOUSAND), (MS, BACKWARD, THOUSAND)];
    let ends: Vec<usize> = (0..=3)
        .map(|count| trace(2, 7, &cells[..count]).len())
        .collect();
    let whole = trace(2, 7, &cells);
    for len in 0..=whole.len() {
        let expected = if ends.contains(&len) {
            PASSES
        } else {
            Err(Refusal::TraceEnd)
        };
        assert_eq!(verdict(&whole[..len]), expected, "{len} octets");
    }
}

#[test]
fn n_and_the_trm_number_at_their_ends() {
    assert_eq!(verdict(&[0]), Err(Refusal::TraceRange)); // seen at the first octet
    assert_eq!(verdict(&[9]), Err(Refusal::TraceRange));
    assert_eq!(verdict(&[8, 8]), Err(Refusal::TraceRange));
    assert_eq!(verdict(&[1, 7]), PASSES);
    for far in [64, 128, 256, 1 << 32, 1 << 63, u64::MAX] {
        assert_eq!(verdict(&trace(far | 5, 7, &[])), Err(Refusal::TraceRange));
        assert_eq!(verdict(&trace(5, far | 7, &[])), Err(Refusal::TraceRange));
    }
}

#[test]
fn the_first_cell_is_forward() {
    assert_eq!(judged(&[FIRST]), PASSES);
    assert_eq!(judged(&[(0, BACKWARD, THOUSAND)]), Ok((1, 1)));
    assert_eq!(judged(&[(0, DATA, THOUSAND)]), Ok((1, 1)));
}

#[test]
fn the_rate_of_the_first_cell_is_not_judged() {
    for rate in [0, 1, 512, LARGEST] {
        assert_eq!(judged(&[(0, FORWARD, rate)]), PASSES);
        assert_eq!(judged(&[(0, DATA, rate)]), Ok((1, 1)));
    }
}

#[test]
fn the_first_time_must_be_0() {
    for time in [1, MS, 1 << 62, u64::MAX] {
        assert_eq!(
            judged(&[(time, FORWARD, THOUSAND)]),
            Err(Refusal::TraceRange)
        );
    }
    // Seen at that number, before the kind, which is out of range too, and the end.
    assert_eq!(verdict(&[2, 0, 1]), Err(Refusal::TraceRange));
}

#[test]
fn a_later_cell_is_a_gap_or_more_after_the_one_before() {
    assert_eq!(judged(&[FIRST, (MS, DATA, THOUSAND)]), PASSES);
    assert_eq!(judged(&[FIRST, (MS - 1, DATA, THOUSAND)]), Ok((2, 2)));
    assert_eq!(judged(&[FIRST, (0, DATA, THOUSAND)]), Ok((2, 2)));
    // 1,536 has a gap of 333,333,333.3 nanoseconds, which is rounded up.
    assert_eq!(judged(&[FIRST, (333_333_333, DATA, 1_536)]), Ok((2, 2)));
    assert_eq!(judged(&[FIRST, (333_333_334, DATA, 1_536)]), PASSES);
    assert_eq!(judged(&[FIRST, (1, DATA, LARGEST)]), PASSES);
    assert_eq!(judged(&[FIRST, (0, DATA, LARGEST)]), Ok((2, 2)));
    assert_eq!(judged(&[FIRST, (512_000_000_000, DATA, 1)]), PASSES);
    assert_eq!(judged(&[FIRST, (511_999_999_999, DATA, 1)]), Ok((2, 2)));
}

#[test]
fn the_gap_is_that_of_the_rate_before_this_cell_and_not_of_an_earlier_one() {
    let slow = (0, FORWARD, 1);
    assert_eq!(judged(&[slow, (MS, DATA, THOUSAND)]), PASSES);
    let halved = (MS, DATA, THOUSAND / 2);
    assert_eq!(judged(&[FIRST, halved]), Ok((2, 2)));
    let slower_then = [FIRST, (2 * MS, DATA, THOUSAND / 2), (MS, DATA, THOUSAND)];
    assert_eq!(judged(&slower_then), PASSES);
}

#[test]
fn rate_0_is_in_range_and_breaks_rule_2_from_the_second_cell_on() {
    assert_eq!(judged(&[FIRST, (1 << 62, DATA, 0)]), Ok((2, 2)));
    let due = [
        FIRST,
        (MS, DATA, THOUSAND),
        (MS, DATA, THOUSAND),
        (MS, FORWARD, 0),
    ];
    assert_eq!(judged(&due), Ok((4, 2)));
}

/// With Trm 100 ms and cells a millisecond apart only the count decides.
#[test]
fn a_forward_cell_comes_when_nrm_less_one_have_gone() {
    for n in 1..=8 {
        let nrm = 1 << n;
        let mut cells = vec![FIRST];
        cells.resize(nrm, (0, DATA, LARGEST));
        cells[1..].iter_mut().for_each(|cell| cell.0 = 1);
        let with_next = |kind| {
            let next = [&cells[..], &[(1, kind, LARGEST)]].concat();
            verdict(&trace(n as u64, 7, &next))
        };
        assert_eq!(with_next(FORWARD), PASSES);
        assert_eq!(with_next(DATA), Ok((nrm as u64 + 1, 3)));
        assert_eq!(with_next(BACKWARD), Ok((nrm as u64 + 1, 3)));
        cells[nrm - 1].1 = FORWARD; // one cell too early
        assert_eq!(verdict(&trace(n as u64, 7, &cells)), Ok((nrm as u64, 3)));
    }
}

/// With Nrm 256 only the time decides, from k = 2 on.
#[test]
fn a_forward_cell_comes_when_trm_has_passed_and_two_have_gone() {
    for trm in 0..=7 {
        let time = TRM_TIMES[trm as usize];
        let at = |last: u64, kind| {
            let cells = [
                FIRST,
                (1, DATA, LARGEST),
                (1, BACKWARD, LARGEST),
                (last - 2, kind, LARGEST),
            ];
            verdict(&trace(8, trm, &cells))
        };
        assert_eq!(at(time, FORWARD), PASSES);
        assert_eq!(at(time, DATA), Ok((4, 3)));
        assert_eq!(at(time - 1, DATA), PASSES);
        assert_eq!(at(time - 1, FORWARD), Ok((4, 3)));
        let alone = |kind| {
            verdict(&trace(
                8,
                trm,
                &[FIRST, (1, DATA, LARGEST), (time, kind, LARGEST)],
            ))
        };
        assert_eq!(alone(FORWARD), Ok((3, 3))); // k is 1
        assert_eq!(alone(DATA), PASSES);
        let first = |kind| verdict(&trace(8, trm, &[FIRST, (time, kind, LARGEST)]));
        assert_eq!(first(FORWARD), Ok((2, 3))); // k is 0
        assert_eq!(first(BACKWARD), PASSES);
    }
}

/// k and the time of the last forward cell begin anew with each forward cell.
#[test]
fn each_forward_cell_begins_anew() {
    let step = [
        (1, DATA, LARGEST),
        (1, DATA, LARGEST),
        (1, DATA, LARGEST),
        (1, FORWARD, LARGEST),
    ];
    let cells = [&[FIRST][..], &step.repeat(5)].concat();
    assert_eq!(verdict(&trace(2, 7, &cells)), PASSES);
    let ended = |time| {
        let last = [
            (1, DATA, LARGEST),
            (1, DATA, LARGEST),
            (time, DATA, LARGEST),
        ];
        verdict(&trace(2, 7, &[&cells[..], &last].concat()))
    };
    assert_eq!(ended(99_999_997), PASSES); // a nanosecond before Trm
    assert_eq!(ended(99_999_998), Ok((24, 3)));
}

#[test]
fn the_answer_is_the_first_cell_and_its_lowest_rule() {
    let early_forward = (MS - 1, FORWARD, THOUSAND); // breaks 2 and 3
    assert_eq!(judged(&[FIRST, early_forward]), Ok((2, 2)));
    assert_eq!(
        judged(&[FIRST, (MS, FORWARD, THOUSAND), early_forward]),
        Ok((2, 3))
    );
    assert_eq!(
        judged(&[(0, DATA, 0), early_forward, early_forward]),
        Ok((1, 1))
    );
}

#[test]
fn kinds_and_rates_at_their_ends() {
    for kind in [0, 4, 5, 64, 129, 1 << 32 | 1, u64::MAX] {
        assert_eq!(judged(&[(0, kind, THOUSAND)]), Err(Refusal::TraceRange));
        assert_eq!(
            judged(&[FIRST, (MS, kind, THOUSAND)]),
            Err(Refusal::TraceRange)
        );
    }
    assert_eq!(judged(&[(0, FORWARD, LARGEST)]), PASSES);
    for rate in [LARGEST + 1, 1 << 41, u64::MAX] {
        assert_eq!(judged(&[(0, FORWARD, rate)]), Err(Refusal::TraceRange));
        assert_eq!(judged(&[FIRST, (MS, DATA, rate)]), Err(Refusal::TraceRange));
    }
}

#[test]
fn the_sum_of_the_times_is_at_most_2_to_62() {
    let half = TIME_MAX / 2;
    let at = |times: [u64; 2]| judged(&[FIRST, (times[0], DATA, 1), (times[1], DATA, 1)]);
    assert_eq!(at([half, half]), PASSES);
    assert_eq!(at([half, half + 1]), Err(Refusal::TraceRange));
    assert_eq!(at([TIME_MAX + 1, 0]), Err(Refusal::TraceRange));
    assert_eq!(at([TIME_MAX, 1]), Err(Refusal::TraceRange));
    assert_eq!(at([half, u64::MAX]), Err(Refusal::TraceRange)); // nor is it below because 64 bits are too few
    assert_eq!(at([half, u64::MAX - half + 1]), Err(Refusal::TraceRange));
    assert_eq!(judged(&[FIRST, (TIME_MAX, DATA, 1)]), PASSES);
}

/// Each number of a trace, made longer by a group of 0 or by ten octets.
#[test]
fn a_number_out_of_form_is_refused_with_23_wherever_it_is() {
    let numbers: [u64; 8] = [2, 0, 0, FORWARD, THOUSAND, MS, DATA, THOUSAND];
    for place in 0..numbers.len() {
        let with = |changed: &[u8]| {
            let octets = |(i, number): (usize, &u64)| match i == place {
                true => changed.to_vec(),
                false => octets(*number),
            };
            verdict(
                &numbers
                    .iter()
                    .enumerate()
                    .flat_map(octets)
                    .collect::<Vec<u8>>(),
            )
        };
        let right = octets(numbers[place]);
        assert_eq!(with(&right), PASSES);
        let mut longer = right.clone();
        *longer.last_mut().unwrap() |= 0x80;
        longer.push(0);
        assert_eq!(with(&longer), Err(Refusal::TraceNumber));
        for tenth in [0, 2, 0x7F, 0x80, 0x81, 0xFF] {
            let long = [&[0xFF; 9][..], &[tenth]].concat();
            assert_eq!(with(&long), Err(Refusal::TraceNumber));
        }
        let greatest = [&[0xFF; 9][..], &[1]].concat();
        assert_eq!(with(&greatest), Err(Refusal::TraceRange)); // in form, and out of every range
    }
}

#[test]
fn the_earliest_octet_decides() {
    let long_zero = [0x80, 0]; // 23, and out of range for n and a kind: 23 before 25
    assert_eq!(verdict(&long_zero), Err(Refusal::TraceNumber));
    assert_eq!(
        verdict(&[&[2, 0, 0][..], &long_zero].concat()),
        Err(Refusal::TraceNumber)
    );
    assert_eq!(
        verdict(&[&[9][..], &long_zero].concat()),
        Err(Refusal::TraceRange)
    ); // n, then the Trm number
    assert_eq!(
        verdict(&[&long_zero[..], &[8]].concat()),
        Err(Refusal::TraceNumber)
    );
    assert_eq!(verdict(&[2, 8, 0x80]), Err(Refusal::TraceRange)); // before the end
    assert_eq!(verdict(&[2, 0, 0, 1, 0x80, 0]), Err(Refusal::TraceNumber));
    assert_eq!(verdict(&[2, 0, 0, 4, 0x80, 0]), Err(Refusal::TraceRange));
    assert_eq!(verdict(&[2, 0, 1, 0x81, 0]), Err(Refusal::TraceRange)); // the first time, then a kind
    assert_eq!(verdict(&[2, 0, 0x81, 0, 9]), Err(Refusal::TraceNumber));
}

#[test]
fn a_refusal_goes_before_any_broken_rule() {
    let broken = trace(2, 0, &[(0, DATA, 0), (0, DATA, 0)]);
    assert_eq!(verdict(&broken), Ok((1, 1)));
    for (more, refusal) in [
        (&[0x80, 0][..], Refusal::TraceNumber),
        (&[0], Refusal::TraceEnd),
        (&[0, 4], Refusal::TraceRange), // a time of 0 and a kind out of range
        (&[0, 1], Refusal::TraceEnd),
    ] {
        let whole = [&broken[..], more].concat();
        assert_eq!(verdict(&whole), Err(refusal));
    }
}

/// Runs slots a quarter of a millisecond apart, with data in every twentieth millisecond, and
/// gives the trace of the one connection.
fn recorded(engine: &mut Engine, params: &Params, slots: u64) -> Vec<u8> {
    let (mut cells, mut last) = (Vec::new(), 0);
    for time in (0..slots).map(|slot| slot * MS / 4) {
        if (time / MS).is_multiple_of(20) {
            engine.offer(at(32), 1).unwrap();
        }
        let rate = engine.acr(at(32)).unwrap();
        let Some(sent) = engine.slot(time, &mut [0; 53]).unwrap() else {
            continue;
        };
        let kind = match sent.kind {
            Kind::Forward => FORWARD,
            Kind::Turned => BACKWARD,
            Kind::Data => DATA,
        };
        let passed = if cells.is_empty() { 0 } else { time - last };
        cells.push((passed, kind, rate));
        last = time;
    }
    assert!(cells.len() as u64 > slots / 100);
    trace(params.n.into(), params.trm.into(), &cells)
}

#[test]
fn the_cells_of_an_engine_pass() {
    for n in 1..=8 {
        for trm in [0, 3, 7] {
            let house = Params::house(CODE, 0x4000, CODE);
            let params = Params { n, trm, ..house };
            let trace = recorded(&mut engine_with(&params), &params, 4_000);
            assert_eq!(verdict(&trace), PASSES, "n {n}, Trm number {trm}");
        }
    }
}
