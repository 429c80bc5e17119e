//! The judge of traces (document 02, L11): drawn traces with the verdict that they must get,
//! traces damaged in every octet and cut at every length, random octets, and what the engine
//! itself sent, with a cell moved.

use abr::ffi::abr_verdict;
use abr::RATE_MAX;
use abr_differential::call::{Answer, Outcome};
use abr_differential::coverage::Coverage;
use abr_differential::drawn::{Drawn, Verdict};
use abr_differential::profile::{Profile, PROFILES};
use abr_differential::rng::Rng;
use abr_differential::trace::{Trace, CELL, HEAD};
use abr_differential::{library, lists, parallel};
use abr_reference::Refusal;

/// The verdict of an outcome, by its numbers.
fn numbers(outcome: Outcome) -> Verdict {
    match outcome {
        Ok(Answer::Verdict(abr_verdict { rule, cell, .. })) => Ok((cell, rule)),
        Ok(other) => panic!("{other:?} is no verdict"),
        Err(refusal) => Err(refusal),
    }
}

/// The verdict of the library and of the reference, which must agree.
fn judged(trace: &[u8]) -> Verdict {
    let ours = numbers(library::judge(trace).unwrap_or_else(|why| panic!("{why}: {trace:x?}")));
    let breach = abr_reference::judge::judge(trace);
    let theirs = breach.map(|breach| breach.map_or((0, 0), |breach| (breach.cell, breach.rule)));
    assert_eq!(ours, theirs, "{trace:x?}");
    ours
}

/// How often each verdict was reached: passes, rules 1 to 3, refusals 23 to 25.
#[derive(Debug, Default)]
struct Tally {
    counts: [u64; 7],
}

impl Tally {
    fn count(&mut self, verdict: Verdict) {
        let place = match verdict {
            Ok((_, rule)) => rule,
            Err(refusal) => refusal.number() - 19,
        };
        self.counts[place as usize] += 1;
    }

    /// Each was reached so often, but rule 3 only if it is among them: random octets are
    /// seldom a gap apart.
    fn reached(&self, least: u64, rule_3: bool) {
        println!("{self:?}");
        let mut counts = self.counts.iter().enumerate();
        let enough = |(place, count): (usize, &u64)| *count >= least || (place == 3 && !rule_3);
        assert!(counts.all(enough), "{self:?}");
    }
}

#[test]
fn drawn_traces_get_the_verdict_that_they_must_get() {
    const JOB: u64 = 10_000;
    let first = lists::seed();
    let work = |job: u64| {
        for seed in first + job * JOB..first + (job + 1) * JOB {
            let Drawn {
                octets, verdict, ..
            } = Drawn::new(seed);
            if judged(&octets) != verdict {
                return Err(format!("trace {seed}: {verdict:?} expected of {octets:x?}"));
            }
        }
        Ok(())
    };
    parallel::run((0..100).collect(), work).unwrap_or_else(|why| panic!("{why}"));
}

/// Every octet of some traces replaced by every other one.
#[test]
fn every_octet_damaged() {
    let mut tally = Tally::default();
    for seed in 0..40 {
        let Drawn { mut octets, .. } = Drawn::new(lists::seed() + seed);
        octets.truncate(200);
        for at in 0..octets.len() {
            let kept = octets[at];
            for other in 0..=255 {
                octets[at] = other;
                tally.count(judged(&octets));
            }
            octets[at] = kept;
        }
    }
    tally.reached(20, true);
}

/// A trace that passes, cut at every length: it passes where a record ends.
#[test]
fn every_length() {
    for seed in 0..2_000 {
        let drawn = Drawn::new(lists::seed() + seed);
        if drawn.verdict != Ok((0, 0)) {
            continue;
        }
        let mut numbers = 0;
        for len in 0..drawn.octets.len() {
            let whole = len > 0 && drawn.octets[len - 1] < 0x80;
            numbers += usize::from(whole);
            let record = whole && numbers >= HEAD && (numbers - HEAD).is_multiple_of(CELL);
            let expected = if record {
                Ok((0, 0))
            } else {
                Err(Refusal::TraceEnd)
            };
            assert_eq!(judged(&drawn.octets[..len]), expected);
        }
    }
}

/// Random octets behind a right beginning; few of them say that more follow.
#[test]
fn random_octets() {
    let mut rng = Rng::new(lists::seed() + 11);
    let mut tally = Tally::default();
    for _ in 0..1_000_000 {
        let mut octets = [0; 24];
        rng.fill(&mut octets);
        let mask = rng.pick(&[0x03, 0x03, 0x83, 0x0F, 0xFF]);
        octets.iter_mut().for_each(|octet| *octet &= mask);
        let head = [rng.within(1, 8) as u8, rng.within(0, 7) as u8, 0];
        let right = rng.below(4) as usize;
        octets[..right].copy_from_slice(&head[..right]);
        let len = rng.below(octets.len() as u64 + 1) as usize;
        tally.count(judged(&octets[..len]));
    }
    tally.reached(200, false);
}

/// Numbers of every length, at every place of a trace, with every tenth octet.
#[test]
fn long_numbers() {
    let right = [2, 7, 0, 1, 1, 2, 3, RATE_MAX];
    for place in 0..right.len() {
        for groups in 1..=11 {
            for last in 0..=255 {
                let mut octets = Trace::from(&right[..place]).octets();
                octets.extend([0xFF; 11].iter().take(groups - 1));
                octets.push(last);
                octets.extend(Trace::from(&right[place + 1..]).octets());
                let verdict = judged(&octets);
                let form = groups > 10 || (groups == 10 && last != 1) || (groups > 1 && last == 0);
                if form {
                    assert_eq!(verdict, Err(Refusal::TraceNumber), "{octets:x?}");
                }
            }
        }
    }
}

/// The traces of some lists of a profile.
fn recorded(profile: Profile, count: u64) -> Vec<Trace> {
    let mut coverage = Coverage::default();
    let mut all = Vec::new();
    for seed in 0..count {
        let seed = lists::seed() + 7_000_000 + seed;
        let traces = lists::traces(seed, profile, &mut coverage);
        let traces = traces.unwrap_or_else(|why| panic!("{why}"));
        all.extend(traces.into_iter().map(|(_, trace)| trace));
    }
    all
}

/// What the engine sent passes; with the cells that came exactly a gap after the one before
/// a nanosecond earlier, with another kind or with a rate of 0 it does not.
#[test]
fn the_engine_passes_and_a_moved_cell_does_not() {
    let work = |profile: Profile| {
        let (mut cells, mut early) = (0, 0);
        for mut trace in recorded(profile, profile.share(100)) {
            assert_eq!(judged(&trace.octets()), Ok((0, 0)), "{trace:?}");
            for place in 0..trace.cells().min(64) {
                cells += 1;
                early += moved(&mut trace, place);
            }
        }
        Ok::<_, ()>((cells, early))
    };
    let counts = parallel::run(PROFILES.to_vec(), work).expect("no error");
    let (cells, early): (Vec<u64>, Vec<u64>) = counts.into_iter().unzip();
    let (cells, early) = (cells.iter().sum::<u64>(), early.iter().sum::<u64>());
    println!("{cells} cells moved, {early} of them a nanosecond");
    assert!(cells > 20_000 && early > 5_000, "{cells} cells, {early}");
}

/// Moves a cell of a trace that passes, in one way after the other; 1 if it came exactly a
/// gap after the one before.
fn moved(trace: &mut Trace, place: usize) -> u64 {
    let right = [0, 1, 2].map(|number| trace.cell(place)[number]);
    let number = place as u64 + 1;
    let mut breaks = |changed: [u64; 3], rule: u32| {
        trace.cell(place).copy_from_slice(&changed);
        assert_eq!(judged(&trace.octets()), Ok((number, rule)), "{trace:?}");
        trace.cell(place).copy_from_slice(&right);
    };
    let [time, kind, rate] = right;
    let other = if kind == 1 { 3 } else { 1 };
    breaks([time, other, rate], if place == 0 { 1 } else { 3 });
    if place == 0 {
        return 0;
    }
    breaks([time, kind, 0], 2);
    let exact = abr_reference::gap(rate) == Some(time);
    if exact {
        breaks([time - 1, kind, rate], 2);
    }
    exact.into()
}

/// Millions of cells: the number of the last one, and the refusal behind it.
#[test]
fn a_long_trace() {
    const CELLS: u64 = 3_000_000;
    let mut trace = Trace::new(1, 7);
    for cell in 0..CELLS {
        let kind = if cell % 2 == 0 { 1 } else { 3 };
        trace.push(cell.min(1), kind, RATE_MAX);
    }
    let mut octets = trace.octets();
    assert_eq!(judged(&octets), Ok((0, 0)));
    assert_eq!(judged(&octets[..octets.len() - 1]), Err(Refusal::TraceEnd));
    trace.cell(CELLS as usize - 1)[0] = 0;
    assert_eq!(judged(&trace.octets()), Ok((CELLS, 2)));
    octets.push(0x80);
    octets.push(0);
    assert_eq!(judged(&octets), Err(Refusal::TraceNumber));
}
