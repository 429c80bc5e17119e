//! What the engine sent, judged by the library alone (document 02, L11). Neither the reference
//! nor a drawn trace is asked: a judge that is stricter than the engine by one nanosecond or one
//! cell breaks some trace here, since they have cells on every edge of the rules.

use abr::ffi::abr_verdict;
use abr_differential::call::{Answer, SORTS};
use abr_differential::coverage::{Coverage, Event};
use abr_differential::profile::{Profile, PROFILES};
use abr_differential::{edges, library, lists, parallel};

/// Cells on each edge.
const LEAST: u64 = 200;

const EDGES: [Event; 6] = [
    Event::TraceGapExact,
    Event::TraceNrm,
    Event::TraceNrmLessOne,
    Event::TraceTrmExact,
    Event::TraceTrmLessOne,
    Event::TraceTrmTooFew,
];

/// Runs some lists of a profile, in which no drawn trace is judged. The traces of their
/// connections must pass; the edges that these are on.
fn recorded(mut profile: Profile) -> Result<Coverage, String> {
    let judging = SORTS.iter().position(|sort| *sort == "judge");
    profile.weights[judging.expect("a sort of call")] = 0;
    let (mut reached, mut others) = (Coverage::default(), Coverage::default());
    for seed in 0..profile.share(100) {
        let seed = lists::seed() + 8_000_000 + seed;
        for (at, mut trace) in lists::traces(seed, profile, &mut others)? {
            let verdict = library::judge(&trace.octets())?;
            if verdict != Ok(Answer::Verdict(abr_verdict::default())) {
                return Err(format!("list {seed}, {at:?}: {verdict:?}, {trace:?}"));
            }
            let edges = edges::of_trace(&mut trace).into_iter();
            edges.for_each(|event| reached.reach(event, true));
        }
    }
    Ok(reached)
}

#[test]
fn recorded_traces_pass_and_are_on_every_edge() {
    let total = parallel::total(PROFILES.to_vec(), recorded);
    for event in EDGES {
        let count = total.reached(event);
        println!("{event:?}: {count}");
        assert!(count >= LEAST, "{event:?}: {count}");
    }
}
