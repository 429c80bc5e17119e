//! Whole lists, run on both sides.

use abr::ffi::abr_verdict;
use abr_reference::Address;

use crate::accounts::Accounts;
use crate::both::Both;
use crate::call::{Answer, Call, Outcome};
use crate::coverage::Coverage;
use crate::generate::Generator;
use crate::library::{self, Difference};
use crate::observation::Observation;
use crate::profile::{Profile, PROFILES};
use crate::recorder::Recorder;
use crate::rng::Rng;
use crate::trace::Trace;

/// The calls of one list, beside the opens that fill its table.
const LIST: u64 = 2_000;

/// The calls of a list of this profile.
pub fn length(profile: Profile) -> u64 {
    profile.first() + LIST
}

/// A slot of a line at 353,208 cells per second, in nanoseconds.
const SLOT: u64 = 2_831;

/// After so many calls the allowed rates of all pairs are compared, and after so many all else.
const ALL_RATES: u64 = 16;
const ALL_ELSE: u64 = 64;

/// The seed that a run starts from: ABR_SEED, or a fixed one.
pub fn seed() -> u64 {
    match std::env::var("ABR_SEED") {
        Ok(text) => text.parse().expect("ABR_SEED is a number"),
        Err(_) => 20_260_101,
    }
}

/// The profile of a seed's list, in a run that takes all profiles in turn.
pub fn profile_of(seed: u64) -> Profile {
    PROFILES[(seed % PROFILES.len() as u64) as usize]
}

/// A list on both sides, as far as it has run.
#[derive(Default)]
pub struct List {
    /// Both sides.
    pub both: Both,
    /// What is known of its connections.
    pub seen: Observation,
    /// The cells that they sent.
    recorder: Recorder,
    /// The data cells of each name.
    accounts: Accounts,
}

impl List {
    /// Makes a call on both sides and adds it to what is known.
    pub fn step(&mut self, call: &Call, coverage: &mut Coverage) -> Result<Outcome, Difference> {
        let outcome = self.both.call(call)?;
        let named = concerned(call, &outcome).unwrap_or_default();
        let at = self.seen.connection_of(named);
        self.accounts.add(call, &outcome)?;
        self.same_status(named)?;
        if at != named {
            self.same_status(at)?;
        }
        let allowed = self.both.allowed(at);
        let acr = allowed.map_or(0, |allowed| allowed.acr);
        self.recorder.add(call, &outcome, at);
        self.seen.add(call, &outcome, acr, coverage);
        coverage.count_next(self.both.next, self.seen.last);
        if let Some(allowed) = allowed {
            self.seen.same_change(at, allowed)?;
        }
        Ok(outcome)
    }

    /// Compares all that is read of a pair, and the cells that wait on it with its account.
    fn same_status(&mut self, at: Address) -> Result<(), Difference> {
        let waiting = self.both.same_status(at)?;
        self.accounts.same(at, waiting, "by its status")
    }

    /// Compares the allowed rates, or all else, of all open connections, of members and of
    /// addresses that were closed.
    fn same_everywhere(&mut self, rates: bool) -> Result<(), Difference> {
        let seen = &self.seen;
        let pairs = seen.connections.keys().chain(seen.members.keys());
        let mut addresses = pairs.chain(&seen.closed);
        addresses.try_for_each(|at| {
            if rates {
                return self.both.same_acr(*at);
            }
            let waiting = self.both.same_status(*at)?;
            self.accounts.same(*at, waiting, "by its status")
        })
    }

    /// A call as it is made in a list whose slots are passed what the library gives: the drawn
    /// time is the clock, some slots later, and the lag none, a few slots or without end.
    fn paced(&mut self, call: Call) -> Call {
        let Call::Slot { time, len } = call else {
            return call;
        };
        let rng = &mut self.both.rng;
        let (late, slots) = (rng.below(6 * SLOT), SLOT * rng.below(8));
        let now = time.saturating_add(rng.pick(&[0, 0, late]));
        let lag = rng.pick(&[0, slots, slots, u64::MAX]);
        let time = self.both.slot_time(now, lag);
        Call::Slot { time, len }
    }

    /// Closes what is still open: then no cell waits, and every account comes out even.
    pub fn finish(&mut self) -> Result<(), Difference> {
        for at in self.seen.connections.keys() {
            let call = Call::Close { at: *at };
            let outcome = self.both.call(&call)?;
            self.accounts.add(&call, &outcome)?;
        }
        Ok(())
    }
}

/// Runs the list of a seed, and says where the two sides differ. The trace of every
/// connection must pass.
pub fn run(seed: u64, profile: Profile, coverage: &mut Coverage) -> Result<(), Difference> {
    for (at, trace) in traces(seed, profile, coverage)? {
        coverage.recorded += trace.cells() as u64;
        let verdict = library::judge(&trace.octets())?;
        if verdict != Ok(Answer::Verdict(abr_verdict::default())) {
            let name = profile.name;
            return Err(format!(
                "list {seed} ({name}), {at:?}: {verdict:?}, {trace:?}"
            ));
        }
    }
    Ok(())
}

/// Runs the list of a seed, and gives the traces of its connections.
pub fn traces(
    seed: u64,
    profile: Profile,
    coverage: &mut Coverage,
) -> Result<Vec<(Address, Trace)>, Difference> {
    let mut generator = Generator::new(seed, profile);
    let mut list = List::default();
    list.both.rng = Rng::new(!seed);
    let calls = length(profile);
    for index in 0..calls {
        let drawn = generator.next(&list.seen);
        let call = match profile.paced {
            true => list.paced(drawn),
            false => drawn,
        };
        let report = |difference: Difference| {
            let name = profile.name;
            format!("list {seed} ({name}), call {index}, {call:x?}: {difference}")
        };
        let outcome = list.step(&call, coverage).map_err(report)?;
        if let (Some(octet), Err(_)) = (generator.damaged, outcome) {
            coverage.damaged[octet] += 1;
        }
        for (every, rates) in [(ALL_RATES, true), (ALL_ELSE, false)] {
            if index % every == 0 || index == calls - 1 {
                list.same_everywhere(rates).map_err(report)?;
            }
        }
    }
    coverage.rates += list.both.rates;
    coverage.add_slot_times(&list.both.slot_times, list.both.tried);
    coverage.readings.add(&list.both.readings);
    let report = |difference| format!("list {seed}, its end: {difference}");
    list.both.same_lists().map_err(report)?;
    list.finish().map_err(report)?;
    Ok(list.recorder.traces())
}

/// The connection or the member that a call concerns.
pub fn concerned(call: &Call, outcome: &Outcome) -> Option<Address> {
    match outcome {
        Ok(Answer::Sent(sent)) => Some(Address::new(sent.vpi, sent.vci)),
        _ => call.address(),
    }
}
