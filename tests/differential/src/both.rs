//! One call made on both sides; answer, octets, allowed rate with its last change, next
//! ready instant, a slot's time to be passed, leaves, all that can be read and table compared.

use std::fmt::Debug;

use abr::{CONNECTIONS_MAX, TIME_MAX};
use abr_reference::{Address, Allowed, Engine, Refusal};

use crate::call::{Answer, Call, Outcome};
use crate::expected;
use crate::leaves::Leaves;
use crate::library::{Difference, Library};
use crate::octets::Buffer;
use crate::readings::{Drawn, Readings};
use crate::rng::Rng;
use crate::slot_times::{Question, CASES};

/// Of the calls that must leave the table as it is, one in so many is compared in
/// every word. All of them would take longer than the calls: a table is long.
const LEAVES_TABLE: u64 = 16;

/// After one call in so many two slots are tried on copies of the library's table: at some
/// clock, and at the time that is to be passed for it.
const TRIES_SLOTS: u64 = 256;

/// With so many connections open what the reference looks at every connection for is compared
/// after one call in so many, since that takes longer than the call: the next ready instant, the
/// time to be passed to a slot, a member and the link.
const MANY: usize = 100;
const LOOKS_AT_ALL: u64 = 8;

/// In a sparing list what is drawn is read, and all connections are looked at, after one call in
/// so many of those after which it is done elsewhere.
const SPARING: u64 = 2;

/// Both engines.
#[derive(Default)]
pub struct Both {
    library: Library,
    /// A copy of the library's table, made before a call that must leave it.
    before: Library,
    /// The calls so far that must leave it.
    leaving: u64,
    engine: Engine,
    /// What fills the next buffers.
    fill: u8,
    /// The calls so far.
    calls: u64,
    /// The library's next ready instant after the last call; none if no connection is ever
    /// ready.
    pub next: Option<u64>,
    /// The last accepted time.
    last: u64,
    /// Draws the clocks and lags, and what is read.
    pub rng: Rng,
    /// The times to be passed to a slot that were compared, by what decides them.
    pub slot_times: [u64; CASES.len()],
    /// Those that were tried on copies of the table.
    pub tried: u64,
    /// The allowed rates compared.
    pub rates: u64,
    /// The leaves by calls and answers.
    leaves: Leaves,
    /// What was read.
    pub readings: Readings,
    /// Whether the list is sparing: one with so many calls on a full table that its time counts.
    pub sparing: bool,
    /// The members at the last reading of the link, and the last one that was read.
    members: u32,
    member: Address,
}

impl Both {
    /// Makes the call on both sides. A refusal, and a call that does not write
    /// the table, must leave every word of it. The reference goes first and says
    /// which calls these are.
    pub fn call(&mut self, call: &Call) -> Result<Outcome, Difference> {
        self.fill = self.fill.wrapping_add(37);
        let (mut ours, mut theirs) = (Buffer::new(self.fill), Buffer::new(self.fill));
        let expected = expected::call(&mut self.engine, call, &mut theirs);
        let compared = self.must_leave(call, &expected);
        if compared {
            self.before.copy(&self.library);
        }
        let outcome = self.library.call(call, &mut ours)?;
        if outcome != expected {
            return Err(format!("library {outcome:x?}, reference {expected:x?}"));
        }
        if ours != theirs {
            return Err(format!(
                "library wrote {ours:02x?}, reference {theirs:02x?}"
            ));
        }
        self.leaves.add(call, &outcome)?;
        self.calls += 1;
        self.same_next(call, &outcome)?;
        self.same_readings()?;
        self.last = call.time().filter(|_| outcome.is_ok()).unwrap_or(self.last);
        let (question, passed) = self.same_slot_time()?;
        if compared && self.library != self.before {
            return Err(format!("{outcome:x?}, but the table changed"));
        }
        self.same_idle(&question, passed)?;
        if let Some(at) = call.address() {
            self.same_acr(at)?;
            self.same_path(at)?;
        }
        if let Ok(Answer::Sent(sent)) = outcome {
            let at = Address::new(sent.vpi, sent.vci);
            self.same_acr(at)?;
            self.same_path(at)?;
        }
        Ok(outcome)
    }

    /// Whether a call must leave the table that it is given, and is one of those
    /// that are compared.
    fn must_leave(&mut self, call: &Call, expected: &Outcome) -> bool {
        if !call.has_table() || (call.may_change_table() && expected.is_ok()) {
            return false;
        }
        self.leaving += 1;
        self.leaving % LEAVES_TABLE == 1
    }

    /// Compares the next ready instants after a call. An accepted slot was idle exactly if
    /// its time was before the one that the library gave before it.
    fn same_next(&mut self, call: &Call, outcome: &Outcome) -> Result<(), Difference> {
        let before = std::mem::replace(&mut self.next, self.library.next());
        if self.looks_at_all() {
            same("next", &self.next, &self.engine.next_ready())?;
        }
        match (call, outcome) {
            (Call::Slot { time, .. }, Ok(Answer::Sent(sent)))
                if (sent.kind == 0) != before.is_none_or(|next| *time < next) =>
            {
                Err(format!("next was {before:?}, and the slot {sent:?}"))
            }
            _ => Ok(()),
        }
    }

    /// Compares the time to be passed to a slot for some clock and lag, and checks what must
    /// be so of it.
    fn same_slot_time(&mut self) -> Result<(Question, u64), Difference> {
        let question = Question::draw(&mut self.rng, self.last, self.next);
        let passed = self.library.slot_time(question.now, question.lag);
        question.check(passed)?;
        self.slot_times[question.case()] += 1;
        if self.looks_at_all() {
            let expected = self.engine.slot_time(question.now, question.lag);
            same(question, &passed, &expected)?;
        }
        Ok((question, passed))
    }

    /// A slot at the time passed is accepted, and idle exactly if one at the clock is: tried
    /// sometimes, on copies of the library's table.
    fn same_idle(&mut self, question: &Question, passed: u64) -> Result<(), Difference> {
        let accepted = self.last <= question.now && question.now <= TIME_MAX;
        if !accepted || !self.calls.is_multiple_of(TRIES_SLOTS) {
            return Ok(());
        }
        let [at_clock, at_passed] = [question.now, passed].map(|time| {
            self.before.copy(&self.library);
            self.before.is_idle(time)
        });
        if at_passed? != at_clock? {
            return Err(format!("{question:?}: {passed} and the clock differ"));
        }
        self.tried += 1;
        Ok(())
    }

    /// The time to be passed to a slot at `now` with this tolerance, as the library has it.
    pub fn slot_time(&self, now: u64, lag: u64) -> u64 {
        self.library.slot_time(now, lag)
    }

    /// Compares the allowed rate and its last change of one address, open or not.
    pub fn same_acr(&mut self, at: Address) -> Result<(), Difference> {
        self.rates += 1;
        let ours = self.library.acr(at)?;
        let theirs = self.engine.allowed(at).map(Answer::Allowed);
        same(("ACR", at), &ours, &theirs)
    }

    /// The same of the path that an address is on, if it is open.
    fn same_path(&mut self, at: Address) -> Result<(), Difference> {
        let path = Address::of_path(at.vpi);
        if path == at || self.engine.allowed(path).is_err() {
            return Ok(());
        }
        self.same_acr(path)
    }

    /// Compares everything of a pair, open or not, and its leaf with that of its open. Gives the
    /// data cells that wait on it, none if it is unknown.
    pub fn same_status(&mut self, at: Address) -> Result<u64, Difference> {
        let ours = self.library.status(at)?;
        same(("status", at), &ours, &expected::status(&self.engine, at))?;
        self.readings.status(at, &ours);
        let Ok(read) = ours else {
            return Ok(0);
        };
        self.leaves.same(at, read.leaf)?;
        Ok(read.waiting.into())
    }

    /// Compares some pair, some leaf, some member and the link.
    fn same_readings(&mut self) -> Result<(), Difference> {
        if self.sparing && !self.rng.once_in(SPARING) {
            return Ok(());
        }
        let Drawn { pair, leaf, number } =
            Drawn::new(&mut self.rng, &self.leaves, self.members, self.member);
        self.same_status(pair)?;
        self.same_leaf(leaf)?;
        if self.looks_at_all() {
            self.same_member(number)?;
            self.same_link()?;
        }
        Ok(())
    }

    /// Lists all connections by their leaves and all members by their numbers.
    pub fn same_lists(&mut self) -> Result<(), Difference> {
        self.same_link()?;
        (0..=CONNECTIONS_MAX as u32).try_for_each(|leaf| self.same_leaf(leaf))?;
        (0..=self.members).try_for_each(|number| self.same_member(number))
    }

    /// Compares what is in a leaf: that which its open took it for, or nothing. The reference
    /// looks for it only if few are open.
    fn same_leaf(&mut self, leaf: u32) -> Result<(), Difference> {
        let ours = self.library.at(leaf)?;
        let taken = self.leaves.connection(leaf).ok_or(Refusal::NotOpen);
        let by_open = taken.and_then(|at| expected::status(&self.engine, at));
        same(("leaf", leaf), &ours, &by_open)?;
        if self.engine.connections() < MANY {
            same(("leaf", leaf), &ours, &expected::at(&self.engine, leaf))?;
        }
        self.readings.leaf(leaf, &ours);
        Ok(())
    }

    /// Compares the member with a number, if there are so many.
    fn same_member(&mut self, number: u32) -> Result<(), Difference> {
        let ours = self.library.member_at(number)?;
        let theirs = expected::member_at(&self.engine, number);
        same(("member", number), &ours, &theirs)?;
        self.readings.member(&ours);
        if let Ok(read) = ours {
            self.member = Address::new(read.vpi, read.vci);
        }
        Ok(())
    }

    /// Compares what belongs to no single connection.
    fn same_link(&mut self) -> Result<(), Difference> {
        let ours = self.library.link();
        self.members = ours.members;
        same("link", &ours, &expected::link(&self.engine))
    }

    /// Whether after this call what the reference looks at every connection for is compared.
    fn looks_at_all(&self) -> bool {
        let every = match self.sparing {
            true => SPARING * LOOKS_AT_ALL,
            false => LOOKS_AT_ALL,
        };
        self.engine.connections() < MANY || self.calls.is_multiple_of(every)
    }

    /// The allowed rate and its last change as the reference has them.
    pub fn allowed(&self, at: Address) -> Option<Allowed> {
        self.engine.allowed(at).ok()
    }
}

/// What library and reference give, which must be the same.
fn same<T: PartialEq + Debug>(what: impl Debug, ours: &T, theirs: &T) -> Result<(), Difference> {
    if ours == theirs {
        return Ok(());
    }
    Err(format!(
        "{what:?}: library {ours:x?}, reference {theirs:x?}"
    ))
}
