//! What is known of a list's connections from its calls and their agreed
//! answers. The generator uses it to choose calls at edges, and the coverage
//! counts come from it; no comparison of the two sides depends on it.

mod address;
mod change;
mod closing;
mod doubles;
mod made;
mod members;
mod outside;
mod ports;
mod reserved;
mod setup;
mod turned;
mod zero;

use std::collections::{BTreeMap, BTreeSet};

use abr::ffi::{abr_params, abr_sent};
use abr::{CONNECTIONS_MAX, TIME_MAX, WAITING_MAX};
use abr_reference::{Address, Refusal};

use crate::call::{address_of, Answer, Call, Outcome};
use crate::coverage::{Coverage, Event};
use crate::drawn::Drawn;
use crate::octets::{code_at, ER};
use turned::Turned;

/// What a connection has sent, from its first cell on.
#[derive(Debug, Clone, Copy)]
pub struct Sends {
    pub last: u64,
    pub forward: u64,
    pub k: u32,
    pub turned: bool,
}

/// An open connection.
#[derive(Debug, Clone)]
pub struct Connection {
    pub params: abr_params,
    pub pcr: u64,
    pub mcr: u64,
    /// The initial rate that is used.
    pub icr: u64,
    pub crm: u32,
    pub opened: u64,
    pub acr: u64,
    /// The allowed rate after the last backward cell less the one before it.
    change: i64,
    pub sends: Option<Sends>,
    pub data: u64,
    /// The cells of accepted offers, and whether one was refused for its cells.
    offered: u64,
    refused_offer: bool,
    pub turned: Option<Turned>,
    /// Whether the last turned cell that was sent had CI 1.
    sent_ci: bool,
    /// The level at which the made cell that waits was made.
    pub made: Option<u32>,
    pub last_made: Option<u64>,
    /// When it last had an out-of-rate cell.
    pub last_outside: Option<u64>,
    /// Whether its rate was 0 at some time since its last cell in a slot.
    stopped: bool,
    pub efci: bool,
    /// The member of a path whose data cell set it.
    marked_by: Option<Address>,
    /// The member of a path that was served last, by its VCI.
    served: Option<u32>,
    pub unanswered: u32,
}

impl Connection {
    fn new(params: abr_params, time: u64, acr: u64) -> Self {
        let rate = |code: u32| abr_reference::rate_of(code);
        Connection {
            params,
            pcr: rate(params.pcr),
            mcr: rate(params.mcr),
            icr: setup::icr_used(&params),
            crm: params.tbe.div_ceil(1 << params.n),
            opened: time,
            acr,
            change: 0,
            sends: None,
            data: 0,
            offered: 0,
            refused_offer: false,
            turned: None,
            sent_ci: false,
            made: None,
            last_made: None,
            last_outside: None,
            stopped: acr == 0,
            efci: false,
            marked_by: None,
            served: None,
            unanswered: 0,
        }
    }

    /// Trm in nanoseconds.
    pub fn trm(&self) -> u64 {
        100_000_000 >> (7 - self.params.trm)
    }

    /// ADTF in nanoseconds.
    pub fn adtf(&self) -> u64 {
        u64::from(self.params.adtf) * 10_000_000
    }

    /// Nrm.
    pub fn nrm(&self) -> u32 {
        1 << self.params.n
    }

    /// Whether data, a turned or a made cell waits.
    pub fn waits(&self) -> bool {
        self.data > 0 || self.turned.is_some() || self.made.is_some()
    }

    /// The ready instant, if there is one; none at rate 0.
    pub fn ready(&self) -> Option<u64> {
        let gap = abr_reference::gap(self.acr)?;
        let Some(sends) = self.sends else {
            return self.waits().then_some(self.opened);
        };
        let due = sends.last + gap;
        if self.waits() || sends.k == self.nrm() - 1 {
            Some(due)
        } else if sends.k >= 2 {
            Some(due.max(sends.forward + self.trm()))
        } else {
            None
        }
    }
}

/// All connections of a list.
#[derive(Debug, Clone, Default)]
pub struct Observation {
    pub connections: BTreeMap<Address, Connection>,
    pub closed: BTreeSet<Address>,
    /// The members of paths, with the cells that wait on each.
    pub members: BTreeMap<Address, u64>,
    /// Those that were removed.
    removed: BTreeSet<Address>,
    /// Closed with data, a backward cell or unanswered cells on them.
    loaded: BTreeSet<Address>,
    /// Closed with data on them.
    drained: BTreeSet<Address>,
    /// Closed after a backward cell that changed the rate.
    changed: BTreeSet<Address>,
    /// The last making on each address, also if it was closed since.
    makings: BTreeMap<Address, u64>,
    /// The last out-of-rate cell on each address, also if it was closed since.
    outside: BTreeMap<Address, u64>,
    /// The time of the last accepted open, slot, made or out-of-rate cell.
    pub last: u64,
    /// That of the last accepted open or slot.
    last_sent: u64,
    /// That of the last made cell, and of the last out-of-rate cell.
    last_making: u64,
    last_outside: u64,
    pub level: u32,
}

impl Observation {
    /// Adds a call with its agreed outcome and the allowed rate afterwards of
    /// the connection that it concerns.
    pub fn add(&mut self, call: &Call, outcome: &Outcome, acr: u64, coverage: &mut Coverage) {
        coverage.count(call, outcome);
        judged(call, coverage);
        let answer = match outcome {
            Ok(answer) => answer,
            Err(refusal) => return self.add_refused(call, *refusal, coverage),
        };
        self.accepted_path(call, coverage);
        reserved::accepted(call, coverage);
        ports::accepted(call, coverage);
        match (*call, *answer) {
            (Call::Open { at, time, params }, _) => {
                self.opened(at, time, params, acr, coverage);
            }
            (Call::OpenPath { vpi, time, params }, _) => {
                self.path_opened(vpi, coverage);
                self.opened(Address::of_path(vpi), time, params, acr, coverage);
            }
            (Call::Add { at }, _) => self.added(at, coverage),
            (Call::OfferMember { at, cells }, _) => self.member_offered(at, cells, coverage),
            (Call::Remove { at }, _) => self.removed(at, coverage),
            (Call::Close { at }, _) => self.close(at, coverage),
            (Call::Offer { at, cells }, _) => self.offered(at, cells, coverage),
            (Call::SetLevel { level }, _) => self.level = level,
            (Call::Make { at, time }, _) => self.made(at, time, coverage),
            (Call::OutOfRate { at, time, .. }, _) => self.outside(at, time, coverage),
            (Call::Receive { cell }, _) => self.received(cell.as_slice(), acr, coverage),
            (Call::Slot { time, .. }, Answer::Sent(sent)) => self.slot(time, &sent, coverage),
            (Call::Export { at }, _) => self.exported(at, coverage),
            (Call::Import { bits }, Answer::Imported { code, .. }) => {
                doubles::imported(bits, code, coverage);
            }
            _ => {}
        }
    }

    /// Adds a call that was refused.
    fn add_refused(&mut self, call: &Call, refusal: Refusal, coverage: &mut Coverage) {
        self.refused_address(call, refusal, coverage);
        self.refused_reserved(call, refusal, coverage);
        self.refused_change(call, coverage);
        doubles::refused(call, coverage);
        ports::refused(call, refusal, coverage);
        self.refused_offer(call, refusal);
        self.refused_member(call, refusal, coverage);
        setup::refused(call, refusal, coverage);
        self.refused(call, refusal, coverage);
        self.refused_outside(call, refusal, coverage);
    }

    fn opened(
        &mut self,
        at: Address,
        time: u64,
        params: abr_params,
        acr: u64,
        coverage: &mut Coverage,
    ) {
        (self.last, self.last_sent) = (time, time);
        self.connections
            .insert(at, Connection::new(params, time, acr));
        coverage.reach(Event::Reopened, self.closed.contains(&at));
        coverage.reach(Event::ReopenedLoaded, self.loaded.contains(&at));
        coverage.reach(Event::ChangeReopened, self.changed.remove(&at));
        coverage.reach(Event::OpenedBeside, self.elsewhere(at));
        coverage.reach(Event::Full, self.connections.len() == CONNECTIONS_MAX);
        coverage.reach(Event::TimeMax, time == TIME_MAX);
        coverage.reach(Event::OpenedAtZero, acr == 0);
        setup::opened(&params, coverage);
    }

    fn close(&mut self, at: Address, coverage: &mut Coverage) {
        self.closed.insert(at);
        let Some(connection) = self.connections.remove(&at) else {
            return;
        };
        self.closing(at, &connection, coverage);
        self.path_closed(at, coverage);
        if connection.change != 0 {
            self.changed.insert(at);
        }
        if connection.waits() || connection.unanswered > 0 {
            self.loaded.insert(at);
        } else {
            self.loaded.remove(&at);
        }
    }

    fn offered(&mut self, at: Address, cells: u64, coverage: &mut Coverage) {
        let Some(connection) = self.connections.get_mut(&at) else {
            return;
        };
        let full = connection.data == WAITING_MAX;
        connection.data += cells;
        connection.offered += cells;
        coverage.reach(Event::OfferNothing, full && cells == 0);
        coverage.reach(Event::OfferFills, !full && connection.data == WAITING_MAX);
    }

    fn received(&mut self, cell: &[u8], acr: u64, coverage: &mut Coverage) {
        let header = u32::from_be_bytes([cell[0], cell[1], cell[2], cell[3]]);
        let (named, bits) = (address_of(cell).unwrap_or_default(), cell[6]);
        let at = self.connection_of(named);
        coverage.reach(Event::GfcIgnored, header >> 28 != 0);
        let rm = header >> 1 & 7 == 6;
        if rm && bits & 0x80 == 0 {
            return self.forward_received(at, bits, coverage);
        }
        if at != named {
            self.member_received(named, header >> 2 & 1 == 1, coverage);
        }
        let Some(connection) = self.connections.get_mut(&at) else {
            return;
        };
        if !rm {
            let efci = header >> 2 & 1 == 1;
            coverage.reach(Event::EfciCleared, connection.efci && !efci);
            connection.efci = efci;
        } else {
            let er = abr_reference::rate_of(code_at(cell, ER));
            backward_received(connection, bits, er, coverage);
            zero::received(connection, bits, er, acr, coverage);
            change::received(connection, bits, acr, coverage);
            connection.acr = acr;
            connection.stopped |= acr == 0;
        }
    }

    fn slot(&mut self, time: u64, sent: &abr_sent, coverage: &mut Coverage) {
        (self.last, self.last_sent) = (time, time);
        coverage.kinds[sent.kind as usize] += 1;
        coverage.reach(Event::SentTurned, sent.kind == 2 && sent.made == 0);
        coverage.reach(Event::SentMade, sent.made == 1);
        coverage.reach(Event::TimeMax, time == TIME_MAX);
        coverage.reach(Event::SentAtTimeMax, time == TIME_MAX && sent.kind != 0);
        let earliest = self
            .connections
            .values()
            .filter_map(Connection::ready)
            .min();
        coverage.reach(Event::ReadyExact, earliest == Some(time));
        coverage.reach(Event::ReadyLessOne, earliest == Some(time + 1));
        let named = Address::new(sent.vpi, sent.vci);
        let at = self.connection_of(named);
        if at != named {
            self.member_sent(named, coverage);
        }
        self.ties(time, earliest, at, coverage);
        zero::passed_over(self.connections.values(), time, coverage);
        if let Some(connection) = self.connections.get_mut(&at) {
            made::sent(connection, sent.kind, self.level, coverage);
            zero::sent(connection, time, sent, coverage);
            change::sent(connection, time, sent.acr, coverage);
            kind_sent(connection, time, sent.kind, coverage);
            connection.acr = sent.acr;
            connection.stopped = sent.acr == 0;
        }
    }

    /// The slot went to this address; others may have been ready at that instant.
    fn ties(&self, time: u64, earliest: Option<u64>, at: Address, coverage: &mut Coverage) {
        let Some(earliest) = earliest.filter(|ready| *ready <= time) else {
            return;
        };
        let (mut first, mut later, mut lower_vci) = (0, 0, false);
        for (other, connection) in &self.connections {
            if connection.ready() != Some(earliest) {
                continue;
            }
            lower_vci |= other.vci < at.vci;
            match connection.sends {
                None => first += 1,
                Some(_) => later += 1,
            }
        }
        coverage.reach(Event::TieFirst, first > 1);
        coverage.reach(Event::TieLater, later > 1);
        coverage.reach(Event::TiePaths, lower_vci);
    }
}

/// The edges of the trace that a call judges.
fn judged(call: &Call, coverage: &mut Coverage) {
    if let Call::Judge { trace } = call {
        for event in Drawn::new(*trace).events {
            coverage.reach(event, true);
        }
    }
}

/// A backward cell came in; `acr` is still the rate before it.
fn backward_received(connection: &mut Connection, bits: u8, er: u64, coverage: &mut Coverage) {
    let (ci, ni, bn) = (bits & 0x20 != 0, bits & 0x10 != 0, bits & 0x40 != 0);
    let step = connection.pcr >> connection.params.r;
    let up = !ci && !ni;
    let cut = connection.acr - connection.acr.div_ceil(1 << connection.params.d);
    coverage.reach(
        Event::FeedbackUp,
        up && connection.acr + step < connection.pcr.min(er),
    );
    coverage.reach(
        Event::FeedbackPcr,
        up && connection.acr + step > connection.pcr && er >= connection.pcr,
    );
    coverage.reach(Event::FeedbackUnchanged, ni && !ci && er > connection.acr);
    coverage.reach(Event::FeedbackCut, ci && cut > connection.mcr && er > cut);
    coverage.reach(
        Event::FeedbackEr,
        up && er < connection.acr && er > connection.mcr,
    );
    coverage.reach(
        Event::FeedbackErUnderCi,
        ci && er < cut && er > connection.mcr,
    );
    coverage.reach(
        Event::FeedbackMcr,
        er < connection.mcr && connection.acr > connection.mcr,
    );
    coverage.reach(Event::BnLeaves, bn && connection.unanswered > 0);
    coverage.reach(Event::BnAnswers, !bn && connection.unanswered > 0);
    if !bn {
        connection.unanswered = 0;
    }
}

/// A cell of this kind was sent; `acr` is still the rate before it.
fn kind_sent(connection: &mut Connection, time: u64, kind: u32, coverage: &mut Coverage) {
    if kind == 1 {
        forward_sent(connection, time, coverage);
        return;
    }
    let (nrm, trm) = (connection.nrm(), connection.trm());
    let (data, waiting) = (connection.data, connection.turned.is_some());
    if let Some(sends) = &mut connection.sends {
        let passed = time - sends.forward;
        coverage.reach(Event::NrmLessOne, sends.k + 2 == nrm && passed < trm);
        coverage.reach(Event::TrmLessOne, sends.k >= 2 && passed + 1 == trm);
        coverage.reach(Event::TurnedFirst, kind == 2 && waiting && data > 0);
        coverage.reach(Event::TurnedAlone, kind == 2 && waiting && sends.turned);
        coverage.reach(Event::TurnedSecond, kind == 3 && waiting);
        sends.turned |= kind == 2;
        sends.k += 1;
        sends.last = time;
    }
    match kind {
        2 if waiting => connection.sent_ci = connection.turned.take().is_some_and(|cell| cell.ci),
        2 => connection.made = None,
        _ => connection.data -= 1,
    }
}

/// A forward cell was sent.
fn forward_sent(connection: &mut Connection, time: u64, coverage: &mut Coverage) {
    match connection.sends {
        None => coverage.reach(Event::FirstMove, connection.acr > connection.icr),
        Some(sends) => later_forward(connection, &sends, time, coverage),
    }
    connection.unanswered += 1;
    connection.sends = Some(Sends {
        last: time,
        forward: time,
        k: 0,
        turned: false,
    });
}

/// The edges at which a forward cell after the first may be sent.
fn later_forward(connection: &Connection, sends: &Sends, time: u64, coverage: &mut Coverage) {
    let passed = time - sends.forward;
    let by_count = sends.k == connection.nrm() - 1;
    coverage.reach(Event::NrmForward, by_count && passed < connection.trm());
    coverage.reach(Event::TrmExact, !by_count && passed == connection.trm());
    coverage.reach(Event::TrmAlone, !by_count && !connection.waits());
    let above = connection.acr > connection.icr;
    let idle = above && passed > connection.adtf();
    coverage.reach(Event::AdtfExact, above && passed == connection.adtf());
    coverage.reach(Event::AdtfPassed, above && passed == connection.adtf() + 1);
    coverage.reach(Event::IdleMove, idle);
    let (y, crm) = (connection.unanswered, connection.crm);
    let zero = connection.params.c == 7;
    let rate = if idle { connection.icr } else { connection.acr };
    let cuts = y >= crm && !zero && rate > connection.mcr;
    coverage.reach(Event::CrmExact, y == crm && !zero && rate > connection.mcr);
    coverage.reach(
        Event::CrmLessOne,
        y + 1 == crm && !zero && rate > connection.mcr,
    );
    coverage.reach(Event::CdfZero, y >= crm && zero);
    coverage.reach(Event::UnansweredMove, cuts);
    coverage.reach(Event::IdleAndUnanswered, idle && cuts);
}
