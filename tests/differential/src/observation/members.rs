//! Paths and their members (document 02, L13): what is known of them, and their edges.

use abr::{MEMBERS_MAX, PATH_VCI, WAITING_MAX};
use abr_reference::{Address, Refusal};

use super::Observation;
use crate::call::Call;
use crate::coverage::{Coverage, Event};

impl Observation {
    /// The connection that a pair belongs to: a member's path, else itself.
    pub fn connection_of(&self, at: Address) -> Address {
        if self.members.contains_key(&at) {
            Address::of_path(at.vpi)
        } else {
            at
        }
    }

    /// Whether the path with this VPI is open.
    pub fn path_is_open(&self, vpi: u32) -> bool {
        self.connections.contains_key(&Address::of_path(vpi))
    }

    /// The members on a VPI, rising, with the cells that wait on each.
    pub fn members_on(&self, vpi: u32) -> impl Iterator<Item = (&Address, &u64)> + Clone {
        self.members
            .range(Address::new(vpi, 0)..=Address::new(vpi, u32::MAX))
    }

    /// A path was opened.
    pub(super) fn path_opened(&self, vpi: u32, coverage: &mut Coverage) {
        let path = Address::of_path(vpi);
        let beside = |other: &Address| other.vpi == vpi && *other != path;
        let channels = self.connections.keys().any(beside);
        coverage.reach(Event::PathBesideChannel, channels);
        coverage.reach(Event::PathReopened, self.closed.contains(&path));
    }

    /// A member was added.
    pub(super) fn added(&mut self, at: Address, coverage: &mut Coverage) {
        self.members.insert(at, 0);
        coverage.reach(Event::MembersMax, self.members.len() == MEMBERS_MAX);
        coverage.reach(Event::MemberAgain, self.removed.contains(&at));
        coverage.reach(Event::MemberAfterChannel, self.closed.contains(&at));
    }

    /// Cells were offered to a member.
    pub(super) fn member_offered(&mut self, at: Address, cells: u64, coverage: &mut Coverage) {
        let Some(waiting) = self.members.get_mut(&at) else {
            return;
        };
        *waiting += cells;
        let full = *waiting == WAITING_MAX;
        let Some(path) = self.connections.get_mut(&Address::of_path(at.vpi)) else {
            return;
        };
        path.data += cells;
        path.offered += cells;
        coverage.reach(Event::MemberFull, full && cells > 0);
        coverage.reach(Event::PathPastFull, path.data > WAITING_MAX);
    }

    /// A member was removed.
    pub(super) fn removed(&mut self, at: Address, coverage: &mut Coverage) {
        let cells = self.members.remove(&at).unwrap_or(0);
        self.removed.insert(at);
        let Some(path) = self.connections.get_mut(&Address::of_path(at.vpi)) else {
            return;
        };
        coverage.reach(Event::RemovedWaiting, cells > 0 && path.data > cells);
        coverage.reach(Event::RemovedLast, cells > 0 && path.data == cells);
        coverage.reach(Event::RemovedEmpty, cells == 0 && path.data > 0);
        path.data -= cells;
    }

    /// A connection is closed: if it is a path, its members go with it.
    pub(super) fn path_closed(&mut self, at: Address, coverage: &mut Coverage) {
        if at.vci != PATH_VCI {
            return;
        }
        let members: Vec<u64> = self.members_on(at.vpi).map(|(_, cells)| *cells).collect();
        let loaded = members.iter().filter(|cells| **cells > 0).count();
        coverage.reach(Event::PathClosedLoaded, loaded > 1);
        coverage.reach(Event::PathClosedEmpty, loaded == 0 && !members.is_empty());
        self.members.retain(|member, _| member.vpi != at.vpi);
    }

    /// A data slot names a member, which is as it was before.
    pub(super) fn member_sent(&mut self, at: Address, coverage: &mut Coverage) {
        let path = Address::of_path(at.vpi);
        let served = self.connections.get(&path).and_then(|path| path.served);
        match served {
            None => self.first_turn(at, coverage),
            Some(last) => self.next_turn(at, last, coverage),
        }
        if let Some(path) = self.connections.get_mut(&path) {
            path.served = Some(at.vci);
        }
        if let Some(cells) = self.members.get_mut(&at) {
            *cells -= 1;
        }
    }

    /// It is the first of its path that is served.
    fn first_turn(&self, at: Address, coverage: &mut Coverage) {
        let mut members = self.members_on(at.vpi);
        let lower = members.any(|(other, _)| other.vci < at.vci);
        coverage.reach(Event::TurnFirst, lower);
    }

    /// The one served last had this VCI, and may have been removed since.
    fn next_turn(&self, at: Address, last: u32, coverage: &mut Coverage) {
        let gone = !self.members.contains_key(&Address::new(at.vpi, last));
        let mut members = self.members_on(at.vpi);
        let others = members.clone().count() > 1;
        let passed = members.any(|(other, _)| last < other.vci && other.vci < at.vci);
        coverage.reach(Event::TurnNext, last < at.vci);
        coverage.reach(Event::TurnRound, at.vci < last);
        coverage.reach(Event::TurnAgain, last == at.vci && others);
        coverage.reach(Event::TurnPasses, passed);
        coverage.reach(Event::TurnRemoved, gone);
    }

    /// A data cell of a member came in, and its path is as it was before.
    pub(super) fn member_received(&mut self, at: Address, efci: bool, coverage: &mut Coverage) {
        let Some(path) = self.connections.get_mut(&Address::of_path(at.vpi)) else {
            return;
        };
        let by_another = path.efci && path.marked_by != Some(at);
        coverage.reach(Event::MemberMarks, efci);
        coverage.reach(Event::MemberClears, by_another && !efci);
        path.marked_by = efci.then_some(at);
    }

    /// A call was accepted that may name a path.
    pub(super) fn accepted_path(&self, call: &Call, coverage: &mut Coverage) {
        let at = call.address();
        if at.is_some_and(|at| at.vci == PATH_VCI) {
            coverage.count_path(call);
        }
    }

    /// A call was refused: it may have named a member or a path where that is none.
    pub(super) fn refused_member(&self, call: &Call, refusal: Refusal, coverage: &mut Coverage) {
        let Some(at) = call.address() else {
            return;
        };
        let full = self.members.len() == MEMBERS_MAX;
        match (call, refusal) {
            (Call::Receive { .. }, Refusal::NotOpen) if at.vci == PATH_VCI => {
                coverage.reach(Event::PathData, self.connections.contains_key(&at));
            }
            (Call::Add { .. }, Refusal::AlreadyOpen) => coverage.reach(Event::ChannelFirst, full),
            (Call::Add { .. }, Refusal::AlreadyMember) => coverage.reach(Event::MemberFirst, full),
            (_, Refusal::NotOpen) if self.members.contains_key(&at) => coverage.count_member(call),
            _ => {}
        }
    }
}
