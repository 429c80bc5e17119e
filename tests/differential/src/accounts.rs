//! The data cells of each name, counted from a list's calls and their answers alone
//! (document 02, L12): the cells of accepted offers are those of data slots, those that
//! wait and those that closes answered. A path's are those of its members (document 02,
//! L13), a removal being one of its closes.

mod members;

use std::collections::BTreeMap;

use abr_reference::Address;

use crate::call::{Answer, Call, Outcome};
use crate::library::Difference;
use members::Members;

/// The cells of one name.
#[derive(Debug, Clone, Copy, Default)]
struct Account {
    /// Those of accepted offers.
    offered: u64,
    /// The data slots.
    sent: u64,
    /// Those that closes answered.
    closed: u64,
}

impl Account {
    /// Those that must still wait; nothing if more were given than offered.
    fn waiting(self) -> Option<u64> {
        self.offered.checked_sub(self.sent + self.closed)
    }
}

/// The accounts of a list. A name that is closed and opened anew goes on with its own.
#[derive(Debug, Clone, Default)]
pub struct Accounts {
    accounts: BTreeMap<Address, Account>,
    members: Members,
}

impl Accounts {
    /// Adds a call with its answer. Never are more cells sent than were offered, and
    /// nothing waits any more where a close was accepted.
    pub fn add(&mut self, call: &Call, outcome: &Outcome) -> Result<(), Difference> {
        match (*call, outcome) {
            (Call::Offer { at, cells }, Ok(_)) => self.of(at).offered += cells,
            (Call::Add { at }, Ok(_)) => self.members.add(at),
            (Call::OfferMember { at, cells }, Ok(_)) => {
                self.members.offer(at, cells)?;
                self.of(Address::of_path(at.vpi)).offered += cells;
            }
            (Call::Remove { at }, Ok(Answer::Closed(closed))) => {
                self.members.remove(at, closed.cells)?;
                self.of(Address::of_path(at.vpi)).closed += closed.cells;
            }
            (Call::Close { at }, Ok(Answer::Closed(closed))) => {
                self.of(at).closed += closed.cells;
                self.members.close(at);
                self.same(at, 0, "after its close")?;
            }
            (Call::Slot { .. }, Ok(Answer::Sent(sent))) if sent.kind == 3 => {
                self.sent(Address::new(sent.vpi, sent.vci))?;
            }
            _ => {}
        }
        Ok(())
    }

    /// Whether so many cells are those that must still wait on a connection or a member.
    pub fn same(&self, at: Address, waiting: u64, whose: &str) -> Result<(), Difference> {
        let account = self.accounts.get(&at).copied().unwrap_or_default();
        let expected = self.members.waiting(at).or(account.waiting());
        if expected == Some(waiting) {
            return Ok(());
        }
        Err(format!(
            "{waiting} wait on {at:?} {whose}: {expected:?} by {account:?}"
        ))
    }

    /// The connection that a pair is counted for: a member's path, else itself.
    fn connection(&self, at: Address) -> Address {
        match self.members.waiting(at) {
            Some(_) => Address::of_path(at.vpi),
            None => at,
        }
    }

    /// A data slot named this pair.
    fn sent(&mut self, at: Address) -> Result<(), Difference> {
        let connection = self.connection(at);
        if connection != at {
            self.members.sent(at)?;
        }
        let account = self.of(connection);
        account.sent += 1;
        match account.waiting() {
            Some(_) => Ok(()),
            None => Err(format!("more data than was offered: {account:?}")),
        }
    }

    fn of(&mut self, at: Address) -> &mut Account {
        self.accounts.entry(at).or_default()
    }
}
