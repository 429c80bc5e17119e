//! The data cells of each member of a path, and how often it was served (document 02,
//! L13), from a list's calls and their answers alone. In any stretch of calls through which
//! two members of one path have data their data slots differ by at most one: between two
//! slots of one the other has one, if it had data all the time.

use std::collections::BTreeMap;

use abr_reference::Address;

use crate::library::Difference;

/// What is known of a member.
#[derive(Debug, Clone, Copy, Default)]
struct Member {
    /// The cells that wait.
    cells: u64,
    /// How many data slots members had had when it last came to have data.
    since: u64,
    /// Which of these slots was its last, counted from 1.
    served: Option<u64>,
}

/// All members of a list.
#[derive(Debug, Clone, Default)]
pub(super) struct Members {
    members: BTreeMap<Address, Member>,
    /// The data slots that members had.
    slots: u64,
}

impl Members {
    /// The cells that must wait on a pair; nothing if it is no member.
    pub(super) fn waiting(&self, at: Address) -> Option<u64> {
        self.members.get(&at).map(|member| member.cells)
    }

    /// A member was added.
    pub(super) fn add(&mut self, at: Address) {
        self.members.insert(at, Member::default());
    }

    /// Cells were offered to one.
    pub(super) fn offer(&mut self, at: Address, cells: u64) -> Result<(), Difference> {
        let slots = self.slots;
        let member = self.member(at)?;
        if member.cells == 0 {
            member.since = slots;
        }
        member.cells += cells;
        Ok(())
    }

    /// One was removed, with so many cells by the answer.
    pub(super) fn remove(&mut self, at: Address, cells: u64) -> Result<(), Difference> {
        let member = *self.member(at)?;
        if member.cells != cells {
            return Err(format!("{cells} cells of a removed {at:?}: {member:?}"));
        }
        self.members.remove(&at);
        Ok(())
    }

    /// A connection was closed; if it is a path, its members went with it.
    pub(super) fn close(&mut self, at: Address) {
        self.members
            .retain(|member, _| Address::of_path(member.vpi) != at);
    }

    /// A data slot named a member. None of its path may have had data since before that
    /// member's last slot, and no slot since then.
    pub(super) fn sent(&mut self, at: Address) -> Result<(), Difference> {
        self.slots += 1;
        let slots = self.slots;
        let member = self.member(at)?;
        if member.cells == 0 {
            return Err(format!("a data slot of {at:?}, which has no data"));
        }
        member.cells -= 1;
        let Some(last) = member.served.replace(slots) else {
            return Ok(());
        };
        let mut others = self.members.iter().filter(|(other, member)| {
            let passed_over = member.cells > 0 && member.since < last;
            let unserved = member.served.is_none_or(|served| served < last);
            other.vpi == at.vpi && **other != at && passed_over && unserved
        });
        match others.next() {
            None => Ok(()),
            Some((other, _)) => Err(format!("{at:?} is served twice, and {other:?} is not")),
        }
    }

    fn member(&mut self, at: Address) -> Result<&mut Member, Difference> {
        let member = self.members.get_mut(&at);
        member.ok_or_else(|| format!("{at:?} is no member"))
    }
}
