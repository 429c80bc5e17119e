//! The table of connections and the calls on it.

use std::fmt;

use crate::connection::instant;
use crate::ffi;
use crate::{
    Address, Allowed, Closed, Connection, Contract, Member, Opened, Params, Received, Refusal,
    Sent, Totals,
};

/// The connections that may be open at once: those of the edition, which `ABR_CONNECTIONS` chooses
/// when this is compiled.
pub const CONNECTIONS_MAX: usize = include!(concat!(env!("OUT_DIR"), "/connections"));
/// The members that all paths may have together.
pub const MEMBERS_MAX: usize = 256;
/// The most comparisons of a call: the rounds of a tournament of so many leaves.
pub const COMPARISONS_MAX: u32 = CONNECTIONS_MAX.ilog2();
/// The latest time.
pub const TIME_MAX: u64 = 1 << 62;
/// The most data cells that wait on one channel, and on one member of a path.
pub const WAITING_MAX: u64 = 65_535;
/// The least time from one made cell of a connection to the next, 100 ms.
pub const MAKE_INTERVAL: u64 = 100_000_000;
/// The least time from one out-of-rate cell of a connection to the next, 100 ms.
pub const OUT_OF_RATE_INTERVAL: u64 = 100_000_000;
/// The highest congestion level.
pub const LEVEL_MAX: u32 = 2;

/// The connections of one link. A refused call leaves it as it was.
#[derive(Clone, PartialEq, Eq)]
pub struct Table {
    words: Box<[u64; ffi::ABR_TABLE_WORDS]>,
}

impl Table {
    /// A table with nothing open and congestion level 0.
    ///
    /// # Panics
    /// If the linked archive is of another major number, of an earlier minor number or of another
    /// edition than this binding, whose table could then be too short for its calls.
    ///
    /// ```
    /// use abr::{Table, CONNECTIONS_MAX};
    /// let table = Table::new();
    /// assert_eq!((table.link().connections, table.next_ready()), (0, None));
    /// assert_eq!(table.link().connections_max as usize, CONNECTIONS_MAX); // those of the edition
    /// ```
    pub fn new() -> Self {
        assert!(
            ffi::abr_matches(),
            "the archive is of another version or edition"
        );
        // Made on the heap: a table is too large to pass through the stack.
        let words = vec![0; ffi::ABR_TABLE_WORDS].into_boxed_slice();
        Table {
            words: words.try_into().expect("it has this length"),
        }
    }

    /// The table as the calls take it, which has these words and nothing else.
    fn raw(&mut self) -> *mut ffi::abr_table {
        self.words.as_mut_ptr().cast()
    }

    /// The table as the calls take it that only read.
    fn raw_const(&self) -> *const ffi::abr_table {
        self.words.as_ptr().cast()
    }

    /// Opens a channel and answers its leaf, the lowest free one, and the comparisons.
    ///
    /// # Errors
    /// In this order: [`Refusal::LowVci`], [`Refusal::ReservedBit`] in one of the
    /// three rate codes, [`Refusal::Range`], [`Refusal::Tbe`], [`Refusal::Frtt`],
    /// [`Refusal::Time`], [`Refusal::AlreadyOpen`], [`Refusal::AlreadyMember`] of a path,
    /// [`Refusal::Full`], [`Refusal::TimeBackward`].
    ///
    /// ```
    /// use abr::{Address, Opened, Params, Refusal, Table};
    /// let mut table = Table::new();
    /// let at = Address::new(1, 32);
    /// let params = Params::house(0x53E8, 0x4000, 0x53E8);
    /// assert_eq!(table.open(Address::new(1, 31), 0, &params), Err(Refusal::LowVci));
    /// assert_eq!(table.open(at, 0, &params), Ok(Opened { leaf: 0, comparisons: 1 }));
    /// assert_eq!(table.open(at, 0, &params), Err(Refusal::AlreadyOpen));
    /// assert_eq!(table.open(Address::new(256, 32), 0, &params), Err(Refusal::Range));
    /// assert_eq!(table.acr(at), Ok(512_000));
    /// assert_eq!(table.acr(Address::new(0, 65_568)), Err(Refusal::NotOpen)); // not 1 and 32
    /// let other = table.open(Address::new(2, 32), 0, &params)?; // another connection
    /// assert_eq!(other.leaf, 1);
    /// let flagged = Params { pcr: 0xD3E8, ..params };
    /// assert_eq!(table.open(Address::new(3, 32), 0, &flagged), Err(Refusal::ReservedBit));
    /// table.close(at)?;
    /// assert_eq!(table.open(Address::new(3, 32), 0, &params)?.leaf, 0); // free again
    /// # Ok::<(), Refusal>(())
    /// ```
    pub fn open(&mut self, at: Address, time: u64, params: &Params) -> Result<Opened, Refusal> {
        // SAFETY: the pointer is live for the call.
        opened(unsafe { ffi::abr_open(self.raw(), at.vpi, at.vci, time, *params) })
    }

    /// Closes a connection, drops all that waits on it and answers how many data cells
    /// that were, and the comparisons. With the data slots and what still waits they are
    /// the cells of all accepted offers to this name, however often it was opened. A path
    /// loses its members with it, and answers the sum of what waited on them.
    ///
    /// # Errors
    /// [`Refusal::NotOpen`].
    ///
    /// ```
    /// # use abr::{Address, Closed, Params, Refusal, Table, COMPARISONS_MAX};
    /// # let mut table = Table::new();
    /// # let at = Address::new(1, 32);
    /// # table.open(at, 0, &Params::house(0x53E8, 0x4000, 0x53E8)).unwrap();
    /// table.offer(at, 7)?;
    /// let closed = Closed { cells: 7, comparisons: COMPARISONS_MAX };
    /// assert_eq!(table.close(at), Ok(closed));
    /// assert_eq!(table.close(at), Err(Refusal::NotOpen));
    /// # Ok::<(), Refusal>(())
    /// ```
    pub fn close(&mut self, at: Address) -> Result<Closed, Refusal> {
        // SAFETY: the pointer is live for the call.
        closed(unsafe { ffi::abr_close(self.raw(), at.vpi, at.vci) })
    }

    /// Opens a path, a connection for a whole VPI, without members, and answers its leaf and
    /// the comparisons. The other calls take it by [`Address::of_path`].
    ///
    /// # Errors
    /// In this order: [`Refusal::ReservedBit`] in one of the three rate codes,
    /// [`Refusal::Range`], [`Refusal::Tbe`], [`Refusal::Frtt`], [`Refusal::Time`],
    /// [`Refusal::AlreadyOpen`], [`Refusal::Full`], [`Refusal::TimeBackward`].
    ///
    /// ```
    /// use abr::{Address, Kind, Opened, Params, Refusal, Table, CELL_OCTETS, PATH_VCI};
    /// let mut table = Table::new();
    /// let params = Params::house(0x53E8, 0x4000, 0x53E8);
    /// assert_eq!(table.open_path(3, 0, &params), Ok(Opened { leaf: 0, comparisons: 1 }));
    /// assert_eq!(table.open_path(3, 0, &params), Err(Refusal::AlreadyOpen));
    /// assert_eq!(table.open_path(256, 0, &params), Err(Refusal::Range));
    /// let members = [40, 50].map(|vci| Address::new(3, vci));
    /// for member in members {
    ///     table.add_member(member)?;
    ///     table.offer_member(member, 2)?;
    /// }
    /// let mut cell = [0; CELL_OCTETS];
    /// let forward = table.slot(0, &mut cell)?.expect("data waits");
    /// assert_eq!((forward.vci, forward.kind), (PATH_VCI, Kind::Forward));
    /// for (ms, member) in (1..=4).zip(members.iter().cycle()) {
    ///     let data = table.slot(ms * 1_000_000, &mut cell)?.expect("data waits");
    ///     assert_eq!((data.address(), data.kind), (*member, Kind::Data));
    ///     assert_eq!(data.leaf, forward.leaf); // the path's
    /// }
    /// assert_eq!(table.acr(Address::of_path(3)), Ok(512_000)); // one rate for both
    /// # Ok::<(), Refusal>(())
    /// ```
    pub fn open_path(&mut self, vpi: u32, time: u64, params: &Params) -> Result<Opened, Refusal> {
        // SAFETY: the pointer is live for the call.
        opened(unsafe { ffi::abr_open_path(self.raw(), vpi, time, *params) })
    }

    /// Makes a VCI a member of the path of its VPI, with no data waiting.
    ///
    /// # Errors
    /// In this order: [`Refusal::LowVci`], [`Refusal::NotOpen`],
    /// [`Refusal::AlreadyOpen`] as a channel, [`Refusal::AlreadyMember`],
    /// [`Refusal::MembersFull`] with [`MEMBERS_MAX`] in the whole table.
    ///
    /// ```
    /// # use abr::{Address, Params, Refusal, Table};
    /// # let mut table = Table::new();
    /// # let params = Params::house(0x53E8, 0x4000, 0x53E8);
    /// table.open_path(3, 0, &params)?;
    /// let member = Address::new(3, 40);
    /// assert_eq!(table.add_member(Address::new(3, 31)), Err(Refusal::LowVci));
    /// assert_eq!(table.add_member(Address::new(4, 40)), Err(Refusal::NotOpen));
    /// assert_eq!(table.add_member(member), Ok(()));
    /// assert_eq!(table.add_member(member), Err(Refusal::AlreadyMember));
    /// assert_eq!(table.open(member, 0, &params), Err(Refusal::AlreadyMember));
    /// # Ok::<(), Refusal>(())
    /// ```
    pub fn add_member(&mut self, at: Address) -> Result<(), Refusal> {
        // SAFETY: the pointer is live for the call.
        Refusal::outcome(unsafe { ffi::abr_add_member(self.raw(), at.vpi, at.vci) }.refusal)
    }

    /// Adds data cells to those that wait on a member of a path, and answers the
    /// comparisons; 0 is accepted.
    ///
    /// # Errors
    /// In this order: [`Refusal::NotOpen`], [`Refusal::NotAMember`],
    /// [`Refusal::TooMuchData`] on this member.
    ///
    /// ```
    /// # use abr::{Address, Params, Refusal, Table, COMPARISONS_MAX, WAITING_MAX};
    /// # let mut table = Table::new();
    /// # table.open_path(3, 0, &Params::house(0x53E8, 0x4000, 0x53E8)).unwrap();
    /// let member = Address::new(3, 40);
    /// table.add_member(member)?;
    /// assert_eq!(table.offer_member(member, WAITING_MAX), Ok(COMPARISONS_MAX));
    /// assert_eq!(table.offer_member(member, 1), Err(Refusal::TooMuchData));
    /// for other in [41, 65_576] {
    ///     let other = Address::new(3, other); // 65,576 is not 40
    ///     assert_eq!(table.offer_member(other, 1), Err(Refusal::NotAMember));
    /// }
    /// assert_eq!(table.offer(Address::of_path(3), 1), Err(Refusal::NotAMember));
    /// assert_eq!(table.offer(member, 1), Err(Refusal::NotOpen)); // no channel
    /// # Ok::<(), Refusal>(())
    /// ```
    pub fn offer_member(&mut self, at: Address, cells: u64) -> Result<u32, Refusal> {
        // SAFETY: the pointer is live for the call.
        comparisons(unsafe { ffi::abr_offer_member(self.raw(), at.vpi, at.vci, cells) })
    }

    /// Removes a member from its path, drops the data that waits on it and answers how
    /// many cells that were, and the comparisons.
    ///
    /// # Errors
    /// In this order: [`Refusal::NotOpen`], [`Refusal::NotAMember`].
    ///
    /// ```
    /// # use abr::{Address, Params, Refusal, Table};
    /// # let mut table = Table::new();
    /// # table.open_path(3, 0, &Params::house(0x53E8, 0x4000, 0x53E8)).unwrap();
    /// let members = [40, 50].map(|vci| Address::new(3, vci));
    /// for member in members {
    ///     table.add_member(member)?;
    ///     table.offer_member(member, 7)?;
    /// }
    /// assert_eq!(table.remove_member(members[0])?.cells, 7);
    /// assert_eq!(table.remove_member(members[0]), Err(Refusal::NotAMember));
    /// assert_eq!(table.remove_member(Address::new(3, 70_000)), Err(Refusal::NotAMember));
    /// assert_eq!(table.close(Address::of_path(3))?.cells, 7); // with the other member
    /// assert_eq!(table.remove_member(members[1]), Err(Refusal::NotOpen));
    /// # Ok::<(), Refusal>(())
    /// ```
    pub fn remove_member(&mut self, at: Address) -> Result<Closed, Refusal> {
        // SAFETY: the pointer is live for the call.
        closed(unsafe { ffi::abr_remove_member(self.raw(), at.vpi, at.vci) })
    }

    /// Receives a cell: a backward RM cell moves the rate of its connection, a
    /// forward one is turned and waits in place of any turned one, whose CI it
    /// keeps, the congestion mark of a data cell is saved, for its path if it is of a
    /// member. Answers what was received, the leaf of its connection and that connection's
    /// allowed rate afterwards.
    ///
    /// # Errors
    /// In this order: [`Refusal::Length`], [`Refusal::HeaderCheck`],
    /// [`Refusal::PayloadType`], for RM cells [`Refusal::Crc`],
    /// [`Refusal::Protocol`] and [`Refusal::ReservedBit`], [`Refusal::NotOpen`].
    ///
    /// ```
    /// use abr::{Address, Params, ReceivedKind, Refusal, Rm, Table, CELL_OCTETS};
    /// let mut table = Table::new();
    /// let params = Params::house(0x53E8, 0x4000, 0x53E8);
    /// table.open(Address::new(1, 32), 0, &params)?;
    /// let at = Address::new(1, 33);
    /// table.open(at, 0, &params)?;
    /// let rm = Rm { vpi: 1, vci: 33, backward: true, ci: true, er: 0x7FFF, ..Rm::default() };
    /// let mut cell = [0; CELL_OCTETS];
    /// abr::write_rm(&rm, &mut cell)?;
    /// let received = table.receive(&cell)?;
    /// assert_eq!((received.kind, received.address()), (ReceivedKind::Backward, at));
    /// assert_eq!((received.leaf, received.acr), (1, 480_000)); // a sixteenth less
    ///
    /// abr::write_rm(&Rm { backward: false, ..rm }, &mut cell)?;
    /// assert_eq!(table.receive(&cell)?.kind, ReceivedKind::Forward);
    /// abr::write_rm(&Rm { vci: 34, ..rm }, &mut cell)?;
    /// assert_eq!(table.receive(&cell), Err(Refusal::NotOpen));
    /// # Ok::<(), abr::Refusal>(())
    /// ```
    pub fn receive(&mut self, cell: &[u8]) -> Result<Received, Refusal> {
        // SAFETY: both pointers are live and the length is the cell's own.
        let received = unsafe { ffi::abr_receive(self.raw(), cell.as_ptr(), cell.len()) };
        Refusal::outcome(received.refusal)?;
        Ok(received.into())
    }

    /// Adds data cells to those that wait on a channel, and answers the
    /// comparisons; 0 is accepted.
    ///
    /// # Errors
    /// In this order: [`Refusal::NotOpen`], [`Refusal::NotAMember`] for a path's own
    /// name, [`Refusal::TooMuchData`].
    ///
    /// ```
    /// # use abr::{Address, Params, Refusal, Table, COMPARISONS_MAX, WAITING_MAX};
    /// # let mut table = Table::new();
    /// # let at = Address::new(1, 32);
    /// # table.open(at, 0, &Params::house(0x53E8, 0x4000, 0x53E8)).unwrap();
    /// // It becomes ready, and wins at every level.
    /// assert_eq!(table.offer(at, WAITING_MAX), Ok(COMPARISONS_MAX));
    /// assert_eq!(table.offer(at, 1), Err(Refusal::TooMuchData));
    /// ```
    pub fn offer(&mut self, at: Address, cells: u64) -> Result<u32, Refusal> {
        // SAFETY: the pointer is live for the call.
        comparisons(unsafe { ffi::abr_offer(self.raw(), at.vpi, at.vci, cells) })
    }

    /// Sets the congestion level, which marks the cells turned or made from now
    /// on: 0 none, 1 no increase, 2 congestion.
    ///
    /// # Errors
    /// [`Refusal::TooLarge`] over 2.
    ///
    /// ```
    /// # use abr::{Refusal, Table};
    /// let mut table = Table::new();
    /// assert_eq!(table.set_level(2), Ok(()));
    /// assert_eq!(table.set_level(3), Err(Refusal::TooLarge));
    /// ```
    pub fn set_level(&mut self, level: u32) -> Result<(), Refusal> {
        // SAFETY: the pointer is live for the call.
        Refusal::outcome(unsafe { ffi::abr_set_level(self.raw(), level) })
    }

    /// Makes a backward RM cell with BN 1 on a connection, for a receiver that is
    /// congested while no forward cell arrives. It waits beside the turned cell
    /// and is sent after it, as a cell of kind [`crate::Kind::Turned`]. It replaces an
    /// earlier made cell that still waits. Its marks are those of the level now.
    /// Answers the comparisons.
    ///
    /// # Errors
    /// In this order: [`Refusal::Time`], [`Refusal::NotOpen`],
    /// [`Refusal::TimeBackward`], [`Refusal::NotCongested`] at level 0,
    /// [`Refusal::MadeTooSoon`] less than [`MAKE_INTERVAL`] after the connection's
    /// last made cell.
    ///
    /// ```
    /// use abr::{Address, Cell, Kind, Params, Refusal, Rm, Table, CELL_OCTETS, MAKE_INTERVAL};
    /// let mut table = Table::new();
    /// let at = Address::new(1, 32);
    /// table.open(at, 0, &Params::house(0x53E8, 0x4000, 0x53E8))?;
    /// assert_eq!(table.make(at, 0), Err(Refusal::NotCongested));
    /// table.set_level(2)?;
    /// table.make(at, 0)?;
    /// assert_eq!(table.make(at, MAKE_INTERVAL - 1), Err(Refusal::MadeTooSoon));
    ///
    /// let mut cell = [0; CELL_OCTETS];
    /// let first = table.slot(0, &mut cell)?.expect("the made cell waits");
    /// assert_eq!(first.kind, Kind::Forward);
    /// let sent = table.slot(1_000_000, &mut cell)?.expect("the made cell waits");
    /// assert_eq!((sent.kind, sent.made), (Kind::Turned, true));
    /// let made = Rm { vpi: 1, vci: 32, backward: true, bn: true, ci: true, er: 0x53E8, ..Rm::default() };
    /// assert_eq!(abr::read(&cell)?, Cell::Rm(made));
    /// # Ok::<(), Refusal>(())
    /// ```
    pub fn make(&mut self, at: Address, time: u64) -> Result<u32, Refusal> {
        // SAFETY: the pointer is live for the call.
        comparisons(unsafe { ffi::abr_make(self.raw(), at.vpi, at.vci, time) })
    }

    /// Gives the slot at a time to the connection with the earliest ready
    /// instant, of several with the same one to that with the lowest VPI × 65,536 +
    /// VCI, if one is ready; one with an allowed rate of 0 never is. A forward,
    /// turned or made cell is written to the buffer. The data of a path is that of its
    /// members in turn. Answers which connection that is, its leaf, the kind of cell, and its
    /// allowed rate afterwards and before.
    ///
    /// # Errors
    /// In this order: [`Refusal::Length`], [`Refusal::Time`],
    /// [`Refusal::TimeBackward`].
    ///
    /// ```
    /// use abr::{Address, Kind, Params, Refusal, Rm, Sent, Table, CELL_OCTETS, COMPARISONS_MAX, TIME_MAX};
    /// let mut table = Table::new();
    /// let mut cell = [0; CELL_OCTETS];
    /// assert_eq!(table.slot(5, &mut cell), Ok(None));
    /// assert_eq!(table.slot(4, &mut cell), Err(Refusal::TimeBackward));
    /// assert_eq!(table.slot(TIME_MAX + 1, &mut cell), Err(Refusal::Time));
    ///
    /// let at = Address::new(1, 32);
    /// table.open(at, 5, &Params::house(0x53E8, 0x4000, 0x4600))?; // it starts with 8 cells a second
    /// abr::write_rm(&Rm { vpi: 1, vci: 32, backward: true, er: 0x7FFF, ..Rm::default() }, &mut cell)?;
    /// assert_eq!(table.receive(&cell)?.acr, 36_096); // a sixteenth of the peak more
    /// table.offer(at, 1)?;
    /// let sent = Sent {
    ///     vpi: 1,
    ///     vci: 32,
    ///     leaf: 0,
    ///     kind: Kind::Forward,
    ///     made: false,
    ///     acr: 4_096,
    ///     acr_before: 36_096, // the first cell brings it down to the initial rate
    ///     comparisons: COMPARISONS_MAX,
    /// };
    /// assert_eq!(table.slot(5, &mut cell), Ok(Some(sent)));
    /// # Ok::<(), Refusal>(())
    /// ```
    pub fn slot(&mut self, time: u64, cell: &mut [u8]) -> Result<Option<Sent>, Refusal> {
        // SAFETY: the pointers are live and the length is the buffer's own.
        let sent = unsafe { ffi::abr_slot(self.raw(), time, cell.as_mut_ptr(), cell.len()) };
        Refusal::outcome(sent.refusal)?;
        Ok(sent.into())
    }

    /// The earliest ready instant of all open connections; none if no connection is ever
    /// ready as things stand. An accepted slot is idle exactly when its time is before it.
    /// It may have passed already, and may be after [`TIME_MAX`]. An accepted offer, received
    /// RM cell, made cell, close or removal of a member, and a slot that sends may change it;
    /// no other call does.
    ///
    /// ```
    /// use abr::{Address, Params, Table, CELL_OCTETS};
    /// let mut table = Table::new();
    /// let at = Address::new(1, 32);
    /// table.open(at, 5, &Params::house(0x53E8, 0x4000, 0x53E8))?;
    /// assert_eq!(table.next_ready(), None); // nothing waits
    /// table.offer(at, 2)?;
    /// assert_eq!(table.next_ready(), Some(5)); // its opening
    /// let mut cell = [0; CELL_OCTETS];
    /// assert!(table.slot(7, &mut cell)?.is_some());
    /// assert_eq!(table.next_ready(), Some(1_000_007)); // a thousand cells a second
    /// assert_eq!(table.slot(1_000_006, &mut cell), Ok(None));
    /// assert!(table.slot(1_000_007, &mut cell)?.is_some());
    /// # Ok::<(), abr::Refusal>(())
    /// ```
    pub fn next_ready(&self) -> Option<u64> {
        // SAFETY: the pointer is live for the call.
        instant(unsafe { ffi::abr_next_ready(self.raw_const()) })
    }

    /// The time to pass to [`Table::slot`] in a slot whose own time is `now`: the next ready
    /// instant if that has come, but not before the last accepted time, and at most `lag` behind
    /// `now`. So the next gap counts from the instant at which the cell was ready, and what the
    /// slot came late is not lost. `lag` is the tolerance that the policer on the line grants
    /// (CDVT); with 0 it is `now`. A slot at this time is idle exactly if one at `now` is. A `now`
    /// before the last accepted time comes back as it is, and a slot refuses it.
    ///
    /// ```
    /// use abr::{Address, Params, Refusal, Table, CELL_OCTETS};
    /// let mut table = Table::new();
    /// let at = Address::new(1, 32);
    /// table.open(at, 0, &Params::house(0x53E8, 0x4000, 0x53E8))?; // a gap of 1 ms
    /// table.offer(at, 2)?;
    /// let mut cell = [0; CELL_OCTETS];
    /// assert!(table.slot(0, &mut cell)?.is_some());
    /// assert_eq!(table.slot_time(700_000, 700_000), 700_000); // nothing is ready
    /// assert_eq!(table.slot_time(1_400_000, 700_000), 1_000_000);
    /// assert_eq!(table.slot_time(1_400_000, 300_000), 1_100_000); // at most 0.3 ms behind
    /// assert_eq!(table.slot_time(1_400_000, 0), 1_400_000);
    /// assert!(table.slot(table.slot_time(1_400_000, 700_000), &mut cell)?.is_some());
    /// assert_eq!(table.next_ready(), Some(2_000_000)); // and not 2,400,000
    /// assert_eq!(table.slot_time(999_999, 700_000), 999_999);
    /// assert_eq!(table.slot(999_999, &mut cell), Err(Refusal::TimeBackward));
    /// # Ok::<(), abr::Refusal>(())
    /// ```
    pub fn slot_time(&self, now: u64, lag: u64) -> u64 {
        // SAFETY: the pointer is live for the call.
        unsafe { ffi::abr_slot_time(self.raw_const(), now, lag) }
    }

    /// Writes an out-of-rate forward RM cell of a connection to the buffer, with
    /// CLP 1 and the allowed rate as it stands, for the caller to send beside the
    /// slots. A source whose allowed rate is 0 learns in this way when it may rise.
    /// Nothing that a slot looks at changes.
    ///
    /// # Errors
    /// In this order: [`Refusal::Length`], [`Refusal::Time`], [`Refusal::NotOpen`],
    /// [`Refusal::TimeBackward`], [`Refusal::OutOfRateTooSoon`] less than
    /// [`OUT_OF_RATE_INTERVAL`] after the connection's last such cell.
    ///
    /// ```
    /// use abr::{Address, Cell, Params, Refusal, Rm, Table, CELL_OCTETS, OUT_OF_RATE_INTERVAL};
    /// let mut table = Table::new();
    /// let at = Address::new(1, 32);
    /// table.open(at, 0, &Params::house(0x53E8, 0, 0))?; // no minimum, initial rate 0
    /// table.offer(at, 1)?;
    /// let mut cell = [0; CELL_OCTETS];
    /// assert_eq!(table.slot(0, &mut cell), Ok(None)); // never ready at rate 0
    ///
    /// table.out_of_rate(at, 0, &mut cell)?;
    /// let forward = Rm { vpi: 1, vci: 32, er: 0x53E8, ..Rm::default() };
    /// assert_eq!(abr::read(&cell)?, Cell::Rm(forward));
    /// assert_eq!(cell[3] & 1, 1); // CLP
    /// let again = table.out_of_rate(at, OUT_OF_RATE_INTERVAL - 1, &mut cell);
    /// assert_eq!(again, Err(Refusal::OutOfRateTooSoon));
    ///
    /// abr::write_rm(&Rm { backward: true, ..forward }, &mut cell)?; // its answer
    /// table.receive(&cell)?;
    /// assert_eq!(table.acr(at), Ok(32_000)); // a sixteenth of the peak
    /// assert!(table.slot(0, &mut cell)?.is_some());
    /// # Ok::<(), Refusal>(())
    /// ```
    pub fn out_of_rate(&mut self, at: Address, time: u64, cell: &mut [u8]) -> Result<(), Refusal> {
        let (octets, len) = (cell.as_mut_ptr(), cell.len());
        let (table, Address { vpi, vci }) = (self.raw(), at);
        // SAFETY: both pointers are live and the length is the buffer's own.
        Refusal::outcome(unsafe { ffi::abr_out_of_rate(table, vpi, vci, time, octets, len) })
    }

    /// The allowed rate of a connection, and the change that its last accepted backward
    /// cell made. Moves before a forward cell leave that change.
    ///
    /// # Errors
    /// [`Refusal::NotOpen`].
    ///
    /// ```
    /// use abr::{Address, Allowed, Params, Rm, Table, CELL_OCTETS};
    /// let mut table = Table::new();
    /// let at = Address::new(1, 32);
    /// table.open(at, 0, &Params::house(0x53E8, 0x4000, 0x53E8))?;
    /// assert_eq!(table.allowed(at), Ok(Allowed { acr: 512_000, change: 0 }));
    /// let rm = Rm { vpi: 1, vci: 32, backward: true, ci: true, er: 0x7FFF, ..Rm::default() };
    /// let mut cell = [0; CELL_OCTETS];
    /// abr::write_rm(&rm, &mut cell)?;
    /// table.receive(&cell)?;
    /// assert_eq!(table.allowed(at), Ok(Allowed { acr: 480_000, change: -32_000 }));
    /// # Ok::<(), abr::Refusal>(())
    /// ```
    pub fn allowed(&self, at: Address) -> Result<Allowed, Refusal> {
        // SAFETY: the pointer is live for the call.
        let allowed = unsafe { ffi::abr_acr(self.raw_const(), at.vpi, at.vci) };
        Refusal::outcome(allowed.refusal)?;
        let ffi::abr_allowed { acr, change, .. } = allowed;
        Ok(Allowed { acr, change })
    }

    /// The allowed rate alone.
    ///
    /// # Errors
    /// [`Refusal::NotOpen`].
    ///
    /// ```
    /// use abr::{Address, Refusal, Table};
    /// assert_eq!(Table::new().acr(Address::new(1, 32)), Err(Refusal::NotOpen));
    /// ```
    pub fn acr(&self, at: Address) -> Result<u64, Refusal> {
        Ok(self.allowed(at)?.acr)
    }

    /// Everything of a channel, of a path, or of a member with its path.
    ///
    /// # Errors
    /// [`Refusal::NotOpen`] if the address is neither that of an open connection nor of a
    /// member.
    ///
    /// ```
    /// use abr::{Address, ConnectionKind, Params, Refusal, Table, CELL_OCTETS};
    /// let mut table = Table::new();
    /// // 100 cells before feedback, a round trip of 200 ms: no more than 500 cells a second.
    /// let params = Params { tbe: 100, frtt: 200_000, ..Params::house(0x53E8, 0x4000, 0x53E8) };
    /// table.open_path(3, 5, &params)?;
    /// let member = Address::new(3, 40);
    /// table.add_member(member)?;
    /// table.offer_member(member, 7)?;
    /// let path = table.status(Address::of_path(3))?;
    /// assert_eq!((path.kind, path.address()), (ConnectionKind::Path, Address::of_path(3)));
    /// assert_eq!((path.params, path.crm), (params, 4)); // 100 / 32, rounded up
    /// assert_eq!((path.icr_used, path.acr, path.change), (256_000, 256_000, 0));
    /// assert_eq!((path.opened, path.last_sent, path.ready), (5, None, Some(5)));
    ///
    /// let mut cell = [0; CELL_OCTETS];
    /// table.slot(7, &mut cell)?; // a forward cell
    /// table.slot(2_000_007, &mut cell)?; // data of the member
    /// let path = table.status(Address::of_path(3))?;
    /// assert_eq!((path.last_forward, path.last_sent), (Some(7), Some(2_000_007)));
    /// assert_eq!((path.k, path.unanswered, path.ready), (1, 1, Some(4_000_007)));
    /// assert_eq!((path.served, path.waiting), (40, 6));
    /// let read = table.status(member)?;
    /// assert_eq!((read.kind, read.address()), (ConnectionKind::Member, member));
    /// assert_eq!((read.leaf, read.acr, read.waiting), (path.leaf, path.acr, 6));
    /// assert_eq!(table.status(Address::new(3, 41)), Err(Refusal::NotOpen));
    /// # Ok::<(), Refusal>(())
    /// ```
    pub fn status(&self, at: Address) -> Result<Connection, Refusal> {
        // SAFETY: the pointer is live for the call.
        connection(unsafe { ffi::abr_status(self.raw_const(), at.vpi, at.vci) })
    }

    /// Everything of the connection in a leaf, a channel or a path.
    ///
    /// # Errors
    /// [`Refusal::NotOpen`] if no connection is open in that leaf, or it is not below
    /// [`CONNECTIONS_MAX`].
    ///
    /// ```
    /// use abr::{Address, Params, Refusal, Table, CONNECTIONS_MAX};
    /// let mut table = Table::new();
    /// let at = Address::new(1, 32);
    /// let leaf = table.open(at, 0, &Params::house(0x53E8, 0x4000, 0x53E8))?.leaf;
    /// assert_eq!(table.at(leaf), table.status(at));
    /// assert_eq!(table.at(leaf)?.address(), at);
    /// assert_eq!(table.at(leaf + 1), Err(Refusal::NotOpen));
    /// assert_eq!(table.at(CONNECTIONS_MAX as u32), Err(Refusal::NotOpen));
    /// # Ok::<(), Refusal>(())
    /// ```
    pub fn at(&self, leaf: u32) -> Result<Connection, Refusal> {
        // SAFETY: the pointer is live for the call.
        connection(unsafe { ffi::abr_at(self.raw_const(), leaf) })
    }

    /// All open connections, channels and paths, in the order of their leaves.
    ///
    /// ```
    /// use abr::{Address, Params, Table};
    /// let mut table = Table::new();
    /// let params = Params::house(0x53E8, 0x4000, 0x53E8);
    /// let [first, second, third] = [32, 33, 34].map(|vci| Address::new(1, vci));
    /// for at in [third, first, second] {
    ///     table.open(at, 0, &params)?;
    /// }
    /// table.close(first)?;
    /// let open: Vec<Address> = table.connections().map(|open| open.address()).collect();
    /// assert_eq!(open, [third, second]);
    /// # Ok::<(), abr::Refusal>(())
    /// ```
    pub fn connections(&self) -> impl Iterator<Item = Connection> + '_ {
        let open = (0..CONNECTIONS_MAX as u32).filter_map(|leaf| self.at(leaf).ok());
        open.take(self.link().connections as usize) // none is behind the last
    }

    /// The member with this number, counted from 0 in ascending order of VPI and VCI over all
    /// paths. A member's number changes as others are added and removed.
    ///
    /// # Errors
    /// [`Refusal::NotOpen`] if there are not so many.
    ///
    /// ```
    /// use abr::{Address, Member, Params, Refusal, Table};
    /// let mut table = Table::new();
    /// table.open_path(3, 0, &Params::house(0x53E8, 0x4000, 0x53E8))?;
    /// table.add_member(Address::new(3, 40))?;
    /// table.offer_member(Address::new(3, 40), 7)?;
    /// assert_eq!(table.member_at(0), Ok(Member { vpi: 3, vci: 40, waiting: 7 }));
    /// table.add_member(Address::new(3, 39))?;
    /// assert_eq!(table.member_at(0), Ok(Member { vpi: 3, vci: 39, waiting: 0 }));
    /// assert_eq!(table.member_at(2), Err(Refusal::NotOpen));
    /// # Ok::<(), Refusal>(())
    /// ```
    pub fn member_at(&self, number: u32) -> Result<Member, Refusal> {
        // SAFETY: the pointer is live for the call.
        let member = unsafe { ffi::abr_member_at(self.raw_const(), number) };
        Refusal::outcome(member.refusal)?;
        let ffi::abr_member {
            vpi, vci, waiting, ..
        } = member;
        Ok(Member { vpi, vci, waiting })
    }

    /// The members of all paths in ascending order of VPI and VCI.
    ///
    /// ```
    /// use abr::{Address, Params, Table};
    /// let mut table = Table::new();
    /// let members = [Address::new(3, 50), Address::new(7, 40), Address::new(3, 40)];
    /// for vpi in [7, 3] {
    ///     table.open_path(vpi, 0, &Params::house(0x53E8, 0x4000, 0x53E8))?;
    /// }
    /// for member in members {
    ///     table.add_member(member)?;
    /// }
    /// let listed: Vec<Address> = table.members().map(|member| member.address()).collect();
    /// assert_eq!(listed, [members[2], members[0], members[1]]);
    /// # Ok::<(), abr::Refusal>(())
    /// ```
    pub fn members(&self) -> impl Iterator<Item = Member> + '_ {
        (0..MEMBERS_MAX as u32).map_while(|number| self.member_at(number).ok())
    }

    /// What belongs to no single connection: how many connections and members there are, the
    /// congestion level and the last accepted time.
    ///
    /// ```
    /// use abr::{Address, Params, Table, Totals, CONNECTIONS_MAX};
    /// let mut table = Table::new();
    /// let connections_max = CONNECTIONS_MAX as u32;
    /// let empty = Totals { connections: 0, connections_max, members: 0, level: 0, last: 0 };
    /// assert_eq!(table.link(), empty);
    /// let params = Params::house(0x53E8, 0x4000, 0x53E8);
    /// table.open(Address::new(1, 32), 5, &params)?;
    /// table.open_path(3, 9, &params)?;
    /// table.add_member(Address::new(3, 40))?;
    /// table.set_level(2)?;
    /// assert_eq!(table.link(), Totals { connections: 2, members: 1, level: 2, last: 9, ..empty });
    /// # Ok::<(), abr::Refusal>(())
    /// ```
    pub fn link(&self) -> Totals {
        // SAFETY: the pointer is live for the call.
        unsafe { ffi::abr_link(self.raw_const()) }
    }

    /// The peak, minimum and initial rate of a connection as doubles in cells per
    /// second, exactly the rates of the codes that its open gave, the initial one too.
    ///
    /// # Errors
    /// [`Refusal::NotOpen`].
    ///
    /// ```
    /// use abr::{Address, Contract, Imported, Params, Table};
    /// let mut table = Table::new();
    /// let at = Address::new(1, 32);
    /// table.open(at, 0, &Params::house(0x53E8, 0, 0x4001))?;
    /// let contract = table.export(at)?;
    /// assert_eq!(contract, Contract { pcr: 1_000.0, mcr: 0.0, icr: 1.001953125 });
    /// assert_eq!(abr::import(contract.icr)?, Imported::Exact(0x4001));
    /// # Ok::<(), abr::Refusal>(())
    /// ```
    pub fn export(&self, at: Address) -> Result<Contract, Refusal> {
        let mut refusal = 0;
        // SAFETY: both pointers are live for the call.
        let contract = unsafe { ffi::abr_export(self.raw_const(), at.vpi, at.vci, &mut refusal) };
        Refusal::outcome(refusal)?;
        Ok(contract)
    }
}

/// What an accepted open answers.
fn opened(answer: ffi::abr_opened) -> Result<Opened, Refusal> {
    Refusal::outcome(answer.refusal)?;
    Ok(Opened {
        leaf: answer.leaf,
        comparisons: answer.comparisons,
    })
}

/// The connection of an accepted reading.
fn connection(read: ffi::abr_connection) -> Result<Connection, Refusal> {
    Refusal::outcome(read.refusal)?;
    Ok(read.into())
}

/// The comparisons of an accepted call.
fn comparisons(answer: ffi::abr_answer) -> Result<u32, Refusal> {
    Refusal::outcome(answer.refusal)?;
    Ok(answer.comparisons)
}

/// What an accepted close answers.
fn closed(answer: ffi::abr_closed) -> Result<Closed, Refusal> {
    Refusal::outcome(answer.refusal)?;
    Ok(Closed {
        cells: answer.cells,
        comparisons: answer.comparisons,
    })
}

impl Default for Table {
    fn default() -> Self {
        Table::new()
    }
}

impl fmt::Debug for Table {
    fn fmt(&self, f: &mut fmt::Formatter<'_>) -> fmt::Result {
        f.debug_struct("Table").finish_non_exhaustive()
    }
}
