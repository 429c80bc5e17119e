//! A call of the library, over the C interface.

use std::fmt::Debug;

use abr::ffi::{
    self, abr_allowed, abr_answer, abr_cell, abr_closed, abr_coded, abr_connection, abr_imported,
    abr_member, abr_opened, abr_rated, abr_received, abr_sent, abr_share, abr_table, abr_totals,
    abr_verdict,
};
use abr_reference::{Address, Allowed, Closed, Opened, Refusal};

use crate::call::{Answer, Call, Outcome};
use crate::drawn::Drawn;
use crate::octets::Buffer;

/// What is wrong, in words.
pub type Difference = String;

/// A table of the library.
#[derive(PartialEq, Eq)]
pub struct Library {
    table: Box<abr_table>,
}

impl Default for Library {
    fn default() -> Self {
        let words = [0; ffi::ABR_TABLE_WORDS];
        Library {
            table: Box::new(abr_table { words }),
        }
    }
}

impl Library {
    /// Takes over the words of another table.
    pub fn copy(&mut self, other: &Library) {
        *self.table = *other.table;
    }

    /// Makes a call. A field that is not 0 beside a refusal is a difference.
    pub fn call(&mut self, call: &Call, buffer: &mut Buffer) -> Result<Outcome, Difference> {
        let table: *mut abr_table = &mut *self.table;
        Ok(match *call {
            Call::Open { at, time, params } => {
                // SAFETY: the pointer is live for the call.
                answered(unsafe { ffi::abr_open(table, at.vpi, at.vci, time, params) })?
            }
            // SAFETY: the pointer is live for the call.
            Call::Close { at } => answered(unsafe { ffi::abr_close(table, at.vpi, at.vci) })?,
            Call::Offer { at, cells } => {
                // SAFETY: the pointer is live for the call.
                answered(unsafe { ffi::abr_offer(table, at.vpi, at.vci, cells) })?
            }
            // SAFETY: the pointer is live for the call.
            Call::SetLevel { level } => done(unsafe { ffi::abr_set_level(table, level) })?,
            Call::Make { at, time } => {
                // SAFETY: the pointer is live for the call.
                answered(unsafe { ffi::abr_make(table, at.vpi, at.vci, time) })?
            }
            Call::Receive { .. } | Call::Slot { .. } | Call::OutOfRate { .. } => {
                self.with_octets(call, buffer)?
            }
            Call::OpenPath { .. }
            | Call::Add { .. }
            | Call::OfferMember { .. }
            | Call::Remove { .. } => self.of_path(call)?,
            Call::Acr { at } => self.acr(at)?,
            Call::Export { at } => self.export(at)?,
            _ => without_table(call, buffer)?,
        })
    }

    /// Makes a call on the table that reads a cell or writes one.
    fn with_octets(&mut self, call: &Call, buffer: &mut Buffer) -> Result<Outcome, Difference> {
        let table: *mut abr_table = &mut *self.table;
        match *call {
            Call::Receive { cell } => {
                let octets = cell.as_slice();
                // SAFETY: both pointers are live and the length is the cell's own.
                answered(unsafe { ffi::abr_receive(table, octets.as_ptr(), octets.len()) })
            }
            Call::Slot { time, len } => {
                let octets = buffer.octets(len).as_mut_ptr();
                // SAFETY: both pointers are live and the buffer has this length.
                answered(unsafe { ffi::abr_slot(table, time, octets, len) })
            }
            Call::OutOfRate { at, time, len } => {
                let (vpi, vci) = (at.vpi, at.vci);
                let octets = buffer.octets(len).as_mut_ptr();
                // SAFETY: both pointers are live and the buffer has this length.
                done(unsafe { ffi::abr_out_of_rate(table, vpi, vci, time, octets, len) })
            }
            _ => Err("a call without octets".to_owned()),
        }
    }

    /// Makes a call on a path or a member.
    fn of_path(&mut self, call: &Call) -> Result<Outcome, Difference> {
        let table: *mut abr_table = &mut *self.table;
        match *call {
            Call::OpenPath { vpi, time, params } => {
                // SAFETY: the pointer is live for the call.
                answered(unsafe { ffi::abr_open_path(table, vpi, time, params) })
            }
            // SAFETY: the pointer is live for the call.
            Call::Add { at } => answered(unsafe { ffi::abr_add_member(table, at.vpi, at.vci) }),
            Call::OfferMember { at, cells } => {
                // SAFETY: the pointer is live for the call.
                answered(unsafe { ffi::abr_offer_member(table, at.vpi, at.vci, cells) })
            }
            Call::Remove { at } => {
                // SAFETY: the pointer is live for the call.
                answered(unsafe { ffi::abr_remove_member(table, at.vpi, at.vci) })
            }
            _ => Err("a call on neither".to_owned()),
        }
    }

    /// The allowed rate of an address, open or not, and its last change.
    pub fn acr(&self, at: Address) -> Result<Outcome, Difference> {
        // SAFETY: the pointer is live for the call.
        answered(unsafe { ffi::abr_acr(&*self.table, at.vpi, at.vci) })
    }

    /// Everything of a pair, which may be unknown.
    pub fn status(&self, at: Address) -> Result<Result<abr_connection, Refusal>, Difference> {
        // SAFETY: the pointer is live for the call.
        answered(unsafe { ffi::abr_status(&*self.table, at.vpi, at.vci) })
    }

    /// Everything of the connection in a leaf, which may be free.
    pub fn at(&self, leaf: u32) -> Result<Result<abr_connection, Refusal>, Difference> {
        // SAFETY: the pointer is live for the call.
        answered(unsafe { ffi::abr_at(&*self.table, leaf) })
    }

    /// The member with a number, if there are so many.
    pub fn member_at(&self, number: u32) -> Result<Result<abr_member, Refusal>, Difference> {
        // SAFETY: the pointer is live for the call.
        answered(unsafe { ffi::abr_member_at(&*self.table, number) })
    }

    /// What belongs to no single connection.
    pub fn link(&self) -> abr_totals {
        // SAFETY: the pointer is live for the call.
        unsafe { ffi::abr_link(&*self.table) }
    }

    /// The earliest ready instant; none if no connection is ever ready.
    pub fn next(&self) -> Option<u64> {
        // SAFETY: the pointer is live for the call.
        let next = unsafe { ffi::abr_next_ready(&*self.table) };
        (next != ffi::ABR_NEVER).then_some(next)
    }

    /// The time to be passed to a slot at `now` with this tolerance.
    pub fn slot_time(&self, now: u64, lag: u64) -> u64 {
        // SAFETY: the pointer is live for the call.
        unsafe { ffi::abr_slot_time(&*self.table, now, lag) }
    }

    /// Whether a slot at this time would be accepted, and be idle. It changes the table.
    pub fn is_idle(&mut self, time: u64) -> Result<bool, Difference> {
        let len = abr::CELL_OCTETS;
        match self.call(&Call::Slot { time, len }, &mut Buffer::new(0))? {
            Ok(Answer::Sent(sent)) => Ok(sent.kind == 0),
            other => Err(format!("a slot at {time}: {other:?}")),
        }
    }

    /// The contract of an address, open or not. The refusal is written in every case.
    fn export(&self, at: Address) -> Result<Outcome, Difference> {
        let mut refusal = u32::MAX;
        // SAFETY: both pointers are live for the call.
        let contract = unsafe { ffi::abr_export(&*self.table, at.vpi, at.vci, &mut refusal) };
        let bits = [contract.pcr, contract.mcr, contract.icr].map(f64::to_bits);
        match refusal {
            0 => Ok(Ok(Answer::Exported(bits))),
            number if bits == [0; 3] => refused(number),
            number => Err(format!("refused {number}, with {bits:x?} beside it")),
        }
    }
}

/// Makes a call that is given no table.
fn without_table(call: &Call, buffer: &mut Buffer) -> Result<Outcome, Difference> {
    Ok(match *call {
        Call::WriteRm { rm, len } => {
            let octets = buffer.octets(len).as_mut_ptr();
            // SAFETY: the pointer is live and the buffer has this length.
            done(unsafe { ffi::abr_write_rm(rm, octets, len) })?
        }
        Call::Read { cell } => {
            let octets = cell.as_slice();
            // SAFETY: the pointer is live and the length is the cell's own.
            answered(unsafe { ffi::abr_read(octets.as_ptr(), octets.len()) })?
        }
        Call::FairShare { capacity, demands } => {
            let list = demands.list();
            // SAFETY: the pointer is live and the count is the list's own.
            answered(unsafe { ffi::abr_fair_share(capacity, list.as_ptr(), list.len()) })?
        }
        Call::Limit { rate, cell } => {
            let octets = buffer.cell(&cell);
            // SAFETY: the pointer is live and the length is the cell's own.
            done(unsafe { ffi::abr_limit(rate, octets.as_mut_ptr(), octets.len()) })?
        }
        Call::Port {
            capacity,
            demands,
            cell,
        } => port(capacity, &demands.list(), buffer.cell(&cell))?,
        Call::Judge { trace } => judge(&Drawn::new(trace).octets)?,
        _ => return without_pointer(call),
    })
}

/// Makes a call that is given numbers alone.
fn without_pointer(call: &Call) -> Result<Outcome, Difference> {
    match *call {
        // SAFETY: the call has no pointer.
        Call::Code { rate } => answered(unsafe { ffi::abr_code(rate) }),
        // SAFETY: the call has no pointer.
        Call::Rate { code } => answered(unsafe { ffi::abr_rate(code) }),
        // SAFETY: the call has no pointer.
        Call::Import { bits } => answered(unsafe { ffi::abr_import(f64::from_bits(bits)) }),
        Call::House { pcr, mcr, icr } => {
            // SAFETY: the call has no pointer.
            let params = unsafe { ffi::abr_house(pcr, mcr, icr) };
            Ok(Ok(Answer::Params(params)))
        }
        _ => Err("a call that is given a pointer".to_owned()),
    }
}

/// A cell at a port.
fn port(capacity: u64, demands: &[u64], cell: &mut [u8]) -> Result<Outcome, Difference> {
    let (rates, count) = (demands.as_ptr(), demands.len());
    let (octets, len) = (cell.as_mut_ptr(), cell.len());
    // SAFETY: both pointers are live, with the count and the length of their memory.
    done(unsafe { ffi::abr_port(capacity, rates, count, octets, len) })
}

/// A trace judged.
pub fn judge(trace: &[u8]) -> Result<Outcome, Difference> {
    // SAFETY: the pointer is live and the length is the slice's own.
    answered(unsafe { ffi::abr_judge(trace.as_ptr(), trace.len()) })
}

/// The outcome of a call that answers nothing but its refusal.
fn done(refusal: u32) -> Result<Outcome, Difference> {
    match refusal {
        0 => Ok(Ok(Answer::Done)),
        number => refused(number),
    }
}

/// The outcome of a refused call, whose number is that of a refusal.
fn refused<T>(number: u32) -> Result<Result<T, Refusal>, Difference> {
    let refusal = Refusal::try_from(number);
    refusal.map(Err).map_err(|other| format!("refused {other}"))
}

/// An answer with other fields beside the refusal.
trait Answered: Copy + Default + Debug {
    /// What is compared of it.
    type Answer: PartialEq;

    fn refusal(&mut self) -> &mut u32;
    fn reserved(&self) -> u32;
    fn answer(self) -> Self::Answer;
}

/// The outcome of such an answer, whose other fields are 0 if it is a refusal. A reserved one is
/// 0 in any case.
fn answered<T: Answered>(mut answer: T) -> Result<Result<T::Answer, Refusal>, Difference> {
    if answer.reserved() != 0 {
        return Err(format!("a reserved field is not 0: {answer:x?}"));
    }
    match std::mem::take(answer.refusal()) {
        0 => Ok(Ok(answer.answer())),
        number if answer.answer() == T::default().answer() => refused(number),
        number => Err(format!("refused {number}, with {answer:x?} beside it")),
    }
}

macro_rules! answers {
    ($($name:ident $($reserved:ident)? => $type:ty: $answer:expr;)*) => {
        $(impl Answered for $name {
            type Answer = $type;

            fn refusal(&mut self) -> &mut u32 {
                &mut self.refusal
            }

            fn reserved(&self) -> u32 {
                0 $(| self.$reserved)?
            }

            fn answer(self) -> $type {
                $answer(self)
            }
        })*
    };
}

answers! {
    abr_answer => Answer: |answer: abr_answer| Answer::Comparisons(answer.comparisons);
    abr_opened => Answer: |opened: abr_opened| Answer::Opened(Opened {
        comparisons: opened.comparisons,
        leaf: opened.leaf,
    });
    abr_received => Answer: Answer::Received;
    abr_closed => Answer: |closed: abr_closed| Answer::Closed(Closed {
        cells: closed.cells,
        comparisons: closed.comparisons,
    });
    abr_sent reserved => Answer: Answer::Sent;
    abr_cell => Answer: Answer::Cell;
    abr_allowed reserved => Answer: |allowed: abr_allowed| Answer::Allowed(Allowed {
        acr: allowed.acr,
        change: allowed.change,
    });
    abr_connection reserved => abr_connection: std::convert::identity;
    abr_member => abr_member: std::convert::identity;
    abr_coded => Answer: |coded: abr_coded| Answer::Number(coded.code.into());
    abr_rated reserved => Answer: |rated: abr_rated| Answer::Number(rated.rate);
    abr_share => Answer: Answer::Share;
    abr_verdict => Answer: Answer::Verdict;
    abr_imported => Answer: |imported: abr_imported| Answer::Imported {
        code: imported.code,
        remainder: imported.remainder.to_bits(),
    };
}
