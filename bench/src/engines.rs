//! Library and reference behind one trait, each called as directly as possible:
//! what a caller has in memory anyway is made before the measured loop.

use std::hint::black_box;

use abr::ffi;
use abr_reference::{Address, Params, Rm};

/// The octets of a cell.
pub type Octets = [u8; abr::CELL_OCTETS];

/// The calls of both sides. Answers go to the black box.
pub trait Engine {
    /// The parameters of an open, as this side takes them.
    type Params;
    /// The fields of an RM cell, as this side takes them.
    type Rm;

    fn params(params: &Params) -> Self::Params;
    fn rm(rm: &Rm) -> Self::Rm;

    /// An empty table.
    fn empty() -> Self;
    fn open(&mut self, at: Address, time: u64, params: &Self::Params);
    fn close(&mut self, at: Address);
    fn offer(&mut self, at: Address, cells: u64);
    fn open_path(&mut self, vpi: u32, time: u64, params: &Self::Params);
    fn add_member(&mut self, at: Address);
    fn offer_member(&mut self, at: Address, cells: u64);
    fn remove_member(&mut self, at: Address);
    fn receive(&mut self, cell: &Octets);
    fn slot(&mut self, time: u64, buffer: &mut Octets);
    fn set_level(&mut self, level: u32);
    fn make(&mut self, at: Address, time: u64);
    fn out_of_rate(&mut self, at: Address, time: u64, buffer: &mut Octets);
    fn acr(&self, at: Address);
    fn status(&self, at: Address);
    fn export(&self, at: Address);
    fn next_ready(&self);
    fn slot_time(&self, now: u64, lag: u64);

    fn write_rm(rm: &Self::Rm, buffer: &mut Octets);
    fn read(cell: &Octets);
    fn code(rate: u64);
    fn rate(code: u32);
    fn import(cells_per_second: f64);
    fn fair_share(capacity: u64, demands: &[u64]);
    fn limit(rate: u64, cell: &mut Octets);
    fn port(capacity: u64, demands: &[u64], cell: &mut Octets);
    fn judge(trace: &[u8]);
    /// The house set with one code for the three rates.
    fn house(code: u32);
}

/// The library over its C interface.
pub struct Library {
    pub table: Box<ffi::abr_table>,
}

impl Engine for Library {
    type Params = ffi::abr_params;
    type Rm = ffi::abr_rm;

    fn params(params: &Params) -> ffi::abr_params {
        abr_convert::library_params(params)
    }

    fn rm(rm: &Rm) -> ffi::abr_rm {
        abr_convert::library_rm(rm)
    }

    fn empty() -> Self {
        let words = [0; ffi::ABR_TABLE_WORDS];
        Library {
            table: Box::new(ffi::abr_table { words }),
        }
    }

    fn open(&mut self, at: Address, time: u64, params: &ffi::abr_params) {
        // SAFETY: the pointer is live for the call.
        black_box(unsafe { ffi::abr_open(&mut *self.table, at.vpi, at.vci, time, *params) });
    }

    fn close(&mut self, at: Address) {
        // SAFETY: the pointer is live for the call.
        black_box(unsafe { ffi::abr_close(&mut *self.table, at.vpi, at.vci) });
    }

    fn offer(&mut self, at: Address, cells: u64) {
        // SAFETY: the pointer is live for the call.
        black_box(unsafe { ffi::abr_offer(&mut *self.table, at.vpi, at.vci, cells) });
    }

    fn open_path(&mut self, vpi: u32, time: u64, params: &ffi::abr_params) {
        // SAFETY: the pointer is live for the call.
        black_box(unsafe { ffi::abr_open_path(&mut *self.table, vpi, time, *params) });
    }

    fn add_member(&mut self, at: Address) {
        // SAFETY: the pointer is live for the call.
        black_box(unsafe { ffi::abr_add_member(&mut *self.table, at.vpi, at.vci) });
    }

    fn offer_member(&mut self, at: Address, cells: u64) {
        // SAFETY: the pointer is live for the call.
        black_box(unsafe { ffi::abr_offer_member(&mut *self.table, at.vpi, at.vci, cells) });
    }

    fn remove_member(&mut self, at: Address) {
        // SAFETY: the pointer is live for the call.
        black_box(unsafe { ffi::abr_remove_member(&mut *self.table, at.vpi, at.vci) });
    }

    fn receive(&mut self, cell: &Octets) {
        // SAFETY: both pointers are live and the length is the cell's own.
        black_box(unsafe { ffi::abr_receive(&mut *self.table, cell.as_ptr(), cell.len()) });
    }

    fn slot(&mut self, time: u64, buffer: &mut Octets) {
        let (at, len) = (buffer.as_mut_ptr(), buffer.len());
        // SAFETY: both pointers are live and the length is the buffer's own.
        black_box(&unsafe { ffi::abr_slot(&mut *self.table, time, at, len) });
    }

    fn set_level(&mut self, level: u32) {
        // SAFETY: the pointer is live for the call.
        black_box(unsafe { ffi::abr_set_level(&mut *self.table, level) });
    }

    fn make(&mut self, at: Address, time: u64) {
        // SAFETY: the pointer is live for the call.
        black_box(unsafe { ffi::abr_make(&mut *self.table, at.vpi, at.vci, time) });
    }

    fn out_of_rate(&mut self, at: Address, time: u64, buffer: &mut Octets) {
        let (cell, len) = (buffer.as_mut_ptr(), buffer.len());
        let (vpi, vci) = (at.vpi, at.vci);
        // SAFETY: both pointers are live and the length is the buffer's own.
        black_box(unsafe { ffi::abr_out_of_rate(&mut *self.table, vpi, vci, time, cell, len) });
    }

    fn acr(&self, at: Address) {
        // SAFETY: the pointer is live for the call.
        black_box(&unsafe { ffi::abr_acr(&*self.table, at.vpi, at.vci) });
    }

    fn status(&self, at: Address) {
        // SAFETY: the pointer is live for the call.
        black_box(&unsafe { ffi::abr_status(&*self.table, at.vpi, at.vci) });
    }

    fn export(&self, at: Address) {
        let mut refusal = 0;
        // SAFETY: both pointers are live for the call.
        black_box(&unsafe { ffi::abr_export(&*self.table, at.vpi, at.vci, &mut refusal) });
        black_box(refusal);
    }

    fn next_ready(&self) {
        // SAFETY: the pointer is live for the call.
        black_box(unsafe { ffi::abr_next_ready(&*self.table) });
    }

    fn slot_time(&self, now: u64, lag: u64) {
        // SAFETY: the pointer is live for the call.
        black_box(unsafe { ffi::abr_slot_time(&*self.table, now, lag) });
    }

    fn write_rm(rm: &ffi::abr_rm, buffer: &mut Octets) {
        // SAFETY: the pointer is live and the length is the buffer's own.
        black_box(unsafe { ffi::abr_write_rm(*rm, buffer.as_mut_ptr(), buffer.len()) });
    }

    fn read(cell: &Octets) {
        // SAFETY: the pointer is live and the length is the cell's own.
        black_box(&unsafe { ffi::abr_read(cell.as_ptr(), cell.len()) });
    }

    fn code(rate: u64) {
        // SAFETY: the call has no pointer.
        black_box(&unsafe { ffi::abr_code(rate) });
    }

    fn rate(code: u32) {
        // SAFETY: the call has no pointer.
        black_box(&unsafe { ffi::abr_rate(code) });
    }

    fn import(cells_per_second: f64) {
        // SAFETY: the call has no pointer.
        black_box(&unsafe { ffi::abr_import(cells_per_second) });
    }

    fn fair_share(capacity: u64, demands: &[u64]) {
        // SAFETY: the pointer is live and the count is the slice's own.
        black_box(&unsafe { ffi::abr_fair_share(capacity, demands.as_ptr(), demands.len()) });
    }

    fn limit(rate: u64, cell: &mut Octets) {
        // SAFETY: the pointer is live and the length is the cell's own.
        black_box(unsafe { ffi::abr_limit(rate, cell.as_mut_ptr(), cell.len()) });
    }

    fn port(capacity: u64, demands: &[u64], cell: &mut Octets) {
        let (rates, count) = (demands.as_ptr(), demands.len());
        // SAFETY: both pointers are live, and count and length are those of the slices.
        black_box(unsafe { ffi::abr_port(capacity, rates, count, cell.as_mut_ptr(), cell.len()) });
    }

    fn judge(trace: &[u8]) {
        // SAFETY: the pointer is live and the length is the slice's own.
        black_box(&unsafe { ffi::abr_judge(trace.as_ptr(), trace.len()) });
    }

    fn house(code: u32) {
        // SAFETY: the call has no pointer.
        black_box(&unsafe { ffi::abr_house(code, code, code) });
    }
}

/// The reference. None of its calls is inlined into the loop that measures it,
/// since a call of the library cannot be.
pub struct Reference {
    pub engine: abr_reference::Engine,
}

impl Engine for Reference {
    type Params = Params;
    type Rm = Rm;

    fn params(params: &Params) -> Params {
        *params
    }

    fn rm(rm: &Rm) -> Rm {
        *rm
    }

    fn empty() -> Self {
        Reference {
            engine: abr_reference::Engine::new(),
        }
    }

    #[inline(never)]
    fn open(&mut self, at: Address, time: u64, params: &Params) {
        black_box(&self.engine.open(at, time, params));
    }

    #[inline(never)]
    fn close(&mut self, at: Address) {
        black_box(&self.engine.close(at));
    }

    #[inline(never)]
    fn offer(&mut self, at: Address, cells: u64) {
        black_box(&self.engine.offer(at, cells));
    }

    #[inline(never)]
    fn open_path(&mut self, vpi: u32, time: u64, params: &Params) {
        black_box(&self.engine.open_path(vpi, time, params));
    }

    #[inline(never)]
    fn add_member(&mut self, at: Address) {
        black_box(&self.engine.add_member(at));
    }

    #[inline(never)]
    fn offer_member(&mut self, at: Address, cells: u64) {
        black_box(&self.engine.offer_member(at, cells));
    }

    #[inline(never)]
    fn remove_member(&mut self, at: Address) {
        black_box(&self.engine.remove_member(at));
    }

    #[inline(never)]
    fn receive(&mut self, cell: &Octets) {
        black_box(&self.engine.receive(cell));
    }

    #[inline(never)]
    fn slot(&mut self, time: u64, buffer: &mut Octets) {
        black_box(&self.engine.slot(time, buffer));
    }

    #[inline(never)]
    fn set_level(&mut self, level: u32) {
        black_box(&self.engine.set_level(level));
    }

    #[inline(never)]
    fn make(&mut self, at: Address, time: u64) {
        black_box(&self.engine.make(at, time));
    }

    #[inline(never)]
    fn out_of_rate(&mut self, at: Address, time: u64, buffer: &mut Octets) {
        black_box(&self.engine.out_of_rate(at, time, buffer));
    }

    #[inline(never)]
    fn acr(&self, at: Address) {
        black_box(&self.engine.acr(at));
    }

    #[inline(never)]
    fn status(&self, at: Address) {
        black_box(&self.engine.status(at));
    }

    #[inline(never)]
    fn export(&self, at: Address) {
        black_box(&self.engine.export(at));
    }

    #[inline(never)]
    fn next_ready(&self) {
        black_box(&self.engine.next_ready());
    }

    #[inline(never)]
    fn slot_time(&self, now: u64, lag: u64) {
        black_box(self.engine.slot_time(now, lag));
    }

    #[inline(never)]
    fn write_rm(rm: &Rm, buffer: &mut Octets) {
        black_box(&abr_reference::write_rm(rm, buffer));
    }

    #[inline(never)]
    fn read(cell: &Octets) {
        black_box(&abr_reference::read(cell));
    }

    #[inline(never)]
    fn code(rate: u64) {
        black_box(&abr_reference::code_of(rate));
    }

    #[inline(never)]
    fn rate(code: u32) {
        black_box(&abr_reference::rate(code));
    }

    #[inline(never)]
    fn import(cells_per_second: f64) {
        black_box(&abr_reference::import(cells_per_second));
    }

    #[inline(never)]
    fn fair_share(capacity: u64, demands: &[u64]) {
        black_box(&abr_reference::fair_share(capacity, demands));
    }

    #[inline(never)]
    fn limit(rate: u64, cell: &mut Octets) {
        black_box(&abr_reference::limit(rate, cell));
    }

    #[inline(never)]
    fn port(capacity: u64, demands: &[u64], cell: &mut Octets) {
        black_box(&abr_reference::port::port(capacity, demands, cell));
    }

    #[inline(never)]
    fn judge(trace: &[u8]) {
        black_box(&abr_reference::judge::judge(trace));
    }

    #[inline(never)]
    fn house(code: u32) {
        black_box(&Params::house(code, code, code));
    }
}
