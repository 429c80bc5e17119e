//! The C interface as `include/abr.h` declares it. Calls with a pointer are
//! `unsafe` because of it, the others only because they are foreign.

#![allow(non_camel_case_types, missing_docs)]

use crate::CONNECTIONS_MAX;

/// The version of the header: major, minor and patch number, eight bits each.
pub const ABR_VERSION: u32 = 0x01_00_00;

/// A word has bits for 64 connections.
const GROUPS: usize = CONNECTIONS_MAX.div_ceil(64);

/// The words of a table: a header with a bit for each connection and samples of the directory of names, 27 words for
/// each connection, and the members of paths.
pub const ABR_TABLE_WORDS: usize =
    (2 * GROUPS + 17) / 16 * 16 + 8 * GROUPS + 27 * CONNECTIONS_MAX + 256;

/// An instant that does not come, or that never was.
pub const ABR_NEVER: u64 = u64::MAX;

/// What a slot sends.
pub const ABR_SENT_IDLE: u32 = 0;
pub const ABR_SENT_FORWARD: u32 = 1;
pub const ABR_SENT_TURNED: u32 = 2;
pub const ABR_SENT_DATA: u32 = 3;

/// What was received.
pub const ABR_RECEIVED_FORWARD: u32 = 1;
pub const ABR_RECEIVED_BACKWARD: u32 = 2;
pub const ABR_RECEIVED_DATA: u32 = 3;

/// What a pair stands for.
pub const ABR_CHANNEL: u32 = 1;
pub const ABR_PATH: u32 = 2;
pub const ABR_MEMBER: u32 = 3;

/// What a cell is.
pub const ABR_CELL_DATA: u32 = 1;
pub const ABR_CELL_RM: u32 = 2;

/// The state of an engine; all zero when empty.
#[repr(C)]
#[derive(Clone, Copy, PartialEq, Eq)]
pub struct abr_table {
    pub words: [u64; ABR_TABLE_WORDS],
}

/// The parameters of an open.
pub use crate::Params as abr_params;

/// The fields of an RM cell.
#[repr(C)]
#[derive(Debug, Clone, Copy, PartialEq, Eq, Default)]
pub struct abr_rm {
    pub vpi: u32,
    pub vci: u32,
    pub dir: u32,
    pub bn: u32,
    pub ci: u32,
    pub ni: u32,
    pub ra: u32,
    pub er: u32,
    pub ccr: u32,
    pub mcr: u32,
    pub ql: u32,
    pub sn: u32,
}

/// The answer of an open.
#[repr(C)]
#[derive(Debug, Clone, Copy, PartialEq, Eq, Default)]
pub struct abr_opened {
    pub refusal: u32,
    pub comparisons: u32,
    pub leaf: u32,
}

/// The answer of an offer and of a made cell, and of adding a member.
#[repr(C)]
#[derive(Debug, Clone, Copy, PartialEq, Eq, Default)]
pub struct abr_answer {
    pub refusal: u32,
    pub comparisons: u32,
}

/// The answer of a received cell.
#[repr(C)]
#[derive(Debug, Clone, Copy, PartialEq, Eq, Default)]
pub struct abr_received {
    pub refusal: u32,
    pub comparisons: u32,
    pub kind: u32,
    pub vpi: u32,
    pub vci: u32,
    pub leaf: u32,
    pub acr: u64,
}

/// The answer of a close and of removing a member.
#[repr(C)]
#[derive(Debug, Clone, Copy, PartialEq, Eq, Default)]
pub struct abr_closed {
    pub refusal: u32,
    pub comparisons: u32,
    pub cells: u64,
}

/// The answer of a slot.
#[repr(C)]
#[derive(Debug, Clone, Copy, PartialEq, Eq, Default)]
pub struct abr_sent {
    pub refusal: u32,
    pub comparisons: u32,
    pub kind: u32,
    pub vpi: u32,
    pub vci: u32,
    pub leaf: u32,
    pub acr: u64,
    pub acr_before: u64,
    pub made: u32,
    pub reserved: u32,
}

/// The answer of `abr_acr`.
#[repr(C)]
#[derive(Debug, Clone, Copy, PartialEq, Eq, Default)]
pub struct abr_allowed {
    pub refusal: u32,
    pub reserved: u32,
    pub acr: u64,
    pub change: i64,
}

/// The answer of `abr_status` and of `abr_at`.
#[repr(C)]
#[derive(Debug, Clone, Copy, PartialEq, Eq, Default)]
pub struct abr_connection {
    pub refusal: u32,
    pub kind: u32,
    pub vpi: u32,
    pub vci: u32,
    pub leaf: u32,
    pub waiting: u32,
    pub params: abr_params,
    pub crm: u32,
    pub icr_used: u64,
    pub acr: u64,
    pub change: i64,
    pub opened: u64,
    pub last_sent: u64,
    pub last_forward: u64,
    pub ready: u64,
    pub last_made: u64,
    pub last_out_of_rate: u64,
    pub k: u32,
    pub unanswered: u32,
    pub backward_sent: u32,
    pub efci: u32,
    pub turned: u32,
    pub made_level: u32,
    pub served: u32,
    pub reserved: u32,
}

/// The answer of `abr_member_at`.
#[repr(C)]
#[derive(Debug, Clone, Copy, PartialEq, Eq, Default)]
pub struct abr_member {
    pub refusal: u32,
    pub vpi: u32,
    pub vci: u32,
    pub waiting: u32,
}

/// The answer of `abr_link`.
pub use crate::Totals as abr_totals;

/// The answer of `abr_read`.
#[repr(C)]
#[derive(Debug, Clone, Copy, PartialEq, Eq, Default)]
pub struct abr_cell {
    pub refusal: u32,
    pub kind: u32,
    pub efci: u32,
    pub rm: abr_rm,
}

/// The answer of `abr_code`.
#[repr(C)]
#[derive(Debug, Clone, Copy, PartialEq, Eq, Default)]
pub struct abr_coded {
    pub refusal: u32,
    pub code: u32,
}

/// The answer of `abr_rate`.
#[repr(C)]
#[derive(Debug, Clone, Copy, PartialEq, Eq, Default)]
pub struct abr_rated {
    pub refusal: u32,
    pub reserved: u32,
    pub rate: u64,
}

/// The answer of `abr_export`.
pub use crate::Contract as abr_contract;

/// The answer of `abr_import`.
#[repr(C)]
#[derive(Debug, Clone, Copy, PartialEq, Default)]
pub struct abr_imported {
    pub refusal: u32,
    pub code: u32,
    pub remainder: f64,
}

/// The answer of `abr_fair_share`.
#[repr(C)]
#[derive(Debug, Clone, Copy, PartialEq, Eq, Default)]
pub struct abr_share {
    pub refusal: u32,
    pub limited: u32,
    pub rate: u64,
}

/// The answer of `abr_judge`.
#[repr(C)]
#[derive(Debug, Clone, Copy, PartialEq, Eq, Default)]
pub struct abr_verdict {
    pub refusal: u32,
    pub rule: u32,
    pub cell: u64,
}

extern "C" {
    pub fn abr_version() -> u32;
    pub fn abr_table_words() -> u32;
    pub fn abr_open(
        table: *mut abr_table,
        vpi: u32,
        vci: u32,
        time: u64,
        params: abr_params,
    ) -> abr_opened;
    pub fn abr_close(table: *mut abr_table, vpi: u32, vci: u32) -> abr_closed;
    pub fn abr_open_path(
        table: *mut abr_table,
        vpi: u32,
        time: u64,
        params: abr_params,
    ) -> abr_opened;
    pub fn abr_add_member(table: *mut abr_table, vpi: u32, vci: u32) -> abr_answer;
    pub fn abr_offer_member(table: *mut abr_table, vpi: u32, vci: u32, cells: u64) -> abr_answer;
    pub fn abr_remove_member(table: *mut abr_table, vpi: u32, vci: u32) -> abr_closed;
    pub fn abr_receive(table: *mut abr_table, cell: *const u8, len: usize) -> abr_received;
    pub fn abr_offer(table: *mut abr_table, vpi: u32, vci: u32, cells: u64) -> abr_answer;
    pub fn abr_set_level(table: *mut abr_table, level: u32) -> u32;
    pub fn abr_make(table: *mut abr_table, vpi: u32, vci: u32, time: u64) -> abr_answer;
    pub fn abr_slot(table: *mut abr_table, time: u64, cell: *mut u8, len: usize) -> abr_sent;
    pub fn abr_next_ready(table: *const abr_table) -> u64;
    pub fn abr_slot_time(table: *const abr_table, now: u64, lag: u64) -> u64;
    pub fn abr_out_of_rate(
        table: *mut abr_table,
        vpi: u32,
        vci: u32,
        time: u64,
        cell: *mut u8,
        len: usize,
    ) -> u32;
    pub fn abr_acr(table: *const abr_table, vpi: u32, vci: u32) -> abr_allowed;
    pub fn abr_status(table: *const abr_table, vpi: u32, vci: u32) -> abr_connection;
    pub fn abr_at(table: *const abr_table, leaf: u32) -> abr_connection;
    pub fn abr_member_at(table: *const abr_table, number: u32) -> abr_member;
    pub fn abr_link(table: *const abr_table) -> abr_totals;
    pub fn abr_export(
        table: *const abr_table,
        vpi: u32,
        vci: u32,
        refusal: *mut u32,
    ) -> abr_contract;
    pub fn abr_write_rm(rm: abr_rm, cell: *mut u8, len: usize) -> u32;
    pub fn abr_read(cell: *const u8, len: usize) -> abr_cell;
    pub fn abr_code(rate: u64) -> abr_coded;
    pub fn abr_rate(code: u32) -> abr_rated;
    pub fn abr_import(cells_per_second: f64) -> abr_imported;
    pub fn abr_house(pcr: u32, mcr: u32, icr: u32) -> abr_params;
    pub fn abr_fair_share(capacity: u64, demands: *const u64, count: usize) -> abr_share;
    pub fn abr_limit(rate: u64, cell: *mut u8, len: usize) -> u32;
    pub fn abr_port(
        capacity: u64,
        demands: *const u64,
        count: usize,
        cell: *mut u8,
        len: usize,
    ) -> u32;
    pub fn abr_judge(trace: *const u8, len: usize) -> abr_verdict;
}

/// Whether these declarations and the linked archive belong together.
pub fn abr_matches() -> bool {
    // SAFETY: neither call has an argument.
    let (version, words) = unsafe { (abr_version(), abr_table_words()) };
    serves(version, ABR_VERSION) && words as usize == ABR_TABLE_WORDS
}

/// Whether an archive of a version serves who was compiled for another: the same major number, and
/// no earlier minor number.
pub const fn serves(archive: u32, declared: u32) -> bool {
    archive >> 16 == declared >> 16 && archive >> 8 >= declared >> 8
}
