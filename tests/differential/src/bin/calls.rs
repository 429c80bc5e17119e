//! The calls of the differential lists, for a program of another processor to make again
//! (`tests/targets/replay.c`): `calls COUNT` writes at least so many to standard output, whole
//! lists, each compared with the reference while it is made.
//!
//! A call is the number of its sort and then its arguments, in the order of the C
//! interface; the number behind the last sort begins a list, with an empty table. Numbers are
//! written as in a trace. Octets and demands are their count and then themselves.

use std::io::{BufWriter, ErrorKind, Write};
use std::process::ExitCode;

use abr::ffi::{abr_params, abr_rm};
use abr_differential::call::{Call, SORTS};
use abr_differential::coverage::Coverage;
use abr_differential::drawn::Drawn;
use abr_differential::generate::Generator;
use abr_differential::lists::{self, List};
use abr_differential::trace::put;
use abr_reference::Address;

fn main() -> ExitCode {
    let Some(Ok(count)) = std::env::args().nth(1).map(|text| text.parse()) else {
        eprintln!("usage: calls COUNT");
        return ExitCode::from(2);
    };
    match write(count, BufWriter::new(std::io::stdout().lock())) {
        Ok(()) => ExitCode::SUCCESS,
        Err(error) => {
            eprintln!("{error}");
            ExitCode::FAILURE
        }
    }
}

/// Writes whole lists until they have so many calls.
fn write(count: u64, mut out: impl Write) -> Result<(), String> {
    let mut coverage = Coverage::default();
    let mut written = 0;
    for seed in lists::seed().. {
        if written >= count {
            break;
        }
        let profile = lists::profile_of(seed);
        let mut generator = Generator::new(seed, profile);
        let mut list = List::default();
        let mut record = Vec::new();
        put(&mut record, SORTS.len() as u64);
        for _ in 0..lists::length(profile) {
            let call = generator.next(&list.seen);
            encode(&call, &mut record);
            let _outcome = list.step(&call, &mut coverage)?;
            written += 1;
        }
        if let Err(error) = out.write_all(&record) {
            return match error.kind() {
                ErrorKind::BrokenPipe => Ok(()),
                _ => Err(error.to_string()),
            };
        }
    }
    out.flush().map_err(|error| error.to_string())
}

/// Appends a call.
fn encode(call: &Call, out: &mut Vec<u8>) {
    put(out, call.sort() as u64);
    match *call {
        Call::Open { at, time, params } => {
            numbers(&pair(at), out);
            put(out, time);
            numbers(&of_params(params), out);
        }
        Call::OpenPath { vpi, time, params } => {
            numbers(&[vpi.into(), time], out);
            numbers(&of_params(params), out);
        }
        Call::Close { at } | Call::Add { at } | Call::Remove { at } => numbers(&pair(at), out),
        Call::Acr { at } | Call::Export { at } => numbers(&pair(at), out),
        Call::Receive { cell } => octets(cell.as_slice(), out),
        Call::Offer { at, cells: number } | Call::OfferMember { at, cells: number } => {
            numbers(&pair(at), out);
            put(out, number);
        }
        Call::Make { at, time } => {
            numbers(&pair(at), out);
            put(out, time);
        }
        Call::SetLevel { level } => put(out, level.into()),
        Call::Slot { time, len } => numbers(&[time, len as u64], out),
        Call::OutOfRate { at, time, len } => {
            numbers(&pair(at), out);
            numbers(&[time, len as u64], out);
        }
        _ => encode_without_table(call, out),
    }
}

/// Appends the arguments of a call that is given no table.
fn encode_without_table(call: &Call, out: &mut Vec<u8>) {
    match *call {
        Call::Read { cell } => octets(cell.as_slice(), out),
        Call::WriteRm { rm, len } => {
            numbers(&of_rm(rm), out);
            put(out, len as u64);
        }
        Call::Code { rate } => put(out, rate),
        Call::Rate { code } => put(out, code.into()),
        Call::Import { bits } => put(out, bits),
        Call::FairShare { capacity, demands } => {
            put(out, capacity);
            counted(&demands.list(), out);
        }
        Call::Limit { rate, cell } => {
            put(out, rate);
            octets(cell.as_slice(), out);
        }
        Call::Port {
            capacity,
            demands,
            cell,
        } => {
            put(out, capacity);
            counted(&demands.list(), out);
            octets(cell.as_slice(), out);
        }
        Call::Judge { trace } => octets(&Drawn::new(trace).octets, out),
        Call::House { pcr, mcr, icr } => numbers(&[pcr.into(), mcr.into(), icr.into()], out),
        _ => unreachable!("{call:?} is given a table"),
    }
}

fn numbers(list: &[u64], out: &mut Vec<u8>) {
    list.iter().for_each(|number| put(out, *number));
}

fn counted(list: &[u64], out: &mut Vec<u8>) {
    put(out, list.len() as u64);
    numbers(list, out);
}

fn octets(list: &[u8], out: &mut Vec<u8>) {
    put(out, list.len() as u64);
    out.extend_from_slice(list);
}

fn pair(at: Address) -> [u64; 2] {
    [at.vpi.into(), at.vci.into()]
}

fn of_params(p: abr_params) -> [u64; 11] {
    [
        p.pcr, p.mcr, p.icr, p.n, p.r, p.d, p.c, p.tbe, p.frtt, p.adtf, p.trm,
    ]
    .map(u64::from)
}

fn of_rm(m: abr_rm) -> [u64; 12] {
    [
        m.vpi, m.vci, m.dir, m.bn, m.ci, m.ni, m.ra, m.er, m.ccr, m.mcr, m.ql, m.sn,
    ]
    .map(u64::from)
}
