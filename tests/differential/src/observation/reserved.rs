//! The reserved bit of a rate code (document 02, L7): what is refused because of it, and
//! what is not.

use abr::ffi::abr_params;
use abr_convert::reference_params;
use abr_reference::rate::is_reserved;
use abr_reference::Refusal;

use super::Observation;
use crate::call::Call;
use crate::coverage::{Coverage, Event};
use crate::octets::code_at;

/// The code of bit 14 alone, one cell per second.
const NZ_ALONE: u32 = 0x4000;

impl Observation {
    /// A call was refused: it may have the reserved bit in a rate code.
    pub(super) fn refused_reserved(&self, call: &Call, refusal: Refusal, coverage: &mut Coverage) {
        let Some(codes) = codes(call) else {
            return;
        };
        let has = codes.map(is_reserved);
        if refusal == Refusal::ReservedBit {
            coverage.count_reserved(call, has);
        }
        let any = has.contains(&true);
        match *call {
            Call::Receive { .. } => {
                let open = call
                    .address()
                    .is_some_and(|at| self.connections.contains_key(&at));
                coverage.reach(
                    Event::ReservedUnknown,
                    refusal == Refusal::ReservedBit && !open,
                );
                coverage.reach(Event::ReservedCrc, refusal == Refusal::Crc && any);
                coverage.reach(Event::ReservedProtocol, refusal == Refusal::Protocol && any);
            }
            Call::Open { at, params, .. } => {
                let out_of_range = !at.fits() || cleared(params).check().is_err();
                coverage.reach(Event::ReservedLowVci, refusal == Refusal::LowVci && any);
                coverage.reach(
                    Event::ReservedBesideRange,
                    refusal == Refusal::ReservedBit && out_of_range,
                );
                refused_wide(codes, refusal, coverage);
            }
            _ => {}
        }
    }
}

/// An open was refused: a code of more than 16 bits stood beside one with the bit, or had the bit itself.
fn refused_wide(codes: [u32; 3], refusal: Refusal, coverage: &mut Coverage) {
    let wide = |code: &u32| *code > 0xFFFF;
    let bit_15 = |code: &u32| wide(code) && code & 0x8000 != 0;
    coverage.reach(
        Event::ReservedBesideWide,
        refusal == Refusal::ReservedBit && codes.iter().any(wide),
    );
    coverage.reach(
        Event::WideReserved,
        refusal == Refusal::Range && codes.iter().any(bit_15),
    );
}

/// A call was accepted: no rate code of it has the bit, but a code may be of bit 14
/// alone, and a data cell may have it in the octets where an RM cell has codes.
pub(super) fn accepted(call: &Call, coverage: &mut Coverage) {
    let nz = codes(call).is_some_and(|codes| codes.contains(&NZ_ALONE));
    match call {
        Call::Open { .. } => coverage.reach(Event::NzOpened, nz),
        Call::Receive { cell } if is_rm(cell.as_slice()) => coverage.reach(Event::NzReceived, nz),
        Call::Receive { cell } => {
            let octets = cell.as_slice();
            let like = [7, 9, 11].iter().any(|place| octets[*place] & 0x80 != 0);
            coverage.reach(Event::ReservedData, like);
        }
        _ => {}
    }
}

/// The three rate codes of an open, or of a cell that is received or read or passes a port,
/// in the order of their places, whatever else the cell is.
fn codes(call: &Call) -> Option<[u32; 3]> {
    match call {
        Call::Open { params, .. } | Call::OpenPath { params, .. } => {
            Some([params.pcr, params.mcr, params.icr])
        }
        Call::Receive { cell }
        | Call::Read { cell }
        | Call::Limit { cell, .. }
        | Call::Port { cell, .. } => {
            let octets = cell.as_slice().get(7..13)?;
            Some([0, 2, 4].map(|place| code_at(octets, place)))
        }
        _ => None,
    }
}

/// Whether a cell is an RM cell.
fn is_rm(cell: &[u8]) -> bool {
    cell[3] >> 1 & 7 == 6
}

/// The parameters, for the reference, without the bit in any code of 16 bits.
fn cleared(params: abr_params) -> abr_reference::Params {
    let clear = |code: u32| {
        if is_reserved(code) {
            code & 0x7FFF
        } else {
            code
        }
    };
    let given = reference_params(&params);
    abr_reference::Params {
        pcr: clear(given.pcr),
        mcr: clear(given.mcr),
        icr: clear(given.icr),
        ..given
    }
}
