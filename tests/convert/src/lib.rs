//! The structs of the C interface and of the reference, converted into each
//! other.

use abr::ffi::{abr_cell, abr_params, abr_rm, abr_sent, abr_share, abr_verdict};
use abr::RATE_MAX;
use abr_reference::{Breach, Cell, Kind, Params, Rm, Sent};

/// A struct with these fields of another.
macro_rules! copied {
    ($to:ident, $from:expr, $($field:ident)*) => {
        $to { $($field: $from.$field,)* }
    };
}

macro_rules! copied_params {
    ($to:ident, $from:expr) => {
        copied!($to, $from, pcr mcr icr n r d c tbe frtt adtf trm)
    };
}

macro_rules! copied_rm {
    ($to:ident, $from:expr) => {
        copied!($to, $from, vpi vci dir bn ci ni ra er ccr mcr ql sn)
    };
}

/// The parameters of an open, for the reference.
pub fn reference_params(params: &abr_params) -> Params {
    copied_params!(Params, params)
}

/// The parameters of an open, for the library.
pub fn library_params(params: &Params) -> abr_params {
    copied_params!(abr_params, params)
}

/// The fields of an RM cell, for the reference.
pub fn reference_rm(rm: &abr_rm) -> Rm {
    copied_rm!(Rm, rm)
}

/// The fields of an RM cell, for the library.
pub fn library_rm(rm: &Rm) -> abr_rm {
    copied_rm!(abr_rm, rm)
}

/// The library's answer of an accepted slot.
pub fn library_sent(sent: Option<Sent>) -> abr_sent {
    let Some(sent) = sent else {
        return abr_sent::default();
    };
    let kind = match sent.kind {
        Kind::Forward => 1,
        Kind::Turned => 2,
        Kind::Data => 3,
    };
    abr_sent {
        refusal: 0,
        comparisons: sent.comparisons,
        kind,
        vpi: sent.vpi,
        vci: sent.vci,
        leaf: sent.leaf,
        acr: sent.acr,
        acr_before: sent.acr_before,
        made: sent.made.into(),
        reserved: 0,
    }
}

/// The library's answer of an accepted share; nothing is no limit, which the largest rate stands
/// for.
pub fn library_share(share: Option<u64>) -> abr_share {
    abr_share {
        refusal: 0,
        limited: share.is_some().into(),
        rate: share.unwrap_or(RATE_MAX),
    }
}

/// The library's answer of an accepted trace; nothing is a trace that passes.
pub fn library_verdict(breach: Option<Breach>) -> abr_verdict {
    let (rule, cell) = breach.map_or((0, 0), |breach| (breach.rule, breach.cell));
    abr_verdict {
        refusal: 0,
        rule,
        cell,
    }
}

/// The library's answer of an accepted read.
pub fn library_cell(cell: &Cell) -> abr_cell {
    let (kind, efci, rm) = match *cell {
        Cell::Data { vpi, vci, efci } => (
            1,
            efci.into(),
            Rm {
                vpi,
                vci,
                ..Rm::default()
            },
        ),
        Cell::Rm(rm) => (2, 0, rm),
    };
    abr_cell {
        refusal: 0,
        kind,
        efci,
        rm: library_rm(&rm),
    }
}
