//! Cells of 53 octets, written and read without a table.

use crate::ffi;
use crate::{Address, Refusal};

/// The octets of a cell.
pub const CELL_OCTETS: usize = 53;

/// The fields of an RM cell (the manual, section 8).
#[derive(Debug, Clone, Copy, PartialEq, Eq, Hash, Default)]
pub struct Rm {
    /// The virtual path, at most 8 bits.
    pub vpi: u32,
    /// The virtual channel, at most 16 bits.
    pub vci: u32,
    /// DIR: a backward cell.
    pub backward: bool,
    /// BN: not made by a source.
    pub bn: bool,
    /// Congestion.
    pub ci: bool,
    /// No increase.
    pub ni: bool,
    /// Carried only.
    pub ra: bool,
    /// Code of the explicit rate, at most 15 bits like the two after it.
    pub er: u32,
    /// Code of the current rate.
    pub ccr: u32,
    /// Code of the minimum rate.
    pub mcr: u32,
    /// Carried only.
    pub ql: u32,
    /// Carried only.
    pub sn: u32,
}

impl Rm {
    /// The connection.
    pub const fn address(&self) -> Address {
        Address::new(self.vpi, self.vci)
    }
}

/// What reading a cell gives.
#[derive(Debug, Clone, Copy, PartialEq, Eq, Hash)]
pub enum Cell {
    /// User data.
    Data {
        /// The virtual path.
        vpi: u32,
        /// The virtual channel.
        vci: u32,
        /// The congestion mark.
        efci: bool,
    },
    /// An RM cell, forward or backward.
    Rm(Rm),
}

impl Cell {
    /// The connection.
    pub const fn address(&self) -> Address {
        match *self {
            Cell::Data { vpi, vci, .. } => Address::new(vpi, vci),
            Cell::Rm(rm) => rm.address(),
        }
    }
}

/// Writes an RM cell into a buffer of 53 octets.
///
/// # Errors
/// In this order: [`Refusal::Length`], [`Refusal::Range`].
///
/// ```
/// use abr::{Address, Cell, Refusal, Rm, CELL_OCTETS};
///
/// let rm = Rm { vpi: 255, vci: 32, backward: true, er: 0x53E8, ..Rm::default() };
/// let mut cell = [0; CELL_OCTETS];
/// abr::write_rm(&rm, &mut cell)?;
/// assert_eq!(abr::read(&cell)?, Cell::Rm(rm));
/// assert_eq!(abr::read(&cell)?.address(), Address::new(255, 32));
///
/// cell[20] ^= 1;
/// assert_eq!(abr::read(&cell), Err(Refusal::Crc));
/// assert_eq!(abr::write_rm(&rm, &mut cell[1..]), Err(Refusal::Length));
/// let other = Rm { vpi: 256, ..rm };
/// assert_eq!(abr::write_rm(&other, &mut cell), Err(Refusal::Range));
/// # Ok::<(), Refusal>(())
/// ```
pub fn write_rm(rm: &Rm, cell: &mut [u8]) -> Result<(), Refusal> {
    let rm = ffi::abr_rm::from(*rm);
    // SAFETY: the pointer is live and the length is the buffer's own.
    Refusal::outcome(unsafe { ffi::abr_write_rm(rm, cell.as_mut_ptr(), cell.len()) })
}

/// Reads a cell.
///
/// # Errors
/// In this order: [`Refusal::Length`], [`Refusal::HeaderCheck`],
/// [`Refusal::PayloadType`], and for RM cells [`Refusal::Crc`],
/// [`Refusal::Protocol`], [`Refusal::ReservedBit`] in one of its three rate codes.
///
/// ```
/// use abr::{Cell, CELL_OCTETS};
///
/// let mut cell = [0; CELL_OCTETS];
/// cell[..5].copy_from_slice(&[0x00, 0x00, 0x00, 0x01, 0x52]);
/// assert_eq!(abr::read(&cell), Ok(Cell::Data { vpi: 0, vci: 0, efci: false }));
/// ```
pub fn read(cell: &[u8]) -> Result<Cell, Refusal> {
    // SAFETY: the pointer is live and the length is the cell's own.
    let read = unsafe { ffi::abr_read(cell.as_ptr(), cell.len()) };
    Refusal::outcome(read.refusal)?;
    Ok(read.into())
}

impl From<Rm> for ffi::abr_rm {
    fn from(rm: Rm) -> Self {
        ffi::abr_rm {
            vpi: rm.vpi,
            vci: rm.vci,
            dir: rm.backward.into(),
            bn: rm.bn.into(),
            ci: rm.ci.into(),
            ni: rm.ni.into(),
            ra: rm.ra.into(),
            er: rm.er,
            ccr: rm.ccr,
            mcr: rm.mcr,
            ql: rm.ql,
            sn: rm.sn,
        }
    }
}

impl From<ffi::abr_rm> for Rm {
    fn from(rm: ffi::abr_rm) -> Self {
        Rm {
            vpi: rm.vpi,
            vci: rm.vci,
            backward: rm.dir == 1,
            bn: rm.bn == 1,
            ci: rm.ci == 1,
            ni: rm.ni == 1,
            ra: rm.ra == 1,
            er: rm.er,
            ccr: rm.ccr,
            mcr: rm.mcr,
            ql: rm.ql,
            sn: rm.sn,
        }
    }
}

impl From<ffi::abr_cell> for Cell {
    /// The cell of an accepted read.
    fn from(read: ffi::abr_cell) -> Self {
        match read.kind {
            ffi::ABR_CELL_DATA => Cell::Data {
                vpi: read.rm.vpi,
                vci: read.rm.vci,
                efci: read.efci == 1,
            },
            ffi::ABR_CELL_RM => Cell::Rm(read.rm.into()),
            other => unreachable!("the library answered kind {other}"),
        }
    }
}
