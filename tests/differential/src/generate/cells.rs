//! RM cells to write, and cells to receive or read, some of them damaged.

use abr::ffi::abr_rm;
use abr::{CELL_OCTETS, VCI_MAX, VPI_MAX};
use abr_reference::Address;

use super::Generator;
use crate::call::Call;
use crate::observation::Observation;
use crate::octets::{put_crc, put_header, Header, Octets};
use crate::rng::Rng;

impl Generator {
    pub(super) fn write_rm(&mut self, seen: &Observation) -> Call {
        let mut rm = self.rm(seen);
        if self.fault() {
            let any = self.rng.next() as u32;
            let bit = self.rng.pick(&[2, 3, 256, 1 << 31, any | 2]);
            let code = self.rng.pick(&[0x8000, 0xFFFF, 0x1_0000, any | 0x8000]);
            match self.rng.below(10) {
                0 => rm.vci = self.rng.pick(&[65_536, u32::MAX, any | 1 << 16]),
                1 => rm.vpi = self.rng.pick(&[256, 65_536, u32::MAX, any | 1 << 8]),
                2 => rm.dir = bit,
                3 => rm.bn = bit,
                4 => rm.ci = bit,
                5 => rm.ni = bit,
                6 => rm.ra = bit,
                7 => rm.er = code,
                8 => rm.ccr = code,
                _ => rm.mcr = code,
            }
        }
        Call::WriteRm {
            rm,
            len: self.length(),
        }
    }

    /// Fields of an RM cell, all in range.
    fn rm(&mut self, seen: &Observation) -> abr_rm {
        let bits = self.rng.next() as u32;
        let at = self.address(seen);
        let at = Address::new(at.vpi & VPI_MAX, at.vci & VCI_MAX);
        let code = |rng: &mut Rng| rng.next() as u32 & 0x7FFF;
        let ccr = code(&mut self.rng);
        abr_rm {
            vpi: at.vpi,
            vci: at.vci,
            dir: bits & 1,
            bn: u32::from(self.rng.once_in(3)),
            ci: bits >> 1 & bits >> 2 & 1,
            ni: bits >> 3 & bits >> 4 & 1,
            ra: bits >> 5 & 1,
            er: self.explicit(seen, at),
            ccr: self.rng.pick(&[ccr, ccr, ccr, 0x4000]),
            mcr: code(&mut self.rng),
            ql: self.rng.next() as u32,
            sn: self.rng.next() as u32,
        }
    }

    /// The code of an explicit rate, often one that limits the allowed rate.
    fn explicit(&mut self, seen: &Observation, at: Address) -> u32 {
        let any = self.rng.next() as u32 & 0x7FFF;
        let Some(connection) = seen.connections.get(&at) else {
            return any;
        };
        let acr = abr_reference::code_of(connection.acr).unwrap_or(any);
        let below = acr.saturating_sub(self.rng.within(0, 400));
        self.rng.pick(&[
            0x7FFF,
            0x7FFF,
            0x7FFF,
            acr,
            below,
            connection.params.mcr,
            0,
            any,
        ])
    }

    /// A cell to be received or read, sometimes damaged.
    pub(super) fn cell(&mut self, seen: &Observation) -> Octets {
        let rm = self.rm(seen);
        let mut cell = [0; CELL_OCTETS];
        let mut header = self.header(&rm);
        if header.pt < 4 {
            let to = self.data_address(seen, Address::new(rm.vpi, rm.vci));
            header.vci = to.vci;
        }
        if header.pt == 6 {
            self.payload(&mut cell, &rm);
        } else {
            self.rng.fill(&mut cell[5..]);
        }
        if header.pt == 6 && self.fault() {
            self.reserve_in(&mut cell);
        }
        let fault = if self.fault() {
            1 + self.rng.below(6)
        } else {
            0
        };
        match fault {
            1 => header.vpi ^= 1 << self.rng.below(8),
            2 => header.pt = self.rng.pick(&[4, 5, 7]),
            3 => cell[5] = self.rng.pick(&[0, 2, 3, 129, 255]),
            _ => {}
        }
        put_header(&mut cell, &header);
        if header.pt == 6 {
            put_crc(&mut cell);
        }
        if fault > 3 {
            self.damage(&mut cell);
        }
        Octets::cell(&cell).of_length(self.length())
    }

    fn header(&mut self, rm: &abr_rm) -> Header {
        let random = self.rng.next() as u32;
        Header {
            gfc: if random & 3 == 0 { random >> 8 & 15 } else { 0 },
            vpi: rm.vpi,
            vci: rm.vci,
            pt: self.rng.pick(&[6, 6, 6, 6, 6, 6, 0, 1, 2, 3]),
            clp: random >> 4 & 1,
        }
    }

    /// Sets the reserved bit in one of a cell's three codes, sometimes in all.
    fn reserve_in(&mut self, cell: &mut [u8; CELL_OCTETS]) {
        for (place, bit) in self.reserved_codes().into_iter().enumerate() {
            cell[7 + 2 * place] |= (bit >> 8) as u8;
        }
    }

    /// The payload of an RM cell; the reserved octets and bits beside the codes are
    /// often not those that a write gives.
    fn payload(&mut self, cell: &mut [u8; CELL_OCTETS], rm: &abr_rm) {
        let other = self.rng.once_in(2);
        cell[21..51].fill(0x6A);
        if other {
            self.rng.fill(&mut cell[21..52]);
        }
        let random = if other { self.rng.next() as u32 } else { 0 };
        cell[5] = 1;
        let bits = rm.dir << 7 | rm.bn << 6 | rm.ci << 5 | rm.ni << 4 | rm.ra << 3;
        cell[6] = (bits | random & 7) as u8;
        let codes = [rm.er, rm.ccr, rm.mcr];
        for (place, code) in codes.into_iter().enumerate() {
            cell[7 + 2 * place..9 + 2 * place].copy_from_slice(&(code as u16).to_be_bytes());
        }
        cell[13..17].copy_from_slice(&rm.ql.to_be_bytes());
        cell[17..21].copy_from_slice(&rm.sn.to_be_bytes());
    }

    /// Flips bits of one octet, sometimes of two.
    fn damage(&mut self, cell: &mut [u8; CELL_OCTETS]) {
        let octet = self.rng.below(53) as usize;
        cell[octet] ^= 1 << self.rng.below(8);
        self.damaged = Some(octet);
        if self.rng.once_in(4) {
            cell[self.rng.below(53) as usize] ^= self.rng.next() as u8;
            self.damaged = None;
        }
    }
}
