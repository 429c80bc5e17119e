//! Lists of calls at the edges: times at which a connection changes, marks, full
//! tables, numbers in and out of range and damaged cells.

mod addresses;
mod cells;
mod doubles;
mod members;
mod ports;
mod setup;
mod times;

use abr::ffi::abr_params;
use abr::{CELL_OCTETS, MAKE_INTERVAL, OUT_OF_RATE_INTERVAL, PATH_VCI, RATE_MAX, WAITING_MAX};
use abr_reference::Address;

use crate::call::Call;
use crate::observation::Observation;
use crate::octets::LONGEST;
use crate::profile::Profile;
use crate::rng::Rng;

/// Makes the calls of one list.
pub struct Generator {
    rng: Rng,
    profile: Profile,
    /// The addresses of the list, rising.
    addresses: Vec<Address>,
    /// The VPIs of its paths, and the pairs of their members.
    paths: Vec<u32>,
    members: Vec<Address>,
    /// Those that are still to be opened before all else, the last one first.
    filling: Vec<Address>,
    /// Those that are still to be made members then, the last one first.
    joining: Vec<Address>,
    /// The octet that the last cell was damaged in.
    pub damaged: Option<usize>,
}

impl Generator {
    /// The list of a seed.
    pub fn new(seed: u64, profile: Profile) -> Self {
        let mut rng = Rng::new(seed);
        let addresses = addresses::pool(&mut rng, profile.addresses);
        let mut filling = addresses.clone();
        match rng.below(3) {
            0 => rng.shuffle(&mut filling),
            1 => filling.reverse(),
            _ => {}
        }
        filling.truncate(profile.filled as usize);
        let paths = members::paths(&mut rng, &addresses, profile.paths);
        let members = members::members(&mut rng, &paths, &addresses, profile.members);
        let mut joining = members.clone();
        rng.shuffle(&mut joining);
        joining.truncate(profile.joined as usize);
        if !joining.is_empty() {
            filling.extend(paths.iter().map(|vpi| Address::of_path(*vpi)));
        }
        Generator {
            rng,
            profile,
            addresses,
            paths,
            members,
            filling,
            joining,
            damaged: None,
        }
    }

    /// The next call, given what the calls before it did.
    pub fn next(&mut self, seen: &Observation) -> Call {
        self.damaged = None;
        if let Some(call) = self.before_all_else(seen) {
            return call;
        }
        match self.rng.weighted(&self.profile.weights) {
            0 => self.open(seen),
            1 => Call::Close {
                at: self.address(seen),
            },
            2 => Call::Receive {
                cell: self.cell(seen),
            },
            3 => self.offer(seen),
            4 => Call::SetLevel {
                level: self.level(),
            },
            5 => Call::Slot {
                time: self.time(seen),
                len: self.length(),
            },
            6 => self.make(seen),
            7 => self.out_of_rate(seen),
            8 => self.open_path(seen),
            9 => self.add(seen),
            10 => self.offer_member(seen),
            11 => self.remove(seen),
            12 => Call::Acr {
                at: self.address(seen),
            },
            13 => Call::Export {
                at: self.address(seen),
            },
            other => self.without_table(other, seen),
        }
    }

    /// The next open or added member that the list begins with.
    fn before_all_else(&mut self, seen: &Observation) -> Option<Call> {
        let Some(at) = self.filling.pop() else {
            return self.joining.pop().map(|at| Call::Add { at });
        };
        let (time, params) = (self.opening_time(seen), self.params());
        Some(match at {
            Address { vpi, vci } if vci == PATH_VCI => Call::OpenPath { vpi, time, params },
            at => Call::Open { at, time, params },
        })
    }

    /// A call that is given no table, by its place in the order of the sorts.
    fn without_table(&mut self, sort: usize, seen: &Observation) -> Call {
        match sort {
            14 => self.write_rm(seen),
            15 => Call::Read {
                cell: self.cell(seen),
            },
            16 => Call::Code { rate: self.rate() },
            17 => Call::Rate { code: self.code() },
            18 => Call::Import {
                bits: self.double(),
            },
            19 => self.fair_share(),
            20 => self.limit(seen),
            21 => self.port(seen),
            22 => Call::Judge {
                trace: self.rng.next(),
            },
            _ => self.house(),
        }
    }

    fn fault(&mut self) -> bool {
        self.rng.once_in(self.profile.fault)
    }

    fn open(&mut self, seen: &Observation) -> Call {
        let at = if self.fault() {
            self.address_not_to_open(seen)
        } else {
            self.address_to_open(seen)
        };
        let (time, params) = self.opening(seen);
        Call::Open { at, time, params }
    }

    /// Time and parameters of an open.
    fn opening(&mut self, seen: &Observation) -> (u64, abr_params) {
        let time = if !first(seen) && self.fault() {
            self.time(seen)
        } else {
            self.opening_time(seen)
        };
        let mut params = self.params();
        if self.fault() {
            self.put_out_of_range(&mut params);
        }
        if self.fault() {
            self.set_up_wrongly(&mut params);
        }
        if self.fault() {
            self.reserve(&mut params);
        }
        (time, params)
    }

    /// The time of an open that is accepted.
    fn opening_time(&mut self, seen: &Observation) -> u64 {
        if first(seen) {
            self.start()
        } else {
            seen.last
        }
    }

    /// Parameters within their ranges, the small ones preferred.
    pub fn params(&mut self) -> abr_params {
        let least = 0x4000 | self.profile.exponent << 9;
        let mut codes = [0; 3].map(|_| self.rng.within(least, 0x7FFF));
        codes.sort_unstable();
        if self.rng.once_in(6) {
            codes[1] = codes[self.rng.pick(&[0, 2])];
        }
        if self.profile.no_minimum > 0 && self.rng.once_in(self.profile.no_minimum) {
            self.remove_minimum(&mut codes);
        }
        let any = [8, 15, 15, 7, 1_023, 7].map(|top| self.rng.within(1, top));
        let n = self.rng.pick(&[1, 2, 2, 3, 3, 4, 5, any[0]]);
        let tbe = self.tbe(1 << n);
        abr_params {
            mcr: codes[0],
            icr: codes[1],
            pcr: codes[2],
            n,
            r: self.rng.pick(&[0, 2, 4, any[1]]),
            d: self.rng.pick(&[0, 1, 3, 4, any[2]]),
            c: self.rng.pick(&[0, 1, 2, 4, 7, any[3]]),
            tbe,
            frtt: self.frtt(tbe, codes[1]),
            adtf: self.rng.pick(&[1, 1, 1, 2, 3, any[4]]),
            trm: self.rng.pick(&[0, 0, 0, 1, 2, 4, any[5]]),
        }
    }

    /// Gives minimum, initial and peak rate a minimum of 0, in any of its codes;
    /// sometimes an initial rate of 0 or of the code of bit 14 alone, and sometimes a peak
    /// of a few cells per second.
    fn remove_minimum(&mut self, codes: &mut [u32; 3]) {
        let any = self.rng.next() as u32 & 0x3FFF;
        codes[0] = self.rng.pick(&[0, 0, 1, 0x1FF, 0x3FFF, any]);
        if self.rng.once_in(4) {
            codes[2] = self.rng.within(0x4000, 0x4600);
            codes[1] = codes[1].min(codes[2]);
        }
        if self.rng.once_in(4) {
            codes[1] = self.rng.pick(&[0, 0x1FF, any, 0x4000]);
        }
    }

    /// Puts one parameter out of its range. Without a minimum a lower initial rate may
    /// be within it.
    fn put_out_of_range(&mut self, params: &mut abr_params) {
        let any = self.rng.next() as u32;
        match self.rng.below(11) {
            0 => params.pcr = self.rng.pick(&[0, 0x3FFF, 0x1_7FFF, any | 0x1_0000]),
            1 => params.mcr = self.rng.pick(&[0x1_0000, 0x1_4000, any | 0x1_0000]),
            2 => params.icr = self.rng.pick(&[0, 0x1_4000, any | 0x1_0000]),
            3 => std::mem::swap(&mut params.pcr, &mut params.mcr),
            4 => params.icr = params.mcr.wrapping_sub(1),
            5 => params.n = self.rng.pick(&[0, 9, 32, 33, any | 16]),
            6 => params.r = self.rng.pick(&[16, 32, 64, any | 16]),
            7 => params.d = self.rng.pick(&[16, 32, 64, any | 16]),
            8 => params.c = self.rng.pick(&[8, 32, 64, any | 8]),
            9 => params.adtf = self.rng.pick(&[0, 1_024, u32::MAX, any | 1 << 10]),
            _ => params.trm = self.rng.pick(&[8, 32, 64, u32::MAX, any | 8]),
        }
    }

    /// Sets the reserved bit in one of the three codes, sometimes in all.
    fn reserve(&mut self, params: &mut abr_params) {
        let codes = [&mut params.pcr, &mut params.mcr, &mut params.icr];
        let which = self.reserved_codes();
        for (code, bit) in codes.into_iter().zip(which) {
            *code |= bit;
        }
    }

    /// The reserved bit for one of three codes, sometimes for all of them.
    fn reserved_codes(&mut self) -> [u32; 3] {
        const BIT: u32 = 0x8000;
        self.rng
            .pick(&[[BIT, 0, 0], [0, BIT, 0], [0, 0, BIT], [BIT, BIT, BIT]])
    }

    fn offer(&mut self, seen: &Observation) -> Call {
        let at = self.address(seen);
        let waiting = seen
            .connections
            .get(&at)
            .map_or(0, |connection| connection.data);
        let cells = self.cells_to_offer(waiting);
        Call::Offer { at, cells }
    }

    /// Cells to be offered where so many wait: mostly few, sometimes just what there is room
    /// for, or more.
    fn cells_to_offer(&mut self, waiting: u64) -> u64 {
        let room = WAITING_MAX.saturating_sub(waiting);
        let few = self.rng.below(9);
        let any = self.rng.next();
        let edges = [
            0,
            room,
            room,
            room + 1,
            room / 2,
            WAITING_MAX,
            1 << 16,
            1 << 32,
            u64::MAX,
            u64::MAX - waiting,
            any,
        ];
        match self.rng.once_in(12) {
            true => self.rng.pick(&edges),
            false => few,
        }
    }

    fn make(&mut self, seen: &Observation) -> Call {
        let at = self.address(seen);
        let last = seen.connections.get(&at).and_then(|c| c.last_made);
        let time = self.time_after(seen, last.map(|last| last + MAKE_INTERVAL));
        Call::Make { at, time }
    }

    fn out_of_rate(&mut self, seen: &Observation) -> Call {
        let at = self.address(seen);
        let last = seen.connections.get(&at).and_then(|c| c.last_outside);
        let time = self.time_after(seen, last.map(|last| last + OUT_OF_RATE_INTERVAL));
        let len = self.length();
        Call::OutOfRate { at, time, len }
    }

    fn level(&mut self) -> u32 {
        if self.fault() {
            let any = self.rng.next() as u32;
            return self.rng.pick(&[3, 4, 256, 1 << 16, u32::MAX, any | 4]);
        }
        self.rng.within(0, 2)
    }

    /// A cell's length, sometimes a wrong one.
    fn length(&mut self) -> usize {
        if self.fault() {
            let any = self.rng.below(LONGEST as u64 + 1) as usize;
            return self.rng.pick(&[0, 1, 52, 54, 64, any]);
        }
        CELL_OCTETS
    }

    fn house(&mut self) -> Call {
        let [pcr, mcr, icr] = [0; 3].map(|_| self.rng.next() as u32);
        Call::House { pcr, mcr, icr }
    }

    /// A rate to code.
    fn rate(&mut self) -> u64 {
        let code = 0x4000 | self.rng.next() as u32 & 0x3FFF;
        let rate = abr_reference::rate_of(code);
        let any = self.rng.next();
        let shift = self.rng.below(64);
        self.rng.pick(&[
            rate,
            rate - 1,
            rate + 1,
            any >> shift,
            511,
            RATE_MAX + 1,
            u64::MAX,
        ])
    }

    /// A rate code, mostly of 15 bits.
    fn code(&mut self) -> u32 {
        let any = self.rng.next() as u32;
        if self.fault() {
            return self
                .rng
                .pick(&[0x1_0000, 0x1_4000, 0x1_8000, u32::MAX, any | 0x1_0000]);
        }
        if self.fault() {
            return self.rng.pick(&[0x8000, 0xC000, any & 0xFFFF | 0x8000]);
        }
        any & 0x7FFF
    }
}

/// Whether no open was accepted yet.
fn first(seen: &Observation) -> bool {
    seen.connections.is_empty() && seen.last == 0
}
