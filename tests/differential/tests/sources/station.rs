//! One end system with one connection, on the library and on the reference.
//! Each call is made on both, and they must agree on every answer and octet.

use abr::{Address, Allowed, Cell, Kind, Params, Rm, Table, CELL_OCTETS};
use abr_convert::{library_sent, reference_params, reference_rm};
use abr_differential::expected;
use abr_differential::octets::{put_header, Header};
use abr_reference::Engine;

/// A cell's octets.
pub type Octets = [u8; CELL_OCTETS];

/// A millisecond.
pub const MS: u64 = 1_000_000;

/// The connection of every station, and its address for both.
pub const VPI: u32 = 1;
pub const VCI: u32 = 32;
const AT: Address = Address::new(VPI, VCI);
const THEIR_AT: abr_reference::Address = abr_reference::Address::new(VPI, VCI);

/// Rates in units of 1/512 cell per second: the papers' peak, minimum and
/// initial rates of 1,000, 100 and 200 cells per second, and 300.
pub const PEAK: u64 = 1_000 * 512;
pub const MINIMUM: u64 = 100 * 512;
pub const INITIAL: u64 = 200 * 512;
pub const THREE_HUNDRED: u64 = 300 * 512;

/// Their codes: 512,000 = 2^9 x 1,000; 51,200 = 2^6 x 800;
/// 102,400 = 2^7 x 800; 153,600 = 2^8 x 600.
pub const PEAK_CODE: u32 = code(9, 1_000);
pub const MINIMUM_CODE: u32 = code(6, 800);
pub const INITIAL_CODE: u32 = code(7, 800);
pub const THREE_HUNDRED_CODE: u32 = code(8, 600);

/// 150 cells per second, 76,800 = 2^7 x 600, and 50, 25,600 = 2^5 x 800.
pub const BELOW_INITIAL: u64 = 150 * 512;
pub const BELOW_INITIAL_CODE: u32 = code(7, 600);
pub const BELOW_MINIMUM_CODE: u32 = code(5, 800);

/// The code of the rate 2^e x `whole`, `whole` from 512 to 1,023.
pub const fn code(e: u32, whole: u32) -> u32 {
    0x4000 | e << 9 | (whole - 512)
}

/// The constants of source document 000, section 4.8, as far as an open can
/// carry them (what was replaced is said in `sources.rs`).
pub fn paper() -> Params {
    Params {
        pcr: PEAK_CODE,
        mcr: MINIMUM_CODE,
        icr: INITIAL_CODE,
        n: 4,      // Nrm 16
        r: 3,      // RIF 1/8
        d: 3,      // RDF 1/8
        c: 3,      // CDF 1/8
        tbe: 48,   // CRM 3
        frtt: 0,   // the initial rate as given
        adtf: 200, // ADTF 2 s
        trm: 7,    // Trm 0.1 s
    }
}

/// The same with ADTF 0.18 s, as for the paper's cases 4 and 5: forward cells
/// 100 ms apart are within it.
pub fn short_adtf() -> Params {
    let adtf = 18;
    Params { adtf, ..paper() }
}

/// What a slot sent, with the octets if it was an RM cell.
#[derive(Debug, Clone, Copy, PartialEq, Eq)]
pub struct Sent {
    pub kind: Kind,
    pub acr: u64,
    pub cell: Octets,
}

/// An end system with that connection open since time 0.
#[derive(Clone)]
pub struct Station {
    library: Table,
    reference: Engine,
}

impl Station {
    pub fn open(params: &Params) -> Self {
        let (mut library, mut reference) = (Table::new(), Engine::new());
        library.open(AT, 0, params).expect("library");
        let same = reference_params(params);
        reference.open(THEIR_AT, 0, &same).expect("reference");
        Station { library, reference }
    }

    pub fn offer(&mut self, cells: u64) {
        let ours = self.library.offer(AT, cells).expect("library");
        let theirs = self.reference.offer(THEIR_AT, cells).expect("reference");
        assert_eq!(ours, theirs, "comparisons of an offer");
    }

    pub fn set_level(&mut self, level: u32) {
        self.library.set_level(level).expect("library");
        self.reference.set_level(level).expect("reference");
    }

    /// Makes a backward cell.
    pub fn make(&mut self, time: u64) {
        let ours = self.library.make(AT, time).expect("library");
        let theirs = self.reference.make(THEIR_AT, time).expect("reference");
        assert_eq!(ours, theirs, "comparisons of a made cell");
    }

    /// The octets of an out-of-rate cell.
    pub fn out_of_rate(&mut self, time: u64) -> Octets {
        let (mut cell, mut other) = ([0; CELL_OCTETS], [0; CELL_OCTETS]);
        let ours = self.library.out_of_rate(AT, time, &mut cell);
        let theirs = self.reference.out_of_rate(THEIR_AT, time, &mut other);
        assert_eq!((ours, theirs), (Ok(()), Ok(())), "at {time}");
        assert_eq!(cell, other, "library and reference at {time}");
        cell
    }

    pub fn receive(&mut self, cell: &Octets) {
        let ours = self.library.receive(cell).expect("library");
        let theirs = self.reference.receive(cell).expect("reference");
        assert_eq!(ours, expected::received(&theirs).into(), "a received cell");
        self.acr();
        self.same_status();
    }

    /// Receives a backward RM cell with these marks and this explicit rate.
    pub fn receive_backward(&mut self, rm: Rm) {
        let backward = true;
        self.receive(&written(&Rm { backward, ..rm }));
    }

    /// Receives a forward RM cell.
    pub fn receive_forward(&mut self, rm: Rm) {
        let backward = false;
        self.receive(&written(&Rm { backward, ..rm }));
    }

    /// Receives a data cell with this congestion mark.
    pub fn receive_data(&mut self, efci: bool) {
        let mut cell = [0; CELL_OCTETS];
        let header = Header {
            gfc: 0,
            vpi: VPI,
            vci: VCI,
            pt: u32::from(efci) << 1,
            clp: 0,
        };
        put_header(&mut cell, &header);
        self.receive(&cell);
    }

    /// What the slot at a time sends; nothing if it is idle.
    pub fn slot(&mut self, time: u64) -> Option<Sent> {
        let (mut cell, mut other) = ([0; CELL_OCTETS], [0; CELL_OCTETS]);
        let ours = self.library.slot(time, &mut cell).expect("library");
        let theirs = self.reference.slot(time, &mut other).expect("reference");
        assert_eq!(
            ours,
            library_sent(theirs).into(),
            "library and reference at {time}"
        );
        assert_eq!(cell, other, "library and reference at {time}");
        self.same_status();
        ours.map(|sent| Sent {
            kind: sent.kind,
            acr: sent.acr,
            cell,
        })
    }

    /// Everything of the connection and of the link.
    fn same_status(&self) {
        let theirs = expected::status(&self.reference, THEIR_AT).expect("reference");
        assert_eq!(self.library.status(AT), Ok(theirs.into()));
        assert_eq!(self.library.at(theirs.leaf), Ok(theirs.into()));
        assert_eq!(self.library.link(), expected::link(&self.reference));
    }

    /// The kind of cell that the slot at a time sends.
    pub fn kind(&mut self, time: u64) -> Option<Kind> {
        self.slot(time).map(|sent| sent.kind)
    }

    /// The allowed rate after the slot at a time, which sends a forward cell.
    pub fn forward(&mut self, time: u64) -> u64 {
        let sent = self.slot(time).expect("a cell is due");
        assert_eq!(sent.kind, Kind::Forward, "at {time}");
        sent.acr
    }

    /// A forward cell at `start`, then two data cells 20 and 40 ms later, so
    /// that the next cell is a forward cell from Trm on. Gives the allowed
    /// rate after the forward cell.
    pub fn round(&mut self, start: u64) -> u64 {
        self.offer(2);
        let acr = self.forward(start);
        assert_eq!(self.kind(start + 20 * MS), Some(Kind::Data));
        assert_eq!(self.kind(start + 40 * MS), Some(Kind::Data));
        acr
    }

    /// Rounds at 0, 100 ms, 200 ms, ... whose forward cells stay unanswered.
    pub fn unanswered(&mut self, rounds: u64) -> Vec<u64> {
        (0..rounds).map(|i| self.round(i * 100 * MS)).collect()
    }

    /// The allowed rate; what the last backward cell made of it is compared too.
    pub fn acr(&self) -> u64 {
        let Allowed { acr, change } = self.library.allowed(AT).expect("library");
        let ours = abr_reference::Allowed { acr, change };
        assert_eq!(
            self.reference.allowed(THEIR_AT),
            Ok(ours),
            "library and reference"
        );
        acr
    }
}

/// The fields of an RM cell, read by both.
pub fn read(cell: &Octets) -> Rm {
    let Ok(Cell::Rm(rm)) = abr::read(cell) else {
        panic!("not an RM cell: {cell:02x?}");
    };
    let same = reference_rm(&rm.into());
    assert_eq!(abr_reference::read(cell), Ok(abr_reference::Cell::Rm(same)));
    rm
}

/// An RM cell of that connection, written by both.
pub fn written(rm: &Rm) -> Octets {
    let rm = Rm {
        vpi: VPI,
        vci: VCI,
        ..*rm
    };
    let (mut cell, mut other) = ([0; CELL_OCTETS], [0; CELL_OCTETS]);
    abr::write_rm(&rm, &mut cell).expect("library");
    abr_reference::write_rm(&reference_rm(&rm.into()), &mut other).expect("reference");
    assert_eq!(cell, other, "library and reference: {rm:?}");
    cell
}

#[test]
fn the_rates_of_the_papers_have_codes_of_their_own() {
    let rates = [
        (PEAK_CODE, PEAK),
        (MINIMUM_CODE, MINIMUM),
        (INITIAL_CODE, INITIAL),
        (THREE_HUNDRED_CODE, THREE_HUNDRED),
        (BELOW_INITIAL_CODE, BELOW_INITIAL),
        (BELOW_MINIMUM_CODE, 50 * 512),
    ];
    for (code, rate) in rates {
        assert_eq!(
            (abr::rate(code), abr_reference::rate(code)),
            (Ok(rate), Ok(rate))
        );
        assert_eq!(
            (abr::code(rate), abr_reference::code_of(rate)),
            (Ok(code), Ok(code))
        );
    }
}
