//! Up to as many open connections as there can be, 1,024 in the largest edition, and down
//! again, in several orders of opening and closing, on addresses as somebody might choose them
//! who wants the calls to be slow; both sides compared, with the comparisons (document 02, L4).
//! Some of the connections are paths, each with a member (document 02, L13). ABR_SEED gives
//! other lists.

use abr::{
    CELL_OCTETS, COMPARISONS_MAX, CONNECTIONS_MAX, MAKE_INTERVAL, PATH_VCI, VCI_MAX, VCI_MIN,
    VPI_MAX,
};
use abr_differential::call::Call;
use abr_differential::coverage::{Coverage, Event};
use abr_differential::generate::Generator;
use abr_differential::library::Difference;
use abr_differential::lists::{self, List};
use abr_differential::octets::{put_header, Header, Octets};
use abr_differential::parallel;
use abr_differential::profile::{weights, Profile, NO_OTHERS, PROFILES};
use abr_differential::rng::Rng;
use abr_reference::Address;

/// The connections that may be open at once.
const CAPACITY: u32 = CONNECTIONS_MAX as u32;

/// The number of addresses of a list, more than can be open.
const ADDRESSES: u32 = CAPACITY + 16;

/// After so many opens or closes all allowed rates are compared.
const ALL_RATES: usize = 64;

/// The numbers of open connections that a list passes through, in any order: a word of bits for
/// the leaves in use and one more, and up to all of them.
const TARGETS: [usize; 10] = [
    0,
    1,
    least(63),
    least(64),
    least(65),
    CONNECTIONS_MAX / 2,
    CONNECTIONS_MAX - 2,
    CONNECTIONS_MAX - 1,
    CONNECTIONS_MAX,
    CONNECTIONS_MAX,
];

/// A number of connections, or as many as may be open.
const fn least(connections: usize) -> usize {
    if connections < CONNECTIONS_MAX {
        connections
    } else {
        CONNECTIONS_MAX
    }
}

/// The lists of each sort of addresses that pass through them, and those of each sort
/// with each order of opening and of closing: more where they are shorter.
const ROUNDS: usize = 30 * 1_024 / CONNECTIONS_MAX;
const UP_AND_DOWN: usize = 3 * 1_024 / CONNECTIONS_MAX;

/// Each refusal, kind and number of comparisons must be reached so often.
const LEAST: u64 = 200;

/// The calls between two changes of what is open: neither opens nor closes.
const NO_CHANGE: Profile = Profile {
    name: "no change",
    weights: weights([0, 0, 24, 8, 2, 46, 4, 4], [0, 0, 6, 0], NO_OTHERS),
    paths: 1,
    members: 1,
    ..PROFILES[1]
};

/// The addresses of a list, rising.
type Addresses = fn(&mut Rng) -> Vec<Address>;

/// The sorts of addresses.
const SETS: [(&str, Addresses); 5] = [
    ("adjacent", adjacent),
    ("one VCI on every path", across_paths),
    ("far apart", far_apart),
    ("both ends", both_ends),
    ("paths and channels", paths_and_channels),
];

/// VCIs one after the other on one VPI.
fn adjacent(rng: &mut Rng) -> Vec<Address> {
    let last = VCI_MAX + 1 - ADDRESSES;
    let any = rng.within(VCI_MIN, last);
    let first = rng.pick(&[VCI_MIN, any, last]);
    let vpi = rng.pick(&[0, 1, VPI_MAX]);
    (first..first + ADDRESSES)
        .map(|vci| Address::new(vpi, vci))
        .collect()
}

/// A VCI on every VPI, then the next, so that a name without its VPI is that of many.
fn across_paths(rng: &mut Rng) -> Vec<Address> {
    let first = rng.within(VCI_MIN, VCI_MAX - ADDRESSES);
    let mut addresses: Vec<Address> = (0..ADDRESSES)
        .map(|i| Address::new(i & VPI_MAX, first + i / (VPI_MAX + 1)))
        .collect();
    addresses.sort_unstable();
    addresses
}

/// Names as far from each other as so many can be, without the VCIs under 32.
fn far_apart(rng: &mut Rng) -> Vec<Address> {
    let step = (1 << 24) / ADDRESSES;
    let first = rng.below(step.into()) as u32;
    let names = (0..ADDRESSES).map(|k| first + step * k);
    names
        .map(|name| Address::new(name >> 16, (name & VCI_MAX).max(VCI_MIN)))
        .collect()
}

/// The lowest names and the highest.
fn both_ends(_: &mut Rng) -> Vec<Address> {
    let half = ADDRESSES / 2;
    let low = (VCI_MIN..VCI_MIN + half).map(|vci| Address::new(0, vci));
    let high = (VCI_MAX + 1 - half..=VCI_MAX).map(|vci| Address::new(VPI_MAX, vci));
    low.chain(high).collect()
}

/// A path on every VPI, or as a quarter of the addresses, and the same VCIs on all of them.
fn paths_and_channels(rng: &mut Rng) -> Vec<Address> {
    let first = rng.within(MEMBER_VCI + 1, VCI_MAX - ADDRESSES);
    let paths = (VPI_MAX + 1).min(ADDRESSES / 4);
    let channels = (0..ADDRESSES - paths).map(|i| Address::new(i % paths, first + i / paths));
    let mut addresses: Vec<Address> = (0..paths).map(Address::of_path).collect();
    addresses.extend(channels);
    addresses.sort_unstable();
    addresses
}

/// The VCI of a path's one member.
const MEMBER_VCI: u32 = VCI_MIN;

/// The pair that has the data of a connection: itself, or the member if it is a path.
fn data_of(at: Address) -> Address {
    match at.vci {
        PATH_VCI => Address::new(at.vpi, MEMBER_VCI),
        _ => at,
    }
}

/// Brings rising addresses into another order.
type Order = fn(&mut Rng, Vec<Address>) -> Vec<Address>;

/// The orders of opening and of closing.
const ORDERS: [(&str, Order); 4] = [
    ("rising", |_, addresses| addresses),
    ("falling", |_, addresses| {
        addresses.into_iter().rev().collect()
    }),
    ("shuffled", shuffled),
    ("every second", every_second),
];

fn shuffled(rng: &mut Rng, mut addresses: Vec<Address>) -> Vec<Address> {
    rng.shuffle(&mut addresses);
    addresses
}

/// Every second address, then those between.
fn every_second(_: &mut Rng, addresses: Vec<Address>) -> Vec<Address> {
    let between = addresses.iter().skip(1).step_by(2);
    addresses
        .iter()
        .step_by(2)
        .chain(between)
        .copied()
        .collect()
}

/// A data cell.
fn data_cell(at: Address) -> Octets {
    let mut cell = [0; CELL_OCTETS];
    let header = Header {
        gfc: 0,
        vpi: at.vpi,
        vci: at.vci,
        pt: 0,
        clp: 0,
    };
    put_header(&mut cell, &header);
    Octets::cell(&cell)
}

/// A list that changes which of its addresses are open.
struct Changing {
    list: List,
    generator: Generator,
    rng: Rng,
    addresses: Vec<Address>,
    coverage: Coverage,
}

impl Changing {
    fn new(seed: u64, addresses: Addresses) -> Self {
        let mut rng = Rng::new(!seed);
        let mut list = List::default();
        list.both.sparing = true;
        Changing {
            list,
            generator: Generator::new(seed, NO_CHANGE),
            addresses: addresses(&mut rng),
            rng,
            coverage: Coverage::default(),
        }
    }

    /// Makes a call on both sides.
    fn step(&mut self, call: &Call) -> Result<(), Difference> {
        let outcome = self.list.step(call, &mut self.coverage);
        outcome
            .map(drop)
            .map_err(|difference| format!("{call:x?}: {difference}"))
    }

    /// Compares the allowed rates of all addresses of the list, open or not.
    fn same_rates(&mut self) -> Result<(), Difference> {
        let mut addresses = self.addresses.iter();
        addresses.try_for_each(|at| self.list.both.same_acr(*at))
    }

    /// Opens an address; if it is a path, its member is added.
    fn open(&mut self, at: Address) -> Result<(), Difference> {
        let time = self.list.seen.last;
        let params = self.generator.params();
        if at.vci != PATH_VCI {
            return self.step(&Call::Open { at, time, params });
        }
        let vpi = at.vpi;
        self.step(&Call::OpenPath { vpi, time, params })?;
        self.step(&Call::Add { at: data_of(at) })
    }

    /// Offers cells to an address, or to its member.
    fn offer(&mut self, at: Address, cells: u64) -> Result<(), Difference> {
        let call = match at.vci {
            PATH_VCI => Call::OfferMember {
                at: data_of(at),
                cells,
            },
            _ => Call::Offer { at, cells },
        };
        self.step(&call)
    }

    /// Removes the member of a path and adds it again, twice. A channel is refused as a
    /// member, and if it is closed it must not become one.
    fn remove(&mut self, at: Address) -> Result<(), Difference> {
        let pair = data_of(at);
        if pair != at {
            for _ in 0..2 {
                self.step(&Call::Remove { at: pair })?;
                self.step(&Call::Add { at: pair })?;
                self.offer(at, 1)?;
            }
            return Ok(());
        }
        self.step(&Call::Remove { at })?;
        match self.is_open(at) {
            true => self.step(&Call::Add { at }),
            false => Ok(()),
        }
    }

    /// A slot so much later than the last call with a time.
    fn slot(&mut self, later: u64) -> Result<(), Difference> {
        let (time, len) = (self.list.seen.last + later, CELL_OCTETS);
        self.step(&Call::Slot { time, len })
    }

    fn count(&self) -> usize {
        self.list.seen.connections.len()
    }

    fn is_open(&self, at: Address) -> bool {
        self.list.seen.connections.contains_key(&at)
    }

    /// Opens or closes in this order until so many are open. Some send in between,
    /// so that the winners change.
    fn change(&mut self, target: usize, order: Vec<Address>) -> Result<(), Difference> {
        let more = target > self.count();
        for at in order {
            if self.count() == target {
                break;
            }
            match (more, self.is_open(at)) {
                (true, false) => {
                    self.open(at)?;
                    let cells = self.rng.below(3);
                    self.offer(at, cells)?;
                }
                (false, true) => self.step(&Call::Close { at })?,
                _ => continue,
            }
            if self.rng.once_in(8) {
                self.slot(1_000)?;
            }
            if self.count().is_multiple_of(ALL_RATES) {
                self.same_rates()?;
            }
        }
        assert_eq!(self.count(), target);
        Ok(())
    }

    /// On every address a refused open (12, or 13 if the table is full) or close (11),
    /// offers, a data cell, a removal, a making and an out-of-rate cell; then slots for all, a
    /// millisecond apart: longer than any gap of a connection with a minimum. Last all leaves and
    /// all members are read.
    fn every_address(&mut self) -> Result<(), Difference> {
        let full = self.count() == CONNECTIONS_MAX;
        self.step(&Call::SetLevel { level: 1 })?;
        self.slot(MAKE_INTERVAL)?;
        for at in shuffled(&mut self.rng, self.addresses.clone()) {
            let open = self.is_open(at);
            if open || full {
                self.open(at)?;
            }
            if !open {
                self.step(&Call::Close { at })?;
            }
            self.offer(at, 1)?;
            let cell = data_cell(data_of(at));
            self.step(&Call::Receive { cell })?;
            self.remove(at)?;
            let time = self.list.seen.last;
            self.step(&Call::Make { at, time })?;
            let len = CELL_OCTETS;
            self.step(&Call::OutOfRate { at, time, len })?;
        }
        (0..=self.count()).try_for_each(|_| self.slot(1_000_000))?;
        self.list.both.same_lists()
    }

    /// So many random calls.
    fn random_calls(&mut self, calls: u32) -> Result<(), Difference> {
        for _ in 0..calls {
            let call = self.generator.next(&self.list.seen);
            self.step(&call)?;
        }
        self.same_rates()
    }

    /// From none to all and back, in these orders.
    fn up_and_down(&mut self, opening: Order, closing: Order) -> Result<(), Difference> {
        let order = opening(&mut self.rng, self.addresses.clone());
        self.change(CONNECTIONS_MAX, order)?;
        self.every_address()?;
        self.random_calls(200)?;
        let order = closing(&mut self.rng, self.addresses.clone());
        self.change(0, order)?;
        self.list.finish()
    }

    /// To another number of connections. Some are closed first, so that there are
    /// free leaves between those in use.
    fn round(&mut self, target: usize) -> Result<(), Difference> {
        for target in [self.count() / 8 * 7, target] {
            let order = shuffled(&mut self.rng, self.addresses.clone());
            self.change(target, order)?;
        }
        self.every_address()?;
        self.random_calls(60)
    }

    /// Through all targets.
    fn rounds(&mut self) -> Result<(), Difference> {
        let mut targets = TARGETS;
        self.rng.shuffle(&mut targets);
        targets
            .into_iter()
            .try_for_each(|target| self.round(target))?;
        self.list.finish()
    }
}

/// What a list does beside its addresses.
#[derive(Clone, Copy)]
enum Course {
    UpAndDown { opening: usize, closing: usize },
    Rounds,
}

/// Runs one list: its seed, the place of its addresses in [`SETS`], and what it does.
fn run((seed, set, course): (u64, usize, Course)) -> Result<Coverage, Difference> {
    let (name, addresses) = SETS[set];
    let mut changing = Changing::new(seed, addresses);
    let (way, ran) = match course {
        Course::UpAndDown { opening, closing } => {
            let ((opened, opening), (closed, closing)) = (ORDERS[opening], ORDERS[closing]);
            let way = format!("opened {opened}, closed {closed}");
            (way, changing.up_and_down(opening, closing))
        }
        Course::Rounds => ("rounds".to_owned(), changing.rounds()),
    };
    ran.map_err(|difference| format!("list {seed} ({name}, {way}), {difference}"))?;
    changing.coverage.rates += changing.list.both.rates;
    Ok(changing.coverage)
}

/// Every order of opening with every order of closing on every sort of addresses, and
/// the lists that pass through the targets.
fn jobs() -> Vec<(u64, usize, Course)> {
    let mut courses = vec![Course::Rounds; ROUNDS];
    for opening in 0..ORDERS.len() {
        for closing in 0..ORDERS.len() {
            courses.extend([Course::UpAndDown { opening, closing }; UP_AND_DOWN]);
        }
    }
    let sets = 0..SETS.len();
    let pairs = sets.flat_map(|set| courses.iter().map(move |course| (set, *course)));
    let seeds = lists::seed()..;
    pairs
        .zip(seeds)
        .map(|((set, course), seed)| (seed, set, course))
        .collect()
}

/// An open makes one comparison, since nothing waits on it; a slot the most or, if it
/// is idle, none; a close, a received cell, an offer, a making and a removal any number
/// from one to the most; an out-of-rate cell and adding a member none.
fn every_number_of_comparisons(total: &Coverage) {
    let [open, close, receive, offer, level, slot, make, out_of_rate, members @ ..] =
        total.comparisons;
    let [open_path, add, offer_member, remove, ..] = members;
    for counts in [close, receive, offer, make, offer_member, remove] {
        assert!(
            counts[1..].iter().all(|count| *count >= LEAST),
            "{counts:?}"
        );
        assert_eq!(counts[0], 0);
    }
    let only = |counts: &[u64], numbers: &[usize]| {
        let named: u64 = numbers.iter().map(|number| counts[*number]).sum();
        assert_eq!(named, counts.iter().sum(), "{counts:?}");
    };
    only(&open, &[1]);
    only(&open_path, &[1]);
    only(&add, &[0]);
    only(&level, &[0]);
    only(&out_of_rate, &[0]);
    only(&slot, &[0, COMPARISONS_MAX as usize]);
    assert_eq!(slot[0], total.kinds[0], "idle slots");
}

#[test]
fn up_to_all_connections_and_down_again() {
    let total = parallel::total(jobs(), run);
    println!("all: {}", total.summary());
    println!("comparisons: {:?}", &total.comparisons[..12]);
    let [open, close, receive, offer, _, _, make, out_of_rate, open_path, add, ..] = total.outcomes;
    let refused = [
        open[12],
        open[13],
        close[11],
        receive[11],
        offer[11],
        make[11],
        out_of_rate[0],
        out_of_rate[11],
        out_of_rate[18],
        open_path[12],
        open_path[13],
        add[11],
        add[12],
        add[27],
    ];
    let mut counts = refused.iter().chain(&total.kinds);
    assert!(counts.all(|count| *count >= LEAST), "{refused:?}");
    assert!(total.reached(Event::Full) >= LEAST);
    assert!(total.reached(Event::ReopenedLoaded) >= LEAST);
    assert!(total.reached(Event::TiePaths) >= LEAST);
    every_number_of_comparisons(&total);
}
