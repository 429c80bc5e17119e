//! Two lists that differ in received backward cells only, those of the second at
//! least as congested (document 01, "Four moves of the allowed rate" and "The
//! lists of demand 3"; document 02, L1 and L5: made and out-of-rate cells too are at
//! the same places in both; L7: cells with the reserved bit in a rate code are refused
//! and the same in both): as long as the slots go to the same connections, no
//! allowed rate of the second is above that of the first, and every allowed rate is
//! between its minimum, which may be 0, and its peak. Refusals and kinds are the same;
//! comparisons may differ, since ready instants follow the rates. So the waiting data is the
//! same too, what a close answers of it (document 02, L12), and whose turn it is among a
//! path's members (document 02, L13), the connection of whose slots is the path. Two out-of-rate
//! cells differ in CCR and CRC-10 only. The change that the last feedback made (document
//! 02, L9) is never more than from minimum to peak or back; the two lists' changes are in
//! no order.

use std::ops::Range;

use abr::CELL_OCTETS;
use abr_reference::{Address, Allowed, Refusal};

use crate::accounts::Accounts;
use crate::call::{Answer, Call, Outcome};
use crate::coverage::Coverage;
use crate::generate::Generator;
use crate::library::{Difference, Library};
use crate::lists::concerned;
use crate::observation::Observation;
use crate::octets::{put_crc, Buffer, Octets};
use crate::parallel::Counts;
use crate::profile::Profile;
use crate::rng::Rng;

/// The calls of one list of a pair.
const LIST: u64 = 1_000;

/// What the pairs showed.
#[derive(Debug, Clone, Copy, PartialEq, Eq, Default)]
pub struct Tally {
    /// Pairs run.
    pub pairs: u64,
    /// Pairs that ended early, a slot going to different connections.
    pub cut_off: u64,
    /// Pairs of allowed rates compared.
    pub compared: u64,
    /// Those of which the second was lower.
    pub lower: u64,
    /// Backward cells made more congested by CI or NI.
    pub raised: u64,
    /// Backward cells with a lower explicit rate.
    pub lowered: u64,
    /// Those of which the second was 0 and the first was not.
    pub stopped: u64,
    /// Cells made in both lists.
    pub made: u64,
    /// Out-of-rate cells written in both lists.
    pub outside: u64,
    /// Those with different CCR.
    pub outside_lower: u64,
    /// Data slots of members in both lists.
    pub members: u64,
}

impl Counts for Tally {
    fn add(&mut self, other: &Tally) {
        self.pairs += other.pairs;
        self.cut_off += other.cut_off;
        self.compared += other.compared;
        self.lower += other.lower;
        self.raised += other.raised;
        self.lowered += other.lowered;
        self.stopped += other.stopped;
        self.made += other.made;
        self.outside += other.outside;
        self.outside_lower += other.outside_lower;
        self.members += other.members;
    }
}

/// Both lists of a pair, as far as they have run.
#[derive(Default)]
struct Pair {
    first: Library,
    second: Library,
    seen: Observation,
    /// The data cells of each list.
    accounts: [Accounts; 2],
}

/// Runs the pair of a seed, and says where the claim is wrong.
pub fn run(seed: u64, profile: Profile, tally: &mut Tally) -> Result<(), Difference> {
    let mut generator = Generator::new(seed, profile);
    let mut rng = Rng::new(!seed);
    let mut pair = Pair::default();
    tally.pairs += 1;
    for index in 0..LIST + profile.first() {
        let call = generator.next(&pair.seen);
        let worse = congested(&call, &mut rng, tally);
        let goes_on = pair.step(&call, &worse, tally).map_err(|difference| {
            let name = profile.name;
            format!("pair {seed} ({name}), call {index}, {call:x?} and {worse:x?}: {difference}")
        })?;
        if !goes_on {
            tally.cut_off += 1;
            break;
        }
    }
    pair.finish()
        .map_err(|difference| format!("pair {seed}, its end: {difference}"))
}

impl Pair {
    /// Makes one call of each list. False if a slot goes to different
    /// connections, so that the claim says no more.
    fn step(&mut self, call: &Call, worse: &Call, tally: &mut Tally) -> Result<bool, Difference> {
        let mut buffers = [Buffer::new(0); 2];
        let first = self.first.call(call, &mut buffers[0])?;
        let second = self.second.call(worse, &mut buffers[1])?;
        let to = [&first, &second].map(|outcome| self.goes_to(outcome));
        self.accounts[0].add(call, &first)?;
        self.accounts[1].add(worse, &second)?;
        if to[0] != to[1] {
            return Ok(false);
        }
        if sends(&first) != sends(&second) {
            return Err(format!("{first:?} and {second:?}"));
        }
        tally.made += u64::from(matches!(call, Call::Make { .. }) && first.is_ok());
        if matches!(call, Call::OutOfRate { .. }) && first.is_ok() {
            outside(buffers, tally)?;
        }
        let named = concerned(call, &first).unwrap_or_default();
        let at = self.seen.connection_of(named);
        tally.members += u64::from(to[0].is_some() && at != named);
        let allowed = allowed(&self.first.acr(at)?);
        let acr = allowed.map_or(0, |allowed| allowed.acr);
        self.seen.add(call, &first, acr, &mut Coverage::default());
        if let Some(allowed) = allowed {
            self.seen.same_change(at, allowed)?;
        }
        self.compare(tally)?;
        Ok(true)
    }

    /// The connection that a slot goes to, a path if it is for a member; none if it is
    /// idle or refused.
    fn goes_to(&self, outcome: &Outcome) -> Option<Address> {
        match outcome {
            Ok(Answer::Sent(sent)) if sent.kind != 0 => {
                let named = Address::new(sent.vpi, sent.vci);
                Some(self.seen.connection_of(named))
            }
            _ => None,
        }
    }

    /// Closes in both lists what is still open: every account comes out even.
    fn finish(&mut self) -> Result<(), Difference> {
        let lists = [&mut self.first, &mut self.second];
        for (list, accounts) in lists.into_iter().zip(&mut self.accounts) {
            for at in self.seen.connections.keys() {
                let call = Call::Close { at: *at };
                let outcome = list.call(&call, &mut Buffer::new(0))?;
                accounts.add(&call, &outcome)?;
            }
        }
        Ok(())
    }

    /// Checks the claim for all allowed rates of both lists.
    fn compare(&self, tally: &mut Tally) -> Result<(), Difference> {
        for (at, connection) in &self.seen.connections {
            let first = self.first.acr(*at)?;
            let second = self.second.acr(*at)?;
            let (Some(one), Some(two)) = (allowed(&first), allowed(&second)) else {
                return Err(format!("ACR of {at:?}: {first:?} and {second:?}"));
            };
            let (mcr, pcr) = (connection.mcr, connection.pcr);
            let ordered = mcr <= two.acr && two.acr <= one.acr && one.acr <= pcr;
            let small = |change: i64| change.unsigned_abs() <= pcr - mcr;
            if !ordered || !small(one.change) || !small(two.change) {
                return Err(format!("{at:?}: {one:?} and {two:?}, from {mcr} to {pcr}"));
            }
            let (one, two) = (one.acr, two.acr);
            tally.compared += 1;
            tally.lower += u64::from(two < one);
            tally.stopped += u64::from(two == 0 && one > 0);
        }
        Ok(())
    }
}

/// The allowed rate and change that an accepted call answers.
fn allowed(outcome: &Outcome) -> Option<Allowed> {
    match outcome {
        Ok(Answer::Allowed(allowed)) => Some(*allowed),
        _ => None,
    }
}

/// What two calls of a pair must have in common beside the connection: the kind
/// of cell, 0 if none is sent, and its VCI, that of the member if it is a path's data; the
/// data cells of a close, 0 of any other; or the refusal.
fn sends(outcome: &Outcome) -> Result<(u32, u64), Refusal> {
    match outcome {
        Ok(Answer::Sent(sent)) => Ok((sent.kind, sent.vci.into())),
        Ok(Answer::Closed(closed)) => Ok((0, closed.cells)),
        Ok(_) => Ok((0, 0)),
        Err(refusal) => Err(*refusal),
    }
}

/// The out-of-rate cells of both lists: apart from CCR, which is not higher in the
/// second, and the CRC-10 they are the same.
fn outside(buffers: [Buffer; 2], tally: &mut Tally) -> Result<(), Difference> {
    const CCR: Range<usize> = 9..11;
    const CRC: Range<usize> = 51..53;
    let cells = buffers.map(|mut buffer| {
        let mut rest = [0; CELL_OCTETS];
        rest.copy_from_slice(buffer.octets(CELL_OCTETS));
        let ccr = u16::from_be_bytes([rest[CCR.start], rest[CCR.start + 1]]);
        rest[CCR].fill(0);
        rest[CRC].fill(0);
        (ccr, rest)
    });
    let [(one, first), (two, second)] = cells;
    if first != second || two > one {
        return Err(format!("CCR {one:x} and {two:x}: {first:x?}, {second:x?}"));
    }
    tally.outside += 1;
    tally.outside_lower += u64::from(two < one);
    Ok(())
}

/// The call of the second list: of a good backward cell sometimes one that is
/// at least as congested, of anything else the same.
fn congested(call: &Call, rng: &mut Rng, tally: &mut Tally) -> Call {
    let Call::Receive { cell } = call else {
        return *call;
    };
    let Ok(abr_reference::Cell::Rm(rm)) = abr_reference::read(cell.as_slice()) else {
        return *call;
    };
    let Ok(octets) = <[u8; CELL_OCTETS]>::try_from(cell.as_slice()) else {
        return *call;
    };
    if rm.dir == 0 || rng.once_in(2) {
        return *call;
    }
    let mut octets = octets;
    if rng.once_in(2) {
        raise_level(&mut octets[6], rng);
        tally.raised += 1;
    }
    if rng.once_in(2) {
        lower_er(&mut octets, rm.er, rng);
        tally.lowered += 1;
    }
    put_crc(&mut octets);
    Call::Receive {
        cell: Octets::cell(&octets),
    }
}

/// Sets CI and NI to a level that is not lower.
fn raise_level(bits: &mut u8, rng: &mut Rng) {
    const CI: u8 = 0x20;
    const NI: u8 = 0x10;
    let ni = rng.pick(&[0, NI]);
    let (clear, at_least_one) = (*bits & !(CI | NI), *bits & (CI | NI) == 0);
    *bits = match at_least_one && rng.once_in(2) {
        true => clear | NI,
        false => clear | CI | ni,
    };
}

/// Gives a cell an explicit rate that is not higher.
fn lower_er(octets: &mut [u8; CELL_OCTETS], code: u32, rng: &mut Rng) {
    let less = rng.below(u64::from(code) + 1) as u32;
    let near = code.saturating_sub(rng.within(0, 300));
    let lower = rng.pick(&[less, near, near]);
    octets[7..9].copy_from_slice(&(lower as u16).to_be_bytes());
}
