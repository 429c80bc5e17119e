//! What is read after each call of a list beside the connection that it concerns: some pair, some
//! leaf and some member, which may be there or not. Counts of what was read.

use abr::ffi::{abr_connection, abr_member, ABR_CHANNEL, ABR_NEVER};
use abr::{COMPARISONS_MAX, CONNECTIONS_MAX, MEMBERS_MAX};
use abr_reference::{Address, Refusal};

use crate::leaves::Leaves;
use crate::rng::Rng;

/// What a reading may meet.
pub const MET: [&str; 11] = [
    "status of a channel",
    "status of a path",
    "status of a member",
    "status of an unknown pair",
    "status of a pair out of range",
    "leaf of a channel",
    "leaf of a path",
    "free leaf",
    "leaf over the last",
    "number of a member",
    "number of no member",
];

/// Whether a field is other than at the open of its connection.
type Differs = fn(&abr_connection) -> bool;

/// The fields that change, and the initial rate that the open may lower.
pub const FIELDS: [(&str, Differs); 17] = [
    ("waiting", |read| read.waiting > 0),
    ("icr_used", |read| {
        read.icr_used < abr_reference::rate_of(read.params.icr)
    }),
    ("acr", |read| read.acr != read.icr_used),
    ("change, a rise", |read| read.change > 0),
    ("change, a fall", |read| read.change < 0),
    ("last_sent", |read| read.last_sent != ABR_NEVER),
    ("last_forward", |read| read.last_forward != read.last_sent),
    ("ready", |read| read.ready != ABR_NEVER),
    ("last_made", |read| read.last_made != ABR_NEVER),
    ("last_out_of_rate", |read| {
        read.last_out_of_rate != ABR_NEVER
    }),
    ("unanswered", |read| read.unanswered > 0),
    ("backward_sent", |read| read.backward_sent > 0),
    ("efci", |read| read.efci > 0),
    ("turned", |read| read.turned > 0),
    ("made_level, 1", |read| read.made_level == 1),
    ("made_level, 2", |read| read.made_level == 2),
    ("served", |read| read.served > 0),
];

/// The counts of what was read.
#[derive(Debug, Clone, Copy, PartialEq, Eq, Default)]
pub struct Readings {
    /// In the order of [`MET`].
    pub met: [u64; MET.len()],
    /// In the order of [`FIELDS`], as at the open and other than that.
    pub fields: [[u64; 2]; FIELDS.len()],
}

impl Readings {
    /// Counts the status of a pair.
    pub fn status(&mut self, at: Address, read: &Result<abr_connection, Refusal>) {
        let place = match read {
            Ok(read) => {
                self.fields(read);
                read.kind - ABR_CHANNEL
            }
            Err(_) if at.fits() => 3,
            Err(_) => 4,
        };
        self.met[place as usize] += 1;
    }

    /// Counts the status of a leaf.
    pub fn leaf(&mut self, leaf: u32, read: &Result<abr_connection, Refusal>) {
        let over = leaf as usize >= CONNECTIONS_MAX;
        let place = match read {
            Ok(read) => 5 + read.kind - ABR_CHANNEL,
            Err(_) => 7 + u32::from(over),
        };
        self.met[place as usize] += 1;
    }

    /// Counts a member by its number.
    pub fn member(&mut self, read: &Result<abr_member, Refusal>) {
        self.met[9 + usize::from(read.is_err())] += 1;
    }

    /// Adds the counts of others.
    pub fn add(&mut self, other: &Readings) {
        let to = self.met.iter_mut().chain(self.fields.as_flattened_mut());
        let from = other.met.iter().chain(other.fields.as_flattened());
        to.zip(from).for_each(|(to, from)| *to += from);
    }

    /// All counts, by name.
    pub fn counts(&self) -> Vec<(u64, String)> {
        let met = self.met.iter().zip(MET);
        let mut counts: Vec<_> = met.map(|(count, name)| (*count, name.to_owned())).collect();
        for ([same, other], (name, _)) in self.fields.iter().zip(FIELDS) {
            counts.push((*same, format!("status, {name} as at the open")));
            counts.push((*other, format!("status, {name} other than at the open")));
        }
        counts
    }

    fn fields(&mut self, read: &abr_connection) {
        for (counts, (_, differs)) in self.fields.iter_mut().zip(FIELDS) {
            counts[usize::from(differs(read))] += 1;
        }
    }
}

/// What is read after one call.
#[derive(Debug, Clone, Copy)]
pub struct Drawn {
    /// Mostly a connection or a member, or like one.
    pub pair: Address,
    /// Mostly a taken one, or the first behind those.
    pub leaf: u32,
    /// Mostly that of a member, or the first that is none.
    pub number: u32,
}

impl Drawn {
    /// Draws in a table with these leaves and so many members, of which one was this.
    pub fn new(rng: &mut Rng, leaves: &Leaves, members: u32, member: Address) -> Self {
        let any = rng.next() as u32;
        let near = rng.below(leaves.taken() as u64 + 2) as u32;
        let over = CONNECTIONS_MAX as u32 + (any & 3);
        let one_of_all = any >> (u32::BITS - COMPARISONS_MAX);
        let leaf = rng.pick(&[near, near, near, near, one_of_all, over, any]);
        let one = rng.below(u64::from(members) + 1) as u32;
        let past = MEMBERS_MAX as u32 + (any & 3);
        let number = rng.pick(&[one, one, one, members, past, any]);
        let connection = leaves.connection(near).unwrap_or(member);
        let like = rng.pick(&[connection, member]);
        let pair = like_pair(rng, like, any);
        Drawn { pair, leaf, number }
    }
}

/// A pair, or one that is like it.
fn like_pair(rng: &mut Rng, like: Address, any: u32) -> Address {
    let Address { vpi, vci } = like;
    let pairs = [
        (vpi, vci),
        (vpi, vci),
        (vpi, vci ^ 1),
        (vpi, abr::PATH_VCI),
        (vpi ^ 1 << (any & 7), vci),
        (vpi + 256, vci),
        (vpi, vci + 65_536),
        (vpi.wrapping_sub(1), vci + 65_536),
        (0, (vpi << 16) + vci),
        (any & 255, any >> 16),
    ];
    let (vpi, vci) = rng.pick(&pairs);
    Address::new(vpi, vci)
}

#[cfg(test)]
mod tests {
    use super::*;
    use abr::ffi::{ABR_MEMBER, ABR_PATH};

    #[test]
    fn the_places_of_what_was_met() {
        let mut readings = Readings::default();
        let read = |kind| abr_connection {
            kind,
            ..abr_connection::default()
        };
        let unknown = Err(Refusal::NotOpen);
        for kind in [ABR_CHANNEL, ABR_PATH, ABR_MEMBER] {
            readings.status(Address::new(0, 32), &Ok(read(kind)));
        }
        readings.status(Address::new(255, 65_535), &unknown);
        readings.status(Address::new(256, 32), &unknown);
        readings.leaf(0, &Ok(read(ABR_CHANNEL)));
        let last = CONNECTIONS_MAX as u32 - 1;
        readings.leaf(last, &Ok(read(ABR_PATH)));
        readings.leaf(last, &unknown);
        readings.leaf(last + 1, &unknown);
        readings.member(&Ok(abr_member::default()));
        readings.member(&Err(Refusal::NotOpen));
        assert_eq!(readings.met, [1; MET.len()]);
        assert!(readings
            .fields
            .iter()
            .all(|[same, other]| same + other == 3));
    }
}
