//! The addresses of a list, and pairs that are none of them (document 02, L6).

use std::collections::BTreeSet;

use abr::{VCI_MAX, VCI_MIN, VPI_MAX};
use abr_reference::Address;

use super::Generator;
use crate::observation::Observation;
use crate::rng::Rng;

/// So many addresses, rising: one VCI after the other on one VPI; the same VCIs on two
/// or more VPIs; or any.
pub(super) fn pool(rng: &mut Rng, count: u32) -> Vec<Address> {
    let any = rng.within(0, VPI_MAX);
    let vpi = rng.pick(&[0, 1, VPI_MAX, any]);
    let first = rng.pick(&[VCI_MIN, 100, 4_000, VCI_MAX + 1 - count]);
    let paths = rng.pick(&[2, 3, VPI_MAX + 1]);
    let mut addresses: BTreeSet<Address> = match rng.below(3) {
        0 => (0..count).map(|i| Address::new(vpi, first + i)).collect(),
        1 => (0..count)
            .map(|i| Address::new((vpi + i % paths) & VPI_MAX, first + i / paths))
            .collect(),
        _ => BTreeSet::new(),
    };
    while addresses.len() < count as usize {
        let (vpi, vci) = (rng.within(0, VPI_MAX), rng.within(VCI_MIN, VCI_MAX));
        addresses.insert(Address::new(vpi, vci));
    }
    addresses.into_iter().collect()
}

impl Generator {
    /// An address, mostly an open one.
    pub(super) fn address(&mut self, seen: &Observation) -> Address {
        if self.fault() || seen.connections.is_empty() {
            return self.unknown(seen);
        }
        self.open_one(seen).unwrap_or_default()
    }

    /// An open address, if there is one.
    pub(super) fn open_one(&mut self, seen: &Observation) -> Option<Address> {
        let open = seen.connections.len().max(1) as u64;
        let place = self.rng.below(open) as usize;
        seen.connections.keys().nth(place).copied()
    }

    /// A pair that is hardly ever open, often like one that is.
    fn unknown(&mut self, seen: &Observation) -> Address {
        let any = self.rng.next() as u32;
        let Address { vpi, vci } = self.open_one(seen).unwrap_or_default();
        let other_path = Address::new(vpi ^ 1 << self.rng.below(8), vci);
        let anywhere = Address::new(any & VPI_MAX, any >> 8 & VCI_MAX);
        let outside = self.out_of_range(seen);
        let member = self.any_member(seen).unwrap_or(other_path);
        self.rng
            .pick(&[other_path, anywhere, outside, outside, member])
    }

    /// A pair with a number out of its range, often one that would be open if it were
    /// cut or added to the other.
    fn out_of_range(&mut self, seen: &Observation) -> Address {
        let open = self.open_one(seen).unwrap_or(Address::new(1, VCI_MIN));
        self.outside(open)
    }

    /// A pair with a number out of its range, often one that would be this pair if it were
    /// cut or added to the other.
    pub(super) fn outside(&mut self, like: Address) -> Address {
        let any = self.rng.next() as u32;
        let Address { vpi, vci } = like;
        let pairs = [
            (vpi + 256, vci),
            (vpi | 1 << 31, vci),
            (vpi + 65_536, vci),
            (vpi, vci + 65_536),
            (vpi.wrapping_sub(1), vci + 65_536),
            (0, (vpi << 16) + vci + u32::from(vpi == 0) * 65_536),
            (256, 0),
            (0, 65_568),
            (any | 256, any.rotate_left(16)),
        ];
        let (vpi, vci) = self.rng.pick(&pairs);
        Address::new(vpi, vci)
    }

    /// An address that no open is accepted for: of a VCI under 32 on any VPI, or not in
    /// range.
    pub(super) fn address_not_to_open(&mut self, seen: &Observation) -> Address {
        let (low, any) = (self.rng.pick(&[0, 1, 30, 31]), self.rng.next() as u32);
        let of_low_vci = Address::new(self.rng.pick(&[0, 255, 256, any]), low);
        let outside = self.out_of_range(seen);
        self.rng.pick(&[of_low_vci, outside, outside])
    }

    /// An address of the list, sometimes a member; in every second open of a list that
    /// began with a full table one that is not open.
    pub(super) fn address_to_open(&mut self, seen: &Observation) -> Address {
        if !seen.members.is_empty() && self.rng.once_in(8) {
            return self.any_member(seen).unwrap_or_default();
        }
        let place = self.rng.below(self.addresses.len() as u64) as usize;
        let any = self.addresses[place];
        if self.profile.filled == 0 || self.rng.once_in(2) {
            return any;
        }
        let (before, after) = self.addresses.split_at(place);
        let mut from_there = after.iter().chain(before);
        let closed = from_there.find(|at| !seen.connections.contains_key(at));
        closed.copied().unwrap_or(any)
    }
}
