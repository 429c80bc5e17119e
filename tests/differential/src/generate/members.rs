//! Paths and their members (document 02, L13): mostly those of the list, and pairs that
//! are none, or belong to a channel.

use std::collections::BTreeSet;

use abr::{PATH_VCI, VCI_MAX, VCI_MIN, VPI_MAX};
use abr_reference::Address;

use super::Generator;
use crate::call::Call;
use crate::observation::Observation;
use crate::rng::Rng;

/// So many VPIs, some of them with channels of the list.
pub(super) fn paths(rng: &mut Rng, channels: &[Address], count: u32) -> Vec<u32> {
    let mut paths = BTreeSet::new();
    while paths.len() < count as usize {
        let any = rng.within(0, VPI_MAX);
        let of_channel = rng.pick(channels).vpi;
        paths.insert(rng.pick(&[of_channel, of_channel, 0, VPI_MAX, any]));
    }
    paths.into_iter().collect()
}

/// So many pairs on these VPIs, some of them channels of the list.
pub(super) fn members(
    rng: &mut Rng,
    paths: &[u32],
    channels: &[Address],
    count: u32,
) -> Vec<Address> {
    let mut members = BTreeSet::new();
    while members.len() < count as usize {
        let any = rng.within(VCI_MIN, VCI_MAX);
        let of_channel = rng.pick(channels).vci;
        let vci = rng.pick(&[VCI_MIN, VCI_MAX, of_channel, of_channel, any, any]);
        members.insert(Address::new(rng.pick(paths), vci));
    }
    members.into_iter().collect()
}

impl Generator {
    pub(super) fn open_path(&mut self, seen: &Observation) -> Call {
        let own = self.rng.pick(&self.paths);
        let vpi = match self.fault() {
            true => self.outside(Address::of_path(own)).vpi,
            false => own,
        };
        let (time, params) = self.opening(seen);
        Call::OpenPath { vpi, time, params }
    }

    pub(super) fn add(&mut self, seen: &Observation) -> Call {
        let place = self.rng.below(self.members.len() as u64) as usize;
        if self.fault() {
            let at = self.not_to_add(seen, self.members[place]);
            return Call::Add { at };
        }
        let (before, after) = self.members.split_at(place);
        let mut from_there = after.iter().chain(before);
        let new = |at: &&Address| seen.path_is_open(at.vpi) && !seen.members.contains_key(at);
        let at = from_there.find(new).unwrap_or(&self.members[place]);
        Call::Add { at: *at }
    }

    pub(super) fn offer_member(&mut self, seen: &Observation) -> Call {
        let at = self.member(seen);
        let waiting = seen.members.get(&at).copied().unwrap_or(0);
        let cells = self.cells_to_offer(waiting);
        Call::OfferMember { at, cells }
    }

    pub(super) fn remove(&mut self, seen: &Observation) -> Call {
        let at = self.member(seen);
        Call::Remove { at }
    }

    /// A pair, mostly a member.
    fn member(&mut self, seen: &Observation) -> Address {
        if !self.fault() {
            if let Some(at) = self.any_member(seen) {
                return at;
            }
        }
        self.not_a_member(seen)
    }

    /// A member, if there is one.
    pub(super) fn any_member(&mut self, seen: &Observation) -> Option<Address> {
        let count = seen.members.len().max(1) as u64;
        let place = self.rng.below(count) as usize;
        seen.members.keys().nth(place).copied()
    }

    /// The address of a data cell for a connection: itself, and mostly a member if it is a
    /// path.
    pub(super) fn data_address(&mut self, seen: &Observation, at: Address) -> Address {
        if at.vci != PATH_VCI || self.fault() {
            return at;
        }
        let members = seen.members_on(at.vpi);
        let place = self.rng.below(members.clone().count().max(1) as u64) as usize;
        let member = members.clone().nth(place);
        member.map_or(at, |(member, _)| *member)
    }

    /// A pair that is hardly ever a member: on an open path, on another VPI, a channel, the
    /// path itself, or out of range and like one.
    fn not_a_member(&mut self, seen: &Observation) -> Address {
        let any = self.rng.next() as u32;
        let own = self.rng.pick(&self.paths);
        let like = self.any_member(seen).unwrap_or(Address::new(own, VCI_MIN));
        let other_path = Address::new(like.vpi ^ 1 << self.rng.below(8), like.vci);
        let other_vci = Address::new(like.vpi, any & VCI_MAX);
        let channel = self.open_one(seen).unwrap_or(like);
        let outside = self.outside(like);
        let path = Address::of_path(own);
        let past = self.past_vci(like);
        self.rng
            .pick(&[other_path, other_vci, channel, path, outside, outside, past])
    }

    /// A pair that is not accepted as a member where one of the list would be: of a low VCI,
    /// a member, a channel beside one, on another VPI, or out of range.
    fn not_to_add(&mut self, seen: &Observation, own: Address) -> Address {
        let low = self.rng.pick(&[0, PATH_VCI, 31]);
        let low = Address::new(self.rng.pick(&[own.vpi, 256]), low);
        let member = self.any_member(seen).unwrap_or(own);
        let mut channels = seen.connections.keys();
        let channel = channels.find(|at| at.vci != PATH_VCI && seen.path_is_open(at.vpi));
        let channel = *channel.unwrap_or(&own);
        let other_path = Address::new(own.vpi ^ 1 << self.rng.below(8), own.vci);
        let outside = self.outside(own);
        let past = self.past_vci(member);
        self.rng.pick(&[
            low, member, channel, channel, other_path, outside, outside, past,
        ])
    }

    /// A pair with a VCI over 65,535, on the VPI of another or on one of the list's paths,
    /// open or not, sometimes with more bits: often one that would be that pair, or a path's
    /// own name, if it were cut.
    fn past_vci(&mut self, like: Address) -> Address {
        let (any, own) = (self.rng.next() as u32, self.rng.pick(&self.paths));
        let vpi = self.rng.pick(&[like.vpi, like.vpi, own, own, own + 256]);
        let over = VCI_MAX + 1;
        let edges = [over, over | PATH_VCI, over | like.vci, u32::MAX, any | over];
        Address::new(vpi, self.rng.pick(&edges))
    }
}
