//! The explicit-rate port of a switch (document 02, L10): the share of a capacity among
//! demands, and the explicit rate of a passing backward cell limited by it.

use crate::cell::{self, Cell, Octets};
use crate::rate::{code_within, rate_of, LARGEST};
use crate::refusal::Refusal;

/// The most demands of a list.
pub const DEMANDS_MAX: usize = 1_024;

/// The greatest rate s for which the sum of min(demand, s) is not above the capacity;
/// nothing if the plain sum isn't, so that there is no limit. Refusals: 21, 22.
///
/// The demands are taken from the lowest to the highest. Each gets what it asks for as
/// long as an equal part of what is left, for it and all that follow, is no less. The
/// first for which it is less gets that part, and so do all that follow.
pub fn fair_share(capacity: u64, demands: &[u64]) -> Result<Option<u64>, Refusal> {
    if demands.len() > DEMANDS_MAX {
        return Err(Refusal::TooManyDemands);
    }
    if demands.iter().any(|demand| *demand > LARGEST) {
        return Err(Refusal::DemandTooLarge);
    }
    let mut rising = demands.to_vec();
    rising.sort_unstable();
    let mut left = capacity;
    for (place, demand) in rising.iter().enumerate() {
        let part = left / (rising.len() - place) as u64;
        if part < *demand {
            return Ok(Some(part));
        }
        left -= demand;
    }
    Ok(None)
}

/// Writes the code of the lower of ER and a rate as ER into a backward cell, with a new
/// CRC-10. Forward and data cells are left as they are. Refusals: 1, 2, 4, for RM cells
/// 5, 6, 19.
pub fn limit(rate: u64, buffer: &mut [u8]) -> Result<(), Refusal> {
    let content = cell::read(buffer)?;
    let buffer: &mut Octets = buffer.try_into().map_err(|_| Refusal::Length)?;
    match content {
        Cell::Rm(rm) if rm.dir == 1 => {
            cell::put_er(buffer, code_within(rate_of(rm.er).min(rate)));
        }
        _ => {}
    }
    Ok(())
}

/// Limits a passing cell by the share of a capacity; with no limit it is left as it is.
/// Refusals: 21, 22, then those of [`limit`].
pub fn port(capacity: u64, demands: &[u64], buffer: &mut [u8]) -> Result<(), Refusal> {
    match fair_share(capacity, demands)? {
        Some(share) => limit(share, buffer),
        None => cell::read(buffer).map(drop),
    }
}

#[cfg(test)]
#[path = "port_tests.rs"]
mod tests;
