//! The allowed rate of one connection over time.

use abr::RATE_ONE;

/// Instants, and the cells per second allowed from then on.
#[derive(Debug, Clone, Default)]
pub struct Track {
    pub points: Vec<(u64, f64)>,
}

impl Track {
    /// Adds a point if the rate has changed.
    pub fn add(&mut self, time: u64, acr: u64) {
        let cells = acr as f64 / RATE_ONE as f64;
        if self.points.last().is_none_or(|(_, last)| *last != cells) {
            self.points.push((time, cells));
        }
    }

    /// Adds a point at which the track ends.
    pub fn end(&mut self, time: u64) {
        match self.points.last().copied() {
            Some((last, cells)) if last < time => self.points.push((time, cells)),
            _ => (),
        }
    }

    /// The cells per second allowed at an instant, if the track has begun and not ended.
    pub fn at(&self, time: u64) -> Option<f64> {
        let behind = self.points.partition_point(|(from, _)| *from <= time);
        let ended = behind == self.points.len() && self.points.last()?.0 < time;
        let (_, cells) = self.points.get(behind.checked_sub(1)?)?;
        (!ended).then_some(*cells)
    }
}
