//! A part of a picture with time to the right and a rate upwards.

use crate::svg::{self, put, thousands};

/// One millisecond.
pub const MS: u64 = 1_000_000;

/// Where it stands, and what its scales end at.
#[derive(Debug, Clone, Copy)]
pub struct Plot {
    /// The left and the right edge.
    pub sides: (f64, f64),
    /// The upper and the lower edge.
    pub heights: (f64, f64),
    /// The last instant.
    pub end: u64,
    /// The top of the scale, in cells per second.
    pub most: f64,
}

impl Plot {
    /// The horizontal place of an instant.
    pub fn x(&self, time: u64) -> f64 {
        let (left, right) = self.sides;
        left + (right - left) * time as f64 / self.end as f64
    }

    /// The vertical place of a rate in cells per second.
    pub fn y(&self, cells: f64) -> f64 {
        let (top, floor) = self.heights;
        floor - (floor - top) * cells / self.most
    }

    /// A line of the grid for every so many cells per second.
    pub fn rates(&self, out: &mut String, every: usize) {
        for cells in (0..=self.most as u32).step_by(every) {
            let words = thousands(cells.into());
            svg::grid(out, self.sides, self.y(cells.into()), &words);
        }
    }

    /// A mark on the time axis for every so many milliseconds.
    pub fn times(&self, out: &mut String, every: usize) {
        for ms in (0..=self.end / MS).step_by(every) {
            svg::tick(out, (self.x(ms * MS), self.heights.1), &thousands(ms));
        }
    }

    /// Both axes.
    pub fn axes(&self, out: &mut String) {
        svg::axes(out, self.sides, self.heights);
    }

    /// A line through instants and the rates from then on, in steps.
    pub fn steps(&self, points: &[(u64, f64)]) -> String {
        let mut path = String::new();
        for (place, (time, cells)) in points.iter().enumerate() {
            let (x, y) = (self.x(*time), self.y(*cells));
            match place {
                0 => put(&mut path, format_args!("M{x:.1} {y:.1}")),
                _ => put(&mut path, format_args!("H{x:.1}V{y:.1}")),
            }
        }
        path
    }
}
