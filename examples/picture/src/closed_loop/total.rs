//! What the sources may send, one above the other: of each the lower of the rate that it is
//! allowed and the rate that it demands.

use abr_support::plot::{Plot, MS};
use abr_support::svg::put;

use super::draw::COLOURS;
use super::sources::{END, SOURCES};
use super::station::History;

/// From one instant that is looked at to the next.
const EVERY: u64 = 10 * MS;

/// What one of the sources may send at an instant, in cells per second.
fn usable(place: usize, history: &History, time: u64) -> f64 {
    let demand = SOURCES[place].demand(time) as f64;
    history.track.at(time).map_or(0.0, |acr| acr.min(demand))
}

/// What these sources, the first ones, may send together at an instant.
pub fn sum(histories: &[History], time: u64) -> f64 {
    let each = histories.iter().enumerate();
    each.map(|(place, history)| usable(place, history, time))
        .sum()
}

/// An area for each source, on those of the sources before it.
pub fn areas(out: &mut String, plot: &Plot, histories: &[History]) {
    for count in (1..=histories.len()).rev() {
        let mut points: Vec<(u64, f64)> = Vec::new();
        for time in (0..END).step_by(EVERY as usize) {
            let cells = sum(&histories[..count], time);
            if points.last().is_none_or(|(_, last)| *last != cells) {
                points.push((time, cells));
            }
        }
        let (line, floor, right) = (plot.steps(&points), plot.heights.1, plot.x(END));
        let colour = COLOURS[count - 1];
        put(
            out,
            format_args!(
                "<path d=\"{line}H{right:.1}V{floor}H{:.1}Z\" fill=\"{colour}\"/>\n",
                plot.x(0)
            ),
        );
    }
}
