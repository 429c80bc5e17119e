//! The picture of two connections.

use abr::{Address, Refusal};
use abr_support::plot::Plot;
use abr_support::scenario::{self, CONNECTIONS, END, PHASES};
use abr_support::svg::{self, text};

use crate::track::Track;

const WIDTH: f64 = 960.0;
const HEIGHT: f64 = 480.0;
const LEFT: f64 = 84.0;
const RIGHT: f64 = WIDTH - 130.0;
const TOP: f64 = 84.0;
const FLOOR: f64 = HEIGHT - 64.0;
const COLOURS: [&str; 2] = ["#1f5fa8", "#c4511a"];
const PLOT: Plot = Plot {
    sides: (LEFT, RIGHT),
    heights: (TOP, FLOOR),
    end: END,
    most: 9_000.0,
};

/// The allowed rates of both connections, over the scenario.
pub fn tracks() -> Result<[Track; 2], Refusal> {
    let mut tracks = [Track::default(), Track::default()];
    scenario::run(|slot| {
        for (track, acr) in tracks.iter_mut().zip(slot.after) {
            track.add(slot.time, acr);
        }
    })?;
    tracks.iter_mut().for_each(|track| track.end(END));
    Ok(tracks)
}

/// The whole picture.
pub fn svg(tracks: &[Track; 2]) -> String {
    let title = "Allowed rates of two connections under changing congestion";
    let mut out = svg::begin((WIDTH, HEIGHT), (LEFT, 28.0), title);
    phases(&mut out);
    axes(&mut out);
    for ((track, at), colour) in tracks.iter().zip(CONNECTIONS).zip(COLOURS) {
        line(&mut out, track, at, colour);
    }
    out.push_str("</svg>\n");
    out
}

/// A band for each phase, with its name above.
fn phases(out: &mut String) {
    for phase in &PHASES {
        let (from, to) = (PLOT.x(phase.span.0), PLOT.x(phase.span.1));
        let (width, height) = (to - from, FLOOR - TOP);
        svg::rect(out, (from, TOP), (width, height), "#eee3d0");
        for (row, words) in phase.name.iter().enumerate() {
            let at = ((from + to) / 2.0, TOP - 24.0 + 17.0 * row as f64);
            text(out, at, "middle", words);
        }
    }
}

/// Both axes with their grid and names.
fn axes(out: &mut String) {
    PLOT.rates(out, 1_000);
    PLOT.times(out, 200);
    PLOT.axes(out);
    let below = ((LEFT + RIGHT) / 2.0, HEIGHT - 14.0);
    text(out, below, "middle", "time in milliseconds");
    let beside = (22.0, (TOP + FLOOR) / 2.0);
    svg::upright(out, beside, "allowed cells per second (ACR)");
}

/// A rate over time, named at its end.
fn line(out: &mut String, track: &Track, at: Address, colour: &str) {
    svg::path(out, &PLOT.steps(&track.points), colour, 2.2);
    if let Some((time, cells)) = track.points.last() {
        let end = (PLOT.x(*time) + 8.0, PLOT.y(*cells) + 5.0);
        svg::name(out, end, "start", colour, &format!("VCI {}", at.vci));
    }
}
