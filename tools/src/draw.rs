//! The picture of a trace: its cells over time in a lane for each kind, the gap that each had
//! to keep, the rate in force, and a red mark where a rule is broken.

use abr::RATE_ONE;
use abr_support::svg::{self, path, put, text, thousands};

use crate::excerpt::Excerpt;
use crate::history::gap;
use crate::trace::{Cell, Kind};

const WIDTH: f64 = 1_000.0;
const HEIGHT: f64 = 500.0;
const LEFT: f64 = 118.0;
const RIGHT: f64 = 60.0;
/// The lanes, from their upper to their lower edge.
const LANES: f64 = 104.0;
const LANE: f64 = 38.0;
/// The rate, from its upper to its lower edge.
const RATE: (f64, f64) = (290.0, 430.0);
const KINDS: [(Kind, &str); 3] = [
    (Kind::Forward, "#1f5fa8"),
    (Kind::Backward, "#c4511a"),
    (Kind::Data, "#5a5a5a"),
];
const RED: &str = "#d0021b";
const GREEN: &str = "#8fbf7f";

/// Where things stand.
struct Scale {
    first: u64,
    last: u64,
    rate: u64,
}

impl Scale {
    fn of(cells: &[Cell]) -> Self {
        let time = |cell: Option<&Cell>| cell.map_or(0, |cell| cell.time);
        let rates = cells.iter().map(|cell| cell.rate);
        Scale {
            first: time(cells.first()),
            last: time(cells.last()),
            rate: rates.max().unwrap_or(0).max(RATE_ONE),
        }
    }

    /// The horizontal place of an instant, at most the right edge.
    fn x(&self, time: u64) -> f64 {
        let (from, width) = (self.first, (self.last - self.first).max(1));
        let share = time.saturating_sub(from) as f64 / width as f64;
        LEFT + (WIDTH - LEFT - RIGHT) * share.min(1.0)
    }

    /// The vertical place of a rate.
    fn y(&self, rate: u64) -> f64 {
        let (top, floor) = RATE;
        floor - (floor - top) * rate as f64 / self.rate as f64
    }
}

/// The whole picture, with a sentence above it.
pub fn svg(name: &str, sentence: &str, excerpt: &Excerpt) -> String {
    let mut out = svg::begin((WIDTH, HEIGHT), (24.0, 30.0), name);
    for (row, line) in wrapped(sentence).iter().enumerate() {
        let y = 50.0 + 15.0 * row as f64;
        text(&mut out, (24.0, y), "start\" font-size=\"12", line);
    }
    let cells: Vec<Cell> = excerpt.cells.iter().copied().collect();
    let scale = Scale::of(&cells);
    broken(&mut out, excerpt, &scale);
    lanes(&mut out, &cells, &scale);
    gaps(&mut out, &cells, &scale);
    rates(&mut out, &cells, &scale);
    axis(&mut out, excerpt, &scale);
    out.push_str("</svg>\n");
    out
}

/// A sentence in lines that fit the picture.
fn wrapped(sentence: &str) -> Vec<String> {
    const MOST: usize = 140;
    let mut lines = vec![String::new()];
    for word in sentence.split(' ') {
        let last = lines.len() - 1;
        match lines[last].len() {
            0 => lines[last].push_str(word),
            length if length + word.len() < MOST => lines[last].extend([" ", word]),
            _ => lines.push(word.to_owned()),
        }
    }
    lines
}

/// The vertical middle of a lane.
fn lane(place: usize) -> f64 {
    LANES + LANE * (place as f64 + 0.5)
}

/// A line on the left that names a lane or an axis.
fn label(out: &mut String, y: f64, words: &str) {
    text(out, (LEFT - 14.0, y + 5.0), "end", words);
}

/// The cells, each a stroke in the lane of its kind.
fn lanes(out: &mut String, cells: &[Cell], scale: &Scale) {
    for (place, (kind, colour)) in KINDS.into_iter().enumerate() {
        let (y, right) = (lane(place), WIDTH - RIGHT);
        label(out, y, &kind.to_string());
        put(
            out,
            format_args!("<path d=\"M{LEFT} {y}H{right}\" stroke=\"#ddd\"/>\n"),
        );
        let top = y - 0.36 * LANE;
        let strokes: String = cells
            .iter()
            .filter(|cell| cell.kind == kind)
            .map(|cell| format!("M{:.1} {top:.1}v{:.1}", scale.x(cell.time), 0.72 * LANE))
            .collect();
        path(out, &strokes, colour, 3.0);
    }
}

/// The least time after each cell, which the next one keeps or not.
fn gaps(out: &mut String, cells: &[Cell], scale: &Scale) {
    let y = lane(KINDS.len());
    label(out, y, "gap");
    let (mut kept, mut missed) = (String::new(), String::new());
    for pair in cells.windows(2) {
        let (before, cell) = (pair[0].time, pair[1]);
        let gap = gap(cell.rate).unwrap_or(u64::MAX);
        let early = cell.passed < gap;
        let line = if early { &mut missed } else { &mut kept };
        let (from, to) = (scale.x(before), scale.x(before.saturating_add(gap)));
        put(line, format_args!("M{from:.1} {y:.1}H{to:.1}"));
    }
    path(out, &kept, GREEN, 6.0);
    path(out, &missed, RED, 6.0);
}

/// The rate in force before each cell, from the cell before to it.
fn rates(out: &mut String, cells: &[Cell], scale: &Scale) {
    let ((top, floor), right) = (RATE, WIDTH - RIGHT);
    svg::axes(out, (LEFT, right), (top, floor));
    let most = scale.rate as f64 / RATE_ONE as f64;
    label(out, top, &format!("{most:.0}"));
    label(out, floor, "0");
    text(
        out,
        (LEFT + 8.0, top - 10.0),
        "start",
        "rate before each cell, in cells per second",
    );
    let mut line = String::new();
    for (place, cell) in cells.iter().enumerate() {
        let (x, y) = (scale.x(cell.time), scale.y(cell.rate));
        match place {
            0 => put(&mut line, format_args!("M{x:.1} {y:.1}")),
            _ => put(&mut line, format_args!("V{y:.1}H{x:.1}")),
        }
    }
    path(out, &line, "#1f5fa8", 2.0);
}

/// Marks the cell that breaks a rule.
fn broken(out: &mut String, excerpt: &Excerpt, scale: &Scale) {
    let Some(broken) = excerpt.broken else {
        return;
    };
    let Some(cell) = broken.cell else {
        return;
    };
    let (x, top, floor) = (scale.x(cell.time), LANES - 6.0, RATE.1);
    let height = floor - top;
    put(
        out,
        format_args!(
            "<rect x=\"{:.1}\" y=\"{top}\" width=\"12\" height=\"{height}\" fill=\"{RED}\" fill-opacity=\"0.2\" stroke=\"{RED}\"/>\n",
            x - 6.0
        ),
    );
    let words = format!(
        "cell {}: rule {}",
        thousands(cell.number),
        broken.rule.number()
    );
    let anchor = match x {
        x if x < 220.0 => "start",
        x if x > 840.0 => "end",
        _ => "middle",
    };
    svg::name(out, (x, top - 8.0), anchor, RED, &words);
}

/// The time and the cells that are shown.
fn axis(out: &mut String, excerpt: &Excerpt, scale: &Scale) {
    let floor = RATE.1;
    let span = scale.last - scale.first;
    for tick in 0..=4 {
        let time = scale.first + span / 4 * tick;
        svg::tick(out, (scale.x(time), floor), &microseconds(time));
    }
    let words = match (excerpt.cells.front(), excerpt.cells.back(), excerpt.last) {
        (Some(first), Some(last), Some(all)) => format!(
            "time in microseconds; cells {} to {} of {}",
            thousands(first.number),
            thousands(last.number),
            thousands(all.number)
        ),
        _ => "there is no cell to show".to_owned(),
    };
    let middle = (LEFT + WIDTH - RIGHT) / 2.0;
    text(out, (middle, HEIGHT - 16.0), "middle", &words);
}

/// Nanoseconds as microseconds.
fn microseconds(time: u64) -> String {
    format!("{}.{:03}", thousands(time / 1_000), time % 1_000)
}
