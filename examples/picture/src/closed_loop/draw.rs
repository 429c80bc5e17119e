//! The picture of the closed loop: a plot for each source, and below them the sum of what the
//! sources may send.

use abr_support::plot::{Plot, MS};
use abr_support::svg::{self, dashed, text, thousands};

use super::feedbacks::Feedbacks;
use super::network::round_trip;
use super::sources::{changes, Source, END, SOURCES};
use super::station::History;
use super::{total, CAPACITY};

const WIDTH: f64 = 1_060.0;
const HEIGHT: f64 = 1_090.0;
const LEFT: f64 = 92.0;
const RIGHT: f64 = WIDTH - 242.0;
/// The upper edge of the first source's plot, its height, and from it to that of the next.
const FIRST: f64 = 108.0;
const HIGH: f64 = 58.0;
const APART: f64 = 70.0;
/// The sum, from its upper to its lower edge.
const TOTAL: (f64, f64) = (842.0, 1_022.0);
const GREY: &str = "#333";
const PALE_GREY: &str = "#ccc";
const SMALL: &str = "start\" font-size=\"12";

/// What stands beside the plots of the sources, and what the lowest plot shows.
const BESIDE: &str = "Right: contract, round trip, and the most feedbacks that the rate took to \
                      a goal, of the bound PCR / (PCR × RIF) + 1";
const TOGETHER: &str = "All together: of each source the lower of the rates allowed and \
                        demanded, one above the other";

/// A colour for each source.
pub const COLOURS: [&str; 10] = [
    "#1f77b4", "#ff7f0e", "#2ca02c", "#d62728", "#9467bd", "#8c564b", "#e377c2", "#7f7f7f",
    "#a5a61a", "#17a2b8",
];

/// The share over time, none where there is no limit.
type Shares = [(u64, Option<f64>)];

/// The whole picture.
pub fn svg(histories: &[History], shares: &Shares) -> String {
    let title = "Ten sources share a port: allowed rates beside the port's share";
    let mut out = svg::begin((WIDTH, HEIGHT), (LEFT, 30.0), title);
    legend(&mut out);
    instants(&mut out);
    for (place, (source, history)) in SOURCES.iter().zip(histories).enumerate() {
        source_plot(&mut out, place, source, history, shares);
    }
    let middle = FIRST + 4.5 * APART + HIGH / 2.0;
    let words = "cells per second, for each source";
    svg::upright(&mut out, (22.0, middle), words);
    draw_total(&mut out, histories);
    out.push_str("</svg>\n");
    out
}

/// What the lines and areas are, and the words beside the plots.
fn legend(out: &mut String) {
    let (x, y, colour) = (LEFT, 58.0, COLOURS[0]);
    svg::rect(out, (x, y - 11.0), (28.0, 12.0), &pale(colour));
    text(out, (x + 34.0, y), "start", "rate demanded");
    svg::path(out, &format!("M{} {}h28", x + 160.0, y - 5.0), colour, 2.2);
    text(out, (x + 194.0, y), "start", "rate allowed (ACR)");
    dashed(out, &format!("M{} {}h28", x + 350.0, y - 5.0), GREY);
    let share = "the port's share, where there is a limit";
    text(out, (x + 384.0, y), "start", share);
    svg::path(
        out,
        &format!("M{} {}v18", x + 692.0, y - 14.0),
        PALE_GREY,
        1.0,
    );
    text(
        out,
        (x + 702.0, y),
        "start",
        "a demand comes, changes or goes",
    );
    text(out, (x, 82.0), SMALL, BESIDE);
}

/// A line down the picture wherever a demand comes, changes or goes.
fn instants(out: &mut String) {
    let plot = total_plot();
    let lines = changes().into_iter().skip(1).map(|time| {
        let x = plot.x(time);
        format!("M{x:.1} {}V{}", FIRST, TOTAL.1)
    });
    svg::path(out, &lines.collect::<String>(), PALE_GREY, 1.0);
}

/// The plot of one source.
fn source_plot(
    out: &mut String,
    place: usize,
    source: &Source,
    history: &History,
    shares: &Shares,
) {
    let top = FIRST + APART * place as f64;
    let plot = Plot {
        sides: (LEFT, RIGHT),
        heights: (top, top + HIGH),
        end: END,
        most: 10_500.0,
    };
    let colour = COLOURS[place];
    plot.rates(out, 5_000);
    for (from, to, cells) in source.demands {
        area(out, &plot, (from * MS, to * MS), *cells as f64, colour);
    }
    svg::path(out, &plot.steps(&history.track.points), colour, 2.2);
    dashed(out, &share_line(&plot, shares), GREY);
    plot.axes(out);
    names(out, top, place, source, &history.feedbacks);
}

/// A rate that is demanded for a while.
fn area(out: &mut String, plot: &Plot, (from, to): (u64, u64), cells: f64, colour: &str) {
    let (x, y) = (plot.x(from), plot.y(cells));
    let size = (plot.x(to) - x, plot.heights.1 - y);
    svg::rect(out, (x, y), size, &pale(colour));
}

/// A colour that other lines are seen through.
fn pale(colour: &str) -> String {
    format!("{colour}\" fill-opacity=\"0.16")
}

/// The share where there is a limit.
fn share_line(plot: &Plot, shares: &Shares) -> String {
    let ends = shares.iter().skip(1).map(|(time, _)| *time).chain([END]);
    let limited = shares.iter().zip(ends).filter_map(|((from, share), to)| {
        let (from, to, y) = (plot.x(*from), plot.x(to), plot.y((*share)?));
        Some(format!("M{from:.1} {y:.1}H{to:.1}"))
    });
    limited.collect()
}

/// What is to be known of a source, beside its plot.
fn names(out: &mut String, top: f64, place: usize, source: &Source, feedbacks: &Feedbacks) {
    let x = RIGHT + 14.0;
    let name = format!("source {}", place + 1);
    svg::name(out, (x, top + 12.0), "start", COLOURS[place], &name);
    let (pcr, mcr) = (thousands(source.pcr), thousands(source.mcr));
    let most = feedbacks.runs.iter().filter_map(|run| run.reached).max();
    let lines = [
        format!("PCR {pcr}, MCR {mcr}, RIF 1/{}", 1 << source.r),
        format!("round trip {} ms", round_trip(source)),
        format!("feedbacks {} of {}", most.unwrap_or(0), feedbacks.bound),
    ];
    for (row, line) in lines.iter().enumerate() {
        let y = top + 27.0 + 14.0 * row as f64;
        text(out, (x, y), SMALL, line);
    }
}

/// The plot of the sum.
fn total_plot() -> Plot {
    Plot {
        sides: (LEFT, RIGHT),
        heights: TOTAL,
        end: END,
        most: 30_000.0,
    }
}

/// What all sources together may send, beside the capacity.
fn draw_total(out: &mut String, histories: &[History]) {
    let plot = total_plot();
    text(out, (LEFT, TOTAL.0 - 14.0), SMALL, TOGETHER);
    plot.rates(out, 5_000);
    total::areas(out, &plot, histories);
    let (y, (left, right)) = (plot.y(CAPACITY as f64), plot.sides);
    dashed(out, &format!("M{left} {y:.1}H{right}"), "#000");
    let words = format!("capacity {}", thousands(CAPACITY));
    svg::name(out, (right + 14.0, y + 5.0), "start", "#000", &words);
    plot.axes(out);
    plot.times(out, 200);
    let (middle, (top, floor)) = ((left + right) / 2.0, plot.heights);
    text(
        out,
        (middle, HEIGHT - 20.0),
        "middle",
        "time in milliseconds",
    );
    svg::upright(out, (22.0, (top + floor) / 2.0), "cells per second, in all");
}
