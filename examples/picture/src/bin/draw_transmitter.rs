//! Draws what `examples/transmitter.c` did: `draw_transmitter NUMBERS OWN`, where NUMBERS is the file that the
//! example wrote and OWN that of a run with a lag of 0; the SVG goes to standard output. A line of a file is a phase
//! (`phase FROM TO WORDS`), or an instant with the allowed rates of three connections, the length of the network's
//! queue, and the cells of the leased circuit: those sent and those promised.

use std::ffi::OsString;
use std::process::ExitCode;

use abr_picture::track::Track;
use abr_support::console::Console;
use abr_support::plot::{Plot, MS};
use abr_support::svg::{self, text};

const CONSOLE: Console = Console {
    program: "draw_transmitter",
};

const HELP: &str = "\
usage: draw_transmitter NUMBERS OWN

Draws what examples/transmitter.c did, as an SVG on standard output. NUMBERS is the file that the
example wrote, OWN the one that it wrote with a lag of 0.

Exit status: 0 if the picture is made, 2 if not: the arguments are wrong, a file can't be read or
has a line that is not the example's, or the picture can't be written.
";

/// The connections of the example, and their colours.
const CONNECTIONS: [(&str, &str); 3] = [
    ("0/100", "#1f5fa8"),
    ("0/101", "#c4511a"),
    ("1/100", "#2f7d3b"),
];
const QUEUE: &str = "#8a6d9e";
/// What the leased circuit has less than was promised: with `abr_slot_time`, and with the slots' own times.
const WAYS: [(&str, &str); 2] = [
    ("times of abr_slot_time", "#2f7d3b"),
    ("the slots' own times", "#b3261e"),
];
const SIDES: (f64, f64) = (84.0, 880.0);
/// The plot of the rates, and below it those of the queue and of the cells that are missing.
const RATES: (f64, f64) = (84.0, 330.0);
const LENGTHS: (f64, f64) = (370.0, 430.0);
const MISSING: (f64, f64) = (470.0, 570.0);

/// A phase in which the network, or the far end, allows less.
struct Phase {
    from: u64,
    to: u64,
    words: String,
}

/// What a file of numbers holds.
#[derive(Default)]
struct Numbers {
    phases: Vec<Phase>,
    tracks: [Track; 3],
    queue: Vec<(u64, f64)>,
    missing: Vec<(u64, f64)>,
    end: u64,
}

fn main() -> ExitCode {
    let arguments: Vec<OsString> = std::env::args_os().skip(1).collect();
    let files = match &arguments[..] {
        [help] if help == "--help" => return CONSOLE.help(HELP),
        [numbers, own] => [numbers, own],
        _ => return CONSOLE.wrong_arguments("two files of numbers"),
    };
    match files.map(from_file) {
        [Ok(numbers), Ok(own)] => CONSOLE.write(None, picture(&numbers, &own).as_bytes()),
        [Err(why), _] | [_, Err(why)] => CONSOLE.complain(format_args!("{why}")),
    }
}

/// The numbers of a file, or what is wrong with it.
fn from_file(file: &OsString) -> Result<Numbers, String> {
    let lines = std::fs::read_to_string(file).map_err(|error| error.to_string());
    let numbers = lines.and_then(|lines| read(&lines));
    numbers.map_err(|why| format!("{}: {why}", file.display()))
}

/// The numbers of a file, or the line that is none of the example's.
fn read(lines: &str) -> Result<Numbers, String> {
    let mut numbers = Numbers::default();
    for line in lines.lines() {
        add(&mut numbers, line).ok_or_else(|| format!("not a line of the example: {line}"))?;
    }
    for track in &mut numbers.tracks {
        track.end(numbers.end);
    }
    Ok(numbers)
}

/// Adds a line; none if it is no line of the example.
fn add(numbers: &mut Numbers, line: &str) -> Option<()> {
    if let Some(phase) = line.strip_prefix("phase ") {
        let mut parts = phase.splitn(3, ' ');
        numbers.phases.push(Phase {
            from: parts.next()?.parse().ok()?,
            to: parts.next()?.parse().ok()?,
            words: parts.next()?.to_owned(),
        });
        return Some(());
    }
    let values: Result<Vec<u64>, _> = line.split(' ').map(str::parse).collect();
    let [time, rates @ .., queue, sent, promised] = &values.ok()?[..] else {
        return None;
    };
    if rates.len() != numbers.tracks.len() {
        return None;
    }
    for (track, rate) in numbers.tracks.iter_mut().zip(rates) {
        track.add(*time, *rate);
    }
    numbers.queue.push((*time, *queue as f64));
    let missing = promised.saturating_sub(*sent);
    numbers.missing.push((*time, missing as f64));
    numbers.end = *time;
    Some(())
}

/// The whole picture.
fn picture(numbers: &Numbers, own: &Numbers) -> String {
    let plot = |heights, most| Plot {
        sides: SIDES,
        heights,
        end: numbers.end.max(1),
        most,
    };
    let (rates, lengths) = (plot(RATES, 2_500.0), plot(LENGTHS, 50.0));
    let missing = plot(MISSING, 250.0);
    let title = "Beside a leased circuit: allowed rates, the queue, the cells it misses";
    let mut out = svg::begin((960.0, 630.0), (SIDES.0, 28.0), title);
    for (place, phase) in numbers.phases.iter().enumerate() {
        band(&mut out, &rates, phase, place);
    }
    rates.rates(&mut out, 500);
    lengths.rates(&mut out, 25);
    missing.rates(&mut out, 125);
    missing.times(&mut out, 50);
    for (place, (track, (name, colour))) in numbers.tracks.iter().zip(CONNECTIONS).enumerate() {
        svg::path(&mut out, &rates.steps(&track.points), colour, 2.0);
        let at = (rates.x(8 * MS), RATES.0 + 24.0 + 20.0 * place as f64);
        svg::name(&mut out, at, "start", colour, name);
    }
    svg::path(&mut out, &lengths.steps(&numbers.queue), QUEUE, 1.6);
    for (place, (of, (words, colour))) in [numbers, own].iter().zip(WAYS).enumerate() {
        svg::path(&mut out, &missing.steps(&of.missing), colour, 2.6);
        let at = (missing.x(8 * MS), MISSING.0 + 14.0 + 18.0 * place as f64);
        svg::name(&mut out, at, "start", colour, words);
    }
    for plot in [rates, lengths, missing] {
        plot.axes(&mut out);
    }
    svg::upright(&mut out, (22.0, 207.0), "allowed cells per second (ACR)");
    svg::upright(&mut out, (22.0, 400.0), "queue");
    svg::upright(&mut out, (22.0, 520.0), "cells missing");
    text(&mut out, (482.0, 618.0), "middle", "time in milliseconds");
    out.push_str("</svg>\n");
    out
}

/// A band for a phase through all plots, with its words above; every second one stands higher.
fn band(out: &mut String, plot: &Plot, phase: &Phase, place: usize) {
    let (from, to) = (plot.x(phase.from), plot.x(phase.to));
    let (top, width, height) = (RATES.0, to - from, MISSING.1 - RATES.0);
    svg::rect(out, (from, top), (width, height), "#eee3d0");
    let at = ((from + to) / 2.0, top - 8.0 - 18.0 * (place % 2) as f64);
    text(out, at, "middle", &phase.words);
}
