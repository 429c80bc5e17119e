//! The pictures of slot cost: over the number of connections, and over that of links.

use abr_support::svg::thousands;

use crate::chart::{Chart, Line};

/// The picture of (connections, library, reference).
pub fn picture(points: &[(u32, f64, f64)]) -> String {
    let line = |name: &str, points| Line {
        name: name.to_owned(),
        points,
    };
    let library = points.iter().map(|p| (p.0, p.1)).collect();
    let reference = points.iter().map(|p| (p.0, p.2)).collect();
    Chart {
        title: "The cost of one slot by the number of busy connections",
        numbers: "busy connections",
        costs: "nanoseconds, best of many rounds",
        lines: vec![
            line("library", library),
            line("reference, a scan", reference),
        ],
    }
    .draw()
}

/// The picture of lines of connections, links and nanoseconds, as bench/links.c prints them: a
/// line for each number of connections. Nothing if one of them is no such line.
pub fn links(measured: &str) -> Option<String> {
    let mut lines: Vec<(u64, Line)> = Vec::new();
    for row in measured.lines() {
        let mut words = row.split_whitespace();
        let connections = words.next()?.parse().ok()?;
        let point = (words.next()?.parse().ok()?, words.next()?.parse().ok()?);
        match lines.iter_mut().find(|(of, _)| *of == connections) {
            Some((_, line)) => line.points.push(point),
            None => lines.push((connections, edition(connections, point))),
        }
    }
    let chart = Chart {
        title: "The cost of one slot by the number of links, all connections busy",
        numbers: "links on one processor, a slot of each in turn",
        costs: "nanoseconds, median",
        lines: lines.into_iter().map(|(_, line)| line).collect(),
    };
    Some(chart.draw())
}

/// The line of an edition, with its first point.
fn edition(connections: u64, point: (u32, f64)) -> Line {
    Line {
        name: format!("{} connections", thousands(connections)),
        points: vec![point],
    }
}
