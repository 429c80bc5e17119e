//! A picture of costs in nanoseconds, a line of points for each sort, over a number that
//! doubles. Both axes are logarithmic: costs differ by a hundred times.

use abr_support::svg::{self, put, text};

const WIDTH: f64 = 820.0;
const HEIGHT: f64 = 420.0;
const LEFT: f64 = 76.0;
const RIGHT: f64 = 150.0;
const TOP: f64 = 60.0;
const BOTTOM: f64 = 62.0;
/// The lower end of the axis.
const FLOOR: f64 = HEIGHT - BOTTOM;
/// The least distance between the names of two lines.
const APART: f64 = 18.0;

/// The colours of the lines, in their order.
const COLOURS: [&str; 2] = ["#1f5fa8", "#c4511a"];

/// The costs that the axis may name.
const COSTS: [f64; 14] = [
    1.0, 2.0, 5.0, 10.0, 20.0, 50.0, 100.0, 200.0, 500.0, 1_000.0, 2_000.0, 5_000.0, 10_000.0,
    20_000.0,
];

/// A sort, by its name, and what each number costs it.
pub struct Line {
    pub name: String,
    pub points: Vec<(u32, f64)>,
}

/// What is drawn.
pub struct Chart {
    pub title: &'static str,
    /// What the numbers count, and how the costs were measured.
    pub numbers: &'static str,
    pub costs: &'static str,
    pub lines: Vec<Line>,
}

/// The scales of both axes: the costs that are named, and the greatest number.
struct Scale {
    costs: Vec<f64>,
    most: u32,
}

impl Scale {
    /// From a cost of the axis well below the least one to the lowest that is not
    /// below the greatest.
    fn of(lines: &[Line]) -> Self {
        let points = || lines.iter().flat_map(|line| &line.points);
        let least = points().map(|point| point.1).fold(f64::MAX, f64::min);
        let most = points().map(|point| point.1).fold(0.0, f64::max);
        let low = COSTS
            .partition_point(|cost| 2.0 * *cost <= least)
            .saturating_sub(1);
        let high = COSTS
            .partition_point(|cost| *cost < most)
            .min(COSTS.len() - 1);
        Scale {
            costs: COSTS[low..=high].to_vec(),
            most: points().map(|point| point.0).max().unwrap_or(1).max(2),
        }
    }

    fn x(&self, number: u32) -> f64 {
        LEFT + (WIDTH - LEFT - RIGHT) * f64::from(number).ln() / f64::from(self.most).ln()
    }

    fn y(&self, nanoseconds: f64) -> f64 {
        let (low, high) = (self.costs[0], self.costs[self.costs.len() - 1]);
        let share = (nanoseconds / low).ln() / (high / low).ln();
        FLOOR - (FLOOR - TOP) * share
    }
}

impl Chart {
    /// The whole picture.
    pub fn draw(&self) -> String {
        let scale = Scale::of(&self.lines);
        let mut out = svg::begin((WIDTH, HEIGHT), (LEFT, 30.0), self.title);
        self.axes(&mut out, &scale);
        for (line, colour) in self.lines.iter().zip(COLOURS) {
            draw_line(&mut out, &scale, &line.points, colour);
        }
        self.names(&mut out, &scale);
        out.push_str("</svg>\n");
        out
    }

    /// Both axes with their grid and names.
    fn axes(&self, out: &mut String, scale: &Scale) {
        let (left, right) = (scale.x(1), scale.x(scale.most));
        for value in &scale.costs {
            svg::grid(out, (left, right), scale.y(*value), &value.to_string());
        }
        let Some(line) = self.lines.first() else {
            return;
        };
        for (number, _) in &line.points {
            svg::tick(out, (scale.x(*number), FLOOR), &number.to_string());
        }
        svg::axes(out, (left, right), (TOP, FLOOR));
        let (middle, bottom) = ((left + right) / 2.0, HEIGHT - 14.0);
        text(out, (middle, bottom), "middle", self.numbers);
        let middle = (TOP + FLOOR) / 2.0;
        svg::upright(out, (22.0, middle), self.costs);
    }

    /// Names the lines at their ends, from the top, each moved down if it would overlap the
    /// one above it.
    fn names(&self, out: &mut String, scale: &Scale) {
        let ends = self.lines.iter().zip(COLOURS).filter_map(|(line, colour)| {
            let (number, cost) = line.points.last()?;
            Some((scale.x(*number), scale.y(*cost), colour, &line.name))
        });
        let mut ends: Vec<_> = ends.collect();
        ends.sort_by(|one, two| one.1.total_cmp(&two.1));
        let mut above = 0.0;
        for (x, y, colour, name) in ends {
            above = f64::max(y + 5.0, above + APART);
            svg::name(out, (x + 10.0, above), "start", colour, name);
        }
    }
}

/// The costs of one sort.
fn draw_line(out: &mut String, scale: &Scale, points: &[(u32, f64)], colour: &str) {
    let mut path = String::new();
    for (place, (number, cost)) in points.iter().enumerate() {
        let letter = if place == 0 { 'M' } else { 'L' };
        let (x, y) = (scale.x(*number), scale.y(*cost));
        put(&mut path, format_args!("{letter}{x:.1} {y:.1}"));
        put(
            out,
            format_args!("<circle cx=\"{x:.1}\" cy=\"{y:.1}\" r=\"3.5\" fill=\"{colour}\"/>\n"),
        );
    }
    svg::path(out, &path, colour, 2.2);
}
