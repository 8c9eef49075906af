//! The rows as a picture: on the left how many times as fast each entry is, on the right how the cost of a pose grows with the path.

use super::svg::{FAINT, GRID, INK, Style, Svg};
use crate::rows::{GROWN, Row, two, whole};

const SIZE: [f64; 2] = [1000.0, 470.0];
const MARGIN: f64 = 24.0;
const TITLE: Style = Style("start", INK, 18);
const HEADING: Style = Style("start", INK, 13);
const ENTRY: Style = Style("end", INK, 13);
const WORDS: Style = Style("start", INK, 12);
const BELOW: Style = Style("middle", FAINT, 12);
const BESIDE: Style = Style("end", FAINT, 12);
const NOTE: Style = Style("start", FAINT, 11);

const BESIDE_RUST: &str = "#2f6db3";
const BESIDE_LIBM: &str = "#8a97a8";
const DASHES: &str = "6 4";

/// A line's entry, as the rows name it, and its colour.
const LINES: [(&str, &str); 3] = [
    ("solve_path, a pose", "#2f6db3"),
    ("subdivide_path, a given pose", "#c2571a"),
    ("solve_and_divide, a given pose", "#3f8f5b"),
];

/// Where headings stand.
const HEADED: f64 = 72.0;

/// The bars: where they start, where the longest may end, the first one's top, their height and what is from one to the next.
const FROM: f64 = 150.0;
const TO: f64 = 430.0;
const FIRST: f64 = 100.0;
const BAR: f64 = 20.0;
const STEP: f64 = 32.0;

/// The sides of the lines' plot.
const LEFT: f64 = 560.0;
const RIGHT: f64 = 955.0;
const TOP: f64 = 135.0;
const BOTTOM: f64 = 390.0;
const OUTSIDE: f64 = LEFT - 50.0;

/// A bar for each entry beside the Rust and for each beside libm.
pub fn drawn(rusts: &[Row], libms: &[Row], grown: &[Row]) -> String {
    let mut svg = Svg::new(SIZE);
    let title = "The proved port beside the Rust that it is a port of";
    svg.text(MARGIN, 38.0, TITLE, title);
    let of_rust = rusts.iter().map(|row| (row, BESIDE_RUST));
    let of_libm = libms.iter().map(|row| (row, BESIDE_LIBM));
    bars(&mut svg, &of_rust.chain(of_libm).collect::<Vec<_>>());
    lines(&mut svg, grown);
    let note = "One run of oracle's bench, two tables A and C. About as many poses are inserted as given, 8,000 on the two longest paths.";
    svg.text(MARGIN, SIZE[1] - 18.0, NOTE, note);
    svg.done()
}

fn bars(svg: &mut Svg, rows: &[(&Row, &str)]) {
    let most = rows.iter().map(|(row, _)| row.times_as_fast());
    let most = most.fold(1.0, f64::max).ceil();
    let x = |times: f64| FROM + (TO - FROM) * times / most;
    svg.text(MARGIN, HEADED, HEADING, "Times as fast");
    for (index, (row, colour)) in rows.iter().enumerate() {
        let (y, times) = (FIRST + STEP * index as f64, row.times_as_fast());
        svg.text(FROM - 10.0, y + 15.0, ENTRY, row.entry);
        svg.bar([FROM, y, x(times) - FROM, BAR], colour);
        // Behind the line at 1 where the bar does not reach it.
        let end = x(times.max(1.0));
        svg.text(end + 8.0, y + 15.0, HEADING, &two(times));
    }
    let bottom = FIRST + STEP * rows.len() as f64;
    svg.line([x(1.0), FIRST - 8.0, x(1.0), bottom], FAINT, "4 3");
    svg.text(x(1.0), bottom + 16.0, BELOW, "1: as fast");
    svg.key(FROM, bottom + 30.0, BESIDE_RUST, "as the untouched Rust");
    svg.key(FROM + 165.0, bottom + 30.0, BESIDE_LIBM, "as libm");
}

fn along(inputs: usize) -> f64 {
    let decades = |inputs: usize| (inputs as f64 / GROWN[0] as f64).log10();
    LEFT + (RIGHT - LEFT) * decades(inputs) / decades(GROWN[3])
}

/// 1, 2, 5, 10 and so on, from below the least of the times to above the most.
fn ticks(times: &[f64]) -> Vec<f64> {
    let steps = (0..9).flat_map(|power| [1.0, 2.0, 5.0].map(|step| step * 10f64.powi(power)));
    let all: Vec<f64> = steps.collect();
    let below = |tick: &f64| times.iter().all(|time| tick <= time);
    let above = |tick: &f64| times.iter().all(|time| tick >= time);
    let first = all.iter().rposition(below).unwrap_or(0);
    let last = all.iter().position(above).unwrap_or(all.len() - 1);
    all[first..=last].to_vec()
}

fn lines(svg: &mut Svg, grown: &[Row]) {
    let is_drawn = |row: &&Row| LINES.iter().any(|(name, _)| row.name() == *name);
    let times = grown.iter().filter(is_drawn);
    let times: Vec<f64> = times.flat_map(|row| [row.port, row.other]).collect();
    if times.is_empty() {
        return;
    }
    let ticks = ticks(&times);
    let (least, most) = (ticks[0], ticks[ticks.len() - 1]);
    let up = |time: f64| BOTTOM - (BOTTOM - TOP) * (time / least).ln() / (most / least).ln();
    axes(svg, &ticks, &up);
    for (name, colour) in LINES {
        let points = |time: fn(&Row) -> f64| -> Vec<[f64; 2]> {
            let rows = grown.iter().filter(|row| row.name() == name);
            rows.map(|row| [along(row.inputs), up(time(row))]).collect()
        };
        svg.points(&points(|row| row.port), colour, "");
        svg.points(&points(|row| row.other), colour, DASHES);
    }
    legend(svg);
}

fn axes(svg: &mut Svg, ticks: &[f64], up: &dyn Fn(f64) -> f64) {
    svg.text(OUTSIDE, HEADED, HEADING, "ns for each given pose");
    for &tick in ticks {
        let y = up(tick);
        svg.line([LEFT, y, RIGHT, y], GRID, "");
        svg.text(LEFT - 8.0, y + 4.0, BESIDE, &whole(tick as u64));
    }
    for count in GROWN {
        let x = along(count);
        svg.line([x, TOP, x, BOTTOM], GRID, "");
        svg.text(x, BOTTOM + 18.0, BELOW, &whole(count as u64));
    }
    let middle = (LEFT + RIGHT) / 2.0;
    svg.text(middle, BOTTOM + 38.0, BELOW, "poses of the path");
}

fn legend(svg: &mut Svg) {
    for ((name, colour), x) in LINES.into_iter().zip([0.0, 115.0, 260.0]) {
        let entry = name.split(',').next().unwrap_or(name);
        svg.key(OUTSIDE + x, 86.0, colour, entry);
    }
    for (words, dashes, x) in [("port", "", 0.0), ("untouched Rust", DASHES, 115.0)] {
        let (x, y) = (OUTSIDE + x, 114.0);
        svg.line([x, y, x + 30.0, y], INK, dashes);
        svg.text(x + 38.0, y + 4.0, WORDS, words);
    }
}
