//! Four paths that a cell divides side by side, as a picture: the same dome on two tables, finished four times under
//! tolerances that get tighter. Each turn gives the path that has waited longest 64 tests. Writes an SVG to standard
//! output. Above which path each turn serves, below how many poses are inserted in each path after each turn. Every
//! path is held to its division alone.
//!
//!     cargo run --example cell > ../../docs/cell.svg

use maztubel::*;

const SIZE: [f64; 2] = [860.0, 430.0];

/// Where the turns begin, and how wide all of them are.
const LEFT: f64 = 110.0;
const WIDTH: f64 = 720.0;

/// The top of the first lane, and from one to the next.
const LANES: [f64; 2] = [56.0, 26.0];

/// Top and height of the counts.
const COUNTS: [f64; 2] = [190.0, 180.0];

const COLOURS: [&str; 4] = ["#27a", "#c40", "#286", "#86a"];

/// Of each path, in mm.
const CHORDS: [f64; 4] = [0.1, 0.02, 0.005, 0.0012];

/// A table A about x on the machine's base, which carries a table C about z.
fn tables() -> Chain {
    let table = |letter, axis, pivot| Rotary {
        letter,
        carrier: Carrier::Table,
        axis,
        pivot,
        limits: None,
        rest: 0.0,
    };
    Chain {
        rotaries: vec![
            table(b'A', [1.0, 0.0, 0.0], [0.0, 0.0, -80.0]),
            table(b'C', [0.0, 0.0, 1.0], [0.0; 3]),
        ],
        spindle: [0.0, 0.0, 1.0],
    }
}

/// Around a dome of 60 mm, the tool leaning outward more and more.
fn poses() -> Vec<Pose> {
    let pose = |i: usize| {
        let around = (15.0 * i as f64).to_radians();
        let lean = (20.0 + 1.2 * i as f64).to_radians();
        let axis = [
            lean.sin() * around.cos(),
            lean.sin() * around.sin(),
            lean.cos(),
        ];
        Pose {
            tip: axis.map(|x| 60.0 * x),
            axis,
        }
    };
    (0..25).map(pose).collect()
}

/// A path with its outputs, and its count after each turn of its own.
struct Path {
    tolerances: Tolerances,
    poses: Vec<Pose>,
    joints: Vec<Joints>,
    counts: Vec<(usize, u64)>,
}

/// All four in turns: which path each turn served, and the paths.
fn served(
    chain: &Chain,
    given: &[Pose],
    solved: &[Joints],
) -> Result<(Vec<usize>, Vec<Path>), Refusal> {
    let mut cell = Cell::default();
    let mut paths = Vec::new();
    for chord in CHORDS {
        let space = given.len() + MOST_INSERTED;
        let mut path = Path {
            tolerances: Tolerances { chord, axis: 5.0 },
            poses: vec![Pose::default(); space],
            joints: vec![Joints::default(); space],
            counts: Vec::new(),
        };
        let (tolerances, outputs) = (path.tolerances, (&mut path.poses, &mut path.joints));
        let number = cell.admit(chain, given, solved, tolerances, outputs.0, outputs.1)?;
        assert_eq!(number, paths.len());
        paths.push(path);
    }
    let mut turns = Vec::new();
    while let Some(number) = cell.next() {
        let path = &mut paths[number];
        if let Some(turned) = cell.turn(&mut path.poses, &mut path.joints)? {
            turns.push(turned.path);
            path.counts.push((turns.len(), turned.inserted));
        }
    }
    Ok((turns, paths))
}

fn main() -> Result<(), Refusal> {
    print!("{}", picture()?);
    Ok(())
}

pub fn picture() -> Result<String, Refusal> {
    let (chain, given) = (tables(), poses());
    let solved = solve_path(&chain, &given, Start::AtZero, 1.0)?;
    let (turns, paths) = served(&chain, &given, &solved)?;
    for path in &paths {
        let alone = subdivide_path(&chain, &given, &solved, path.tolerances)?;
        assert_eq!(path.poses[..alone.poses.len()], alone.poses);
        assert_eq!(path.joints[..alone.joints.len()], alone.joints);
        assert_eq!(
            path.counts.last().map(|last| last.1),
            Some(alone.inserted as u64)
        );
    }
    Ok(drawn(given.len(), &turns, &paths))
}

fn drawn(given: usize, turns: &[usize], paths: &[Path]) -> String {
    let [width, height] = SIZE;
    let title = format!(
        "4 paths of {given} poses in {} turns of at most 64 tests; each ends as it does alone",
        turns.len()
    );
    format!(
        "<svg xmlns=\"http://www.w3.org/2000/svg\" viewBox=\"0 0 {width} {height}\" font-family=\"sans-serif\" font-size=\"13\">\n\
         <rect width=\"{width}\" height=\"{height}\" rx=\"6\" fill=\"#fff\"/>\n{}{}{}</svg>\n",
        text([40.0, 30.0], "start", &title),
        lanes(turns),
        counts(turns.len(), paths)
    )
}

/// Where a turn ends, from 1; turn 0 is the left end.
fn place(turn: usize, turns: usize) -> f64 {
    LEFT + WIDTH * turn as f64 / turns as f64
}

/// A lane for each path, with a box for each turn that serves it.
fn lanes(turns: &[usize]) -> String {
    let [top, step] = LANES;
    let mut svg = String::new();
    for (path, colour) in COLOURS.iter().enumerate() {
        let y = top + step * path as f64;
        svg += &text([LEFT - 10.0, y + 14.0], "end", &format!("path {path}"));
        for (turn, _) in turns
            .iter()
            .enumerate()
            .filter(|(_, served)| **served == path)
        {
            let (x, end) = (place(turn, turns.len()), place(turn + 1, turns.len()));
            let wide = (end - x - 1.0).max(1.0);
            svg += &format!(
                "<rect x=\"{x:.1}\" y=\"{y:.1}\" width=\"{wide:.1}\" height=\"18\" fill=\"{colour}\"/>\n"
            );
        }
    }
    svg
}

/// The insertions of each path after each turn, on one scale, with the count that it ends with.
fn counts(turns: usize, paths: &[Path]) -> String {
    let [top, height] = COUNTS;
    let last = |path: &Path| path.counts.last().map_or((0, 0), |last| *last);
    let most = paths
        .iter()
        .map(|path| last(path).1)
        .max()
        .unwrap_or(1)
        .max(1);
    let level = |count: u64| top + height * (1.0 - count as f64 / most as f64);
    let mut svg = line([LEFT, level(0)], [LEFT + WIDTH, level(0)], "#9ab");
    for (path, colour) in paths.iter().zip(COLOURS) {
        let points = [(0, 0)].iter().chain(&path.counts);
        let points: Vec<String> = points
            .map(|(turn, count)| format!("{:.1},{:.1}", place(*turn, turns), level(*count)))
            .collect();
        let (turn, count) = last(path);
        let end = [place(turn, turns), level(count)];
        let label = format!("{count} at {} mm", path.tolerances.chord);
        let (at, anchor) = match turn == turns {
            true => ([end[0] - 8.0, end[1] - 6.0], "end"),
            false => ([end[0] + 8.0, end[1] + 22.0], "start"),
        };
        svg += &format!(
            "<polyline points=\"{}\" fill=\"none\" stroke=\"{colour}\" stroke-width=\"1.5\"/>\n",
            points.join(" ")
        );
        svg += &(dot(end, colour) + &text(at, anchor, &label));
    }
    let below = top + height + 40.0;
    let words = "poses inserted so far, turn by turn; a dot where a path ends";
    svg + &text([LEFT, below], "start", words)
        + &text([LEFT + WIDTH, below], "end", &format!("turn {turns}"))
}

fn line(from: [f64; 2], to: [f64; 2], stroke: &str) -> String {
    let ([x, y], [u, v]) = (from, to);
    format!("<line x1=\"{x:.1}\" y1=\"{y:.1}\" x2=\"{u:.1}\" y2=\"{v:.1}\" stroke=\"{stroke}\"/>\n")
}

fn dot([x, y]: [f64; 2], fill: &str) -> String {
    format!("<circle cx=\"{x:.1}\" cy=\"{y:.1}\" r=\"4\" fill=\"{fill}\"/>\n")
}

fn text([x, y]: [f64; 2], anchor: &str, words: &str) -> String {
    format!("<text x=\"{x:.1}\" y=\"{y:.1}\" text-anchor=\"{anchor}\">{words}</text>\n")
}
