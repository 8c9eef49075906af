//! A job's divided path as a picture: reads the job's bytes from standard input, and writes an SVG to standard output. On the left
//! the tool's tips from above, each with a stroke along the tool's axis; on the right the rotaries' angles along the path. Given
//! poses are full dots, inserted ones rings.
//!
//!     cargo run --example draw < ../../examples/jobs/finishing.job > ../../docs/finishing.svg

use maztubel::{Divided, Job, Refusal, Start, solve_and_divide};
use std::io::{self, Read};
use std::process::ExitCode;

const SIZE: [f64; 2] = [860.0, 400.0];

/// The length of a stroke along the axis, were it to lie flat.
const STROKE: f64 = 22.0;

/// Where a plot lies.
#[derive(Clone, Copy)]
struct Panel {
    left: f64,
    top: f64,
    width: f64,
    height: f64,
}

const TIPS: Panel = Panel {
    left: 40.0,
    top: 70.0,
    width: 330.0,
    height: 280.0,
};

fn angles_panel(rotary: usize, rotaries: usize) -> Panel {
    let height = (280.0 - 40.0 * (rotaries - 1) as f64) / rotaries as f64;
    Panel {
        left: 480.0,
        top: 70.0 + (height + 40.0) * rotary as f64,
        width: 350.0,
        height,
    }
}

/// A dot of the picture, and whether its pose was given.
struct Dot {
    at: [f64; 2],
    given: bool,
}

fn main() -> ExitCode {
    let mut bytes = Vec::new();
    if let Err(error) = io::stdin().read_to_end(&mut bytes) {
        eprintln!("the job cannot be read: {error}");
        return ExitCode::FAILURE;
    }
    match picture(&bytes) {
        Ok(svg) => print!("{svg}"),
        Err(refusal) => {
            eprintln!("{refusal}");
            return ExitCode::FAILURE;
        }
    }
    ExitCode::SUCCESS
}

/// The picture, or what the job is refused with.
pub fn picture(bytes: &[u8]) -> Result<String, Refusal> {
    let job = Job::read(bytes)?;
    let path = solve_and_divide(
        &job.chain,
        &job.poses,
        Start::AtZero,
        job.cone,
        job.tolerances,
    )?;
    let [width, height] = SIZE;
    let title = format!(
        "{} given poses, {} inserted: chord {} mm, axis {}\u{b0}",
        job.poses.len(),
        path.inserted,
        job.tolerances.chord,
        job.tolerances.axis
    );
    let rotaries = &job.chain.rotaries;
    let angles = rotaries.iter().enumerate().map(|(index, rotary)| {
        let panel = angles_panel(index, rotaries.len());
        of_angle(&path, index, char::from(rotary.letter), panel)
    });
    Ok(format!(
        "<svg xmlns=\"http://www.w3.org/2000/svg\" viewBox=\"0 0 {width} {height}\" font-family=\"sans-serif\" font-size=\"13\">\n\
         <rect width=\"{width}\" height=\"{height}\" rx=\"6\" fill=\"#fff\"/>\n{}{}{}{}</svg>\n",
        text([TIPS.left, 30.0], "start", &title),
        key(),
        of_tips(&path),
        angles.collect::<String>()
    ))
}

/// What the dots stand for.
fn key() -> String {
    let dots = [true, false].map(|given| Dot {
        at: [if given { 690.0 } else { 760.0 }, 26.0],
        given,
    });
    let words = text([700.0, 30.0], "start", "given") + &text([770.0, 30.0], "start", "inserted");
    dots.iter().map(dot).collect::<String>() + &words
}

/// From above, x to the right and y up, both to one scale.
fn of_tips(path: &Divided) -> String {
    let [x, y] = [0, 1].map(|i| span(path.poses.iter().map(|pose| pose.tip[i])));
    let scale = (TIPS.width / (x[1] - x[0])).min(TIPS.height / (y[1] - y[0]));
    let middle = |[low, high]: [f64; 2]| 0.5 * (low + high);
    let place = |[tip_x, tip_y, _]: [f64; 3]| {
        [
            TIPS.left + 0.5 * TIPS.width + scale * (tip_x - middle(x)),
            TIPS.top + 0.5 * TIPS.height - scale * (tip_y - middle(y)),
        ]
    };
    let dots: Vec<Dot> = path
        .poses
        .iter()
        .enumerate()
        .map(|(i, pose)| Dot {
            at: place(pose.tip),
            given: !path.is_inserted(i),
        })
        .collect();
    let strokes = dots.iter().zip(&path.poses).map(|(dot, pose)| {
        let length = pose.axis.iter().map(|x| x * x).sum::<f64>().sqrt();
        let [i, j] = [0, 1].map(|n| STROKE * pose.axis[n] / length);
        line(&[dot.at, [dot.at[0] + i, dot.at[1] - j]], "#9ab")
    });
    let caption = [TIPS.left, TIPS.top + TIPS.height + 32.0];
    let words = "tips from above, with the tool's lean";
    strokes.collect::<String>() + &joined(&dots) + &text(caption, "start", words)
}

/// A rotary's angle against the index of the pose.
fn of_angle(path: &Divided, rotary: usize, letter: char, panel: Panel) -> String {
    let angle = |i: usize| path.joints[i].angles[rotary];
    let range = span((0..path.joints.len()).map(angle));
    let [low, high] = range;
    let last = (path.joints.len().max(2) - 1) as f64;
    let height_of = |angle: f64| panel.top + panel.height * (high - angle) / (high - low);
    let dots: Vec<Dot> = (0..path.joints.len())
        .map(|i| Dot {
            at: [
                panel.left + panel.width * i as f64 / last,
                height_of(angle(i)),
            ],
            given: !path.is_inserted(i),
        })
        .collect();
    let right = panel.left + panel.width;
    let ticks = range.map(|value| {
        let y = height_of(value);
        let mark = line(&[[panel.left - 4.0, y], [right, y]], "#dde");
        mark + &text(
            [panel.left - 8.0, y + 4.0],
            "end",
            &format!("{value:.1}\u{b0}"),
        )
    });
    let name = text(
        [panel.left, panel.top - 10.0],
        "start",
        &format!("{letter} along the path"),
    );
    ticks.concat() + &joined(&dots) + &name
}

/// The least and the greatest, and never the same.
fn span(numbers: impl Iterator<Item = f64> + Clone) -> [f64; 2] {
    let low = numbers.clone().fold(f64::INFINITY, f64::min);
    let high = numbers.fold(f64::NEG_INFINITY, f64::max);
    match low < high {
        true => [low, high],
        false => [low.min(0.0) - 1.0, high.max(0.0) + 1.0],
    }
}

fn joined(dots: &[Dot]) -> String {
    let points: Vec<[f64; 2]> = dots.iter().map(|dot| dot.at).collect();
    line(&points, "#456") + &dots.iter().map(dot).collect::<String>()
}

fn dot(Dot { at: [x, y], given }: &Dot) -> String {
    let (radius, fill) = if *given { (4.0, "#c33") } else { (2.5, "#fff") };
    format!(
        "<circle cx=\"{x:.1}\" cy=\"{y:.1}\" r=\"{radius}\" fill=\"{fill}\" stroke=\"#456\"/>\n"
    )
}

fn line(points: &[[f64; 2]], colour: &str) -> String {
    let points: Vec<String> = points
        .iter()
        .map(|[x, y]| format!("{x:.1},{y:.1}"))
        .collect();
    format!(
        "<polyline points=\"{}\" fill=\"none\" stroke=\"{colour}\"/>\n",
        points.join(" ")
    )
}

fn text([x, y]: [f64; 2], anchor: &str, words: &str) -> String {
    format!(
        "<text x=\"{x:.1}\" y=\"{y:.1}\" text-anchor=\"{anchor}\" fill=\"#234\">{words}</text>\n"
    )
}
