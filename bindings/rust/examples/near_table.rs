//! A head that comes near the table: a spindle swings on a head B over a plate on a table C, and `links_meet` says at which pose it
//! first comes too near. Writes a picture to standard output: on the left the balls from the side, pose by pose; on the right how far
//! the nearest two of them are apart.
//!
//!     cargo run --example near_table > ../../docs/meeting.svg

use maztubel::{
    Carrier, Chain, Joints, Link, Machine, Meeting, Mount, Refusal, Rotary, Solid, link_world,
    links_meet,
};
use std::process::ExitCode;

const POSES: usize = 13;

/// Both panels reach down to here, and 1 mm from the side is so long.
const FLOOR: f64 = 340.0;
const SCALE: f64 = 0.42;

/// Where x = 0 and z = 0 stand in the left panel, and the right panel's left end and width.
const ORIGIN: [f64; 2] = [230.0, 290.0];
const RIGHT: [f64; 2] = [520.0, 310.0];

fn main() -> ExitCode {
    match picture() {
        Ok(svg) => {
            print!("{svg}");
            ExitCode::SUCCESS
        }
        Err(refusal) => {
            eprintln!("{refusal}");
            ExitCode::FAILURE
        }
    }
}

/// A spindle and its motor on the head, a plate and a vice on the table.
fn machine() -> Machine {
    let rotary = |letter, carrier, axis, pivot| Rotary {
        letter,
        carrier,
        axis,
        pivot,
        limits: None,
        rest: 0.0,
    };
    let cylinder = |base, radius, length| Solid::Cylinder {
        base,
        axis: [0.0, 0.0, 1.0],
        radius,
        length,
    };
    let vice = Solid::Box {
        min: [-30.0, -25.0, 0.0],
        max: [30.0, 25.0, 50.0],
    };
    let link = |name: &str, mount, solid| Link {
        name: name.as_bytes().to_vec(),
        mount,
        solid,
    };
    Machine {
        name: b"mill".to_vec(),
        chain: Chain {
            rotaries: vec![
                rotary(b'B', Carrier::Head, [0.0, 1.0, 0.0], [0.0, 0.0, 150.0]),
                rotary(b'C', Carrier::Table, [0.0, 0.0, 1.0], [0.0; 3]),
            ],
            spindle: [0.0, 0.0, 1.0],
        },
        links: vec![
            link(
                "plate",
                Mount::Table,
                cylinder([0.0, 0.0, -30.0], 90.0, 30.0),
            ),
            link("vice", Mount::Table, vice),
            link("nose", Mount::Head, cylinder([0.0, 0.0, 60.0], 25.0, 70.0)),
            link(
                "spindle",
                Mount::Head,
                cylinder([0.0, 0.0, 130.0], 40.0, 90.0),
            ),
        ],
    }
}

/// The head comes in from the left, sinks and swings.
fn path() -> Vec<Joints> {
    let at = |i: usize| {
        let part = i as f64 / (POSES - 1) as f64;
        Joints {
            position: [-260.0 + 300.0 * part, 0.0, 190.0 - 240.0 * part],
            angles: [-20.0 + 95.0 * part, 30.0 * part],
        }
    };
    (0..POSES).map(at).collect()
}

#[derive(Clone, Copy)]
struct Ball {
    middle: [f64; 3],
    radius: f64,
}

/// As docs/SCOPE.md has it.
fn ball(solid: Solid) -> Ball {
    let norm = |v: [f64; 3]| v.iter().map(|x| x * x).sum::<f64>().sqrt();
    match solid {
        Solid::Box { min, max } => Ball {
            middle: [0, 1, 2].map(|i| min[i] + (max[i] - min[i]) * 0.5),
            radius: norm([0, 1, 2].map(|i| max[i] - min[i])) * 0.5,
        },
        Solid::Cylinder {
            base,
            axis,
            radius,
            length,
        } => Ball {
            middle: [0, 1, 2].map(|i| base[i] + axis[i] / norm(axis) * (length * 0.5)),
            radius: radius.hypot(length * 0.5),
        },
    }
}

/// The links' balls at a joint set.
fn placed(machine: &Machine, joints: &Joints) -> Result<Vec<Ball>, Refusal> {
    let each = machine.links.iter().map(|link| {
        let frame = link_world(machine, joints, link.mount)?;
        let Ball { middle, radius } = ball(link.solid);
        let [x, y, z] = middle;
        let middle =
            [0, 1, 2].map(|i| frame.origin[i] + x * frame.x[i] + y * frame.y[i] + z * frame.z[i]);
        Ok(Ball { middle, radius })
    });
    each.collect()
}

/// How far the nearest two balls of different mounts are apart; below 0 they meet.
fn clearance(machine: &Machine, balls: &[Ball]) -> f64 {
    let mut least = f64::INFINITY;
    for (i, first) in balls.iter().enumerate() {
        for (j, second) in balls.iter().enumerate().skip(i + 1) {
            if machine.links[i].mount != machine.links[j].mount {
                let square = [0, 1, 2].map(|n| (first.middle[n] - second.middle[n]).powi(2));
                let gap = square.iter().sum::<f64>().sqrt();
                least = least.min(gap - first.radius - second.radius);
            }
        }
    }
    least
}

/// The picture, or what the question is refused with.
pub fn picture() -> Result<String, Refusal> {
    let (machine, path) = (machine(), path());
    let met = links_meet(&machine, &path)?;
    let poses = path.iter().map(|joints| placed(&machine, joints));
    let poses = poses.collect::<Result<Vec<_>, _>>()?;
    let names = |link: usize| String::from_utf8_lossy(&machine.links[link].name).into_owned();
    let title = match met {
        Some(Meeting {
            pose,
            links: [first, second],
        }) => format!(
            "{} poses; at pose {pose} the {} comes too near the {}",
            path.len(),
            names(second),
            names(first)
        ),
        None => format!("{} poses; no two links come too near", path.len()),
    };
    let gaps: Vec<f64> = poses
        .iter()
        .map(|balls| clearance(&machine, balls))
        .collect();
    Ok(format!(
        "<svg xmlns=\"http://www.w3.org/2000/svg\" viewBox=\"0 0 860 400\" font-family=\"sans-serif\" font-size=\"13\">\n\
         <rect width=\"860\" height=\"400\" rx=\"6\" fill=\"#fff\"/>\n{}{}{}</svg>\n",
        text([40.0, 30.0], "start", &title),
        from_the_side(&machine, &poses, met),
        along_the_path(&gaps, met)
    ))
}

/// The table's balls stand; the head's are drawn at every pose, those of the meeting last and in red.
fn from_the_side(machine: &Machine, poses: &[Vec<Ball>], met: Option<Meeting>) -> String {
    let mut svg = String::new();
    let last = met.map(|meeting| meeting.pose);
    let order = (0..poses.len())
        .filter(|pose| Some(*pose) != last)
        .chain(last);
    for pose in order {
        for (link, ball) in poses[pose].iter().enumerate() {
            let on_table = machine.links[link].mount == Mount::Table;
            let meets =
                last == Some(pose) && met.is_some_and(|meeting| meeting.links.contains(&link));
            if on_table && pose > 0 && !meets {
                continue;
            }
            let (colour, width) = match (meets, on_table) {
                (true, _) => ("#c33", 2.0),
                (false, true) => ("#456", 1.5),
                _ if last == Some(pose) => ("#678", 1.5),
                _ => ("#bcd", 0.8),
            };
            svg += &circle(seen(ball.middle), SCALE * ball.radius, colour, width);
        }
    }
    svg + &text(
        [40.0, FLOOR + 40.0],
        "start",
        "the links' balls from the side, z up",
    )
}

fn seen([x, _, z]: [f64; 3]) -> [f64; 2] {
    [ORIGIN[0] + SCALE * x, ORIGIN[1] - SCALE * z]
}

/// How far the nearest two are apart, against the index of the pose.
fn along_the_path(gaps: &[f64], met: Option<Meeting>) -> String {
    let low = gaps.iter().copied().fold(0.0, f64::min);
    let high = gaps.iter().copied().fold(1.0, f64::max);
    let height = |gap: f64| 80.0 + (FLOOR - 80.0) * (high - gap) / (high - low);
    let place = |pose: usize| RIGHT[0] + RIGHT[1] * pose as f64 / (gaps.len() - 1) as f64;
    let points: Vec<String> = gaps
        .iter()
        .enumerate()
        .map(|(pose, gap)| format!("{:.1},{:.1}", place(pose), height(*gap)))
        .collect();
    let mut svg = [low, 0.0, high].map(|gap| level(gap, height(gap))).concat();
    svg += &format!(
        "<polyline points=\"{}\" fill=\"none\" stroke=\"#456\"/>\n",
        points.join(" ")
    );
    for (pose, gap) in gaps.iter().enumerate() {
        let here = met.is_some_and(|meeting| meeting.pose == pose);
        let (radius, colour) = if here { (5.0, "#c33") } else { (3.0, "#456") };
        svg += &circle([place(pose), height(*gap)], radius, colour, 2.0);
    }
    svg + &text(
        [RIGHT[0], 66.0],
        "start",
        "mm between the nearest two balls, pose by pose",
    )
}

fn level(gap: f64, y: f64) -> String {
    let [left, width] = RIGHT;
    let right = left + width;
    let words = text([left - 8.0, y + 4.0], "end", &format!("{gap:.1}"));
    format!("<polyline points=\"{left},{y:.1} {right},{y:.1}\" stroke=\"#dde\"/>\n{words}")
}

fn circle([x, y]: [f64; 2], radius: f64, colour: &str, width: f64) -> String {
    format!(
        "<circle cx=\"{x:.1}\" cy=\"{y:.1}\" r=\"{radius:.1}\" fill=\"none\" stroke=\"{colour}\" stroke-width=\"{width}\"/>\n"
    )
}

fn text([x, y]: [f64; 2], anchor: &str, words: &str) -> String {
    format!(
        "<text x=\"{x:.1}\" y=\"{y:.1}\" text-anchor=\"{anchor}\" fill=\"#234\">{words}</text>\n"
    )
}
