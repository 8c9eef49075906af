//! Positions on the teeth of a Hirth table, as a picture: a table A about x and a table C about z, whose teeth stand half a degree
//! apart, and twelve poses on a dome. Writes an SVG to standard output. On the left where the tool axis of each pose is wanted and
//! where it is reached, in angles of A and C about their tooth; on the right how far the axis is off, beside the tolerance. A pose
//! that is off by more is refused with 31.
//!
//!     cargo run --example teeth > ../../docs/teeth.svg

use maztubel::*;

const SIZE: [f64; 2] = [860.0, 400.0];

/// How far the tool axis may be off, in degrees.
const TOLERANCE: f64 = 0.24;

const SERVED: &str = "#27a";
const REFUSED: &str = "#c40";

/// A table A about x on the machine's base, which carries a table C about z.
fn tables() -> Chain {
    let table = |letter, axis, pivot| Rotary {
        letter,
        carrier: Carrier::Table,
        axis,
        pivot,
        limits: None,
        rest: 0.0,
    };
    Chain {
        rotaries: vec![
            table(b'A', [1.0, 0.0, 0.0], [0.0, 0.0, -80.0]),
            table(b'C', [0.0, 0.0, 1.0], [0.0; 3]),
        ],
        spindle: [0.0, 0.0, 1.0],
    }
}

/// Poses around a dome of 60 mm, each leaning outward.
fn poses() -> Vec<Pose> {
    let pose = |i: usize| {
        let around = (31.37 * i as f64).to_radians();
        let lean = (24.0 + 3.13 * i as f64).to_radians();
        let axis = [
            lean.sin() * around.cos(),
            lean.sin() * around.sin(),
            lean.cos(),
        ];
        Pose {
            tip: axis.map(|x| 60.0 * x),
            axis,
        }
    };
    (0..12).map(pose).collect()
}

/// A pose, what is wanted and what its nearest teeth come to.
struct Position {
    /// The angles that reach the pose's axis exactly.
    wanted: [f64; 2],
    /// The angles on their teeth, and whether the profile serves them.
    tooth: [f64; 2],
    served: bool,
    /// How far the axis is off on the teeth, in degrees.
    off: f64,
    /// How far the tip is off there, in mm.
    tip_off: f64,
}

fn position(chain: &Chain, pose: &Pose) -> Result<Position, Refusal> {
    let choice = Choice::FirstPositive;
    let wanted = choose(chain, pose, 0.0, choice)?;
    let on_teeth = choose_tooth(chain, pose, 0.0, choice, 180.0)?;
    let reached = forward(chain, &on_teeth, 0.0)?;
    let cosine: f64 = (0..3).map(|i| reached.axis[i] * pose.axis[i]).sum();
    let gap = |i: usize| (reached.tip[i] - pose.tip[i]).abs();
    let served = match choose_tooth(chain, pose, 0.0, choice, TOLERANCE) {
        Ok(_) => true,
        Err(refusal) if refusal.reason == Reason::ToothMisses => false,
        Err(refusal) => return Err(refusal),
    };
    Ok(Position {
        wanted: wanted.angles,
        tooth: on_teeth.angles,
        served,
        off: cosine.min(1.0).acos().to_degrees(),
        tip_off: gap(0).max(gap(1)).max(gap(2)),
    })
}

fn main() -> Result<(), Refusal> {
    print!("{}", picture()?);
    Ok(())
}

pub fn picture() -> Result<String, Refusal> {
    let chain = tables();
    let positions: Result<Vec<Position>, Refusal> =
        poses().iter().map(|pose| position(&chain, pose)).collect();
    Ok(drawn(&positions?))
}

fn drawn(positions: &[Position]) -> String {
    let [width, height] = SIZE;
    let served = positions.iter().filter(|p| p.served).count();
    let tip = positions.iter().map(|p| p.tip_off).fold(0.0, f64::max);
    let title = format!(
        "{} positions on teeth of 0.5\u{b0}: {served} served, {} refused with 31; the tip is off by at most {tip:.0e} mm",
        positions.len(),
        positions.len() - served,
    );
    format!(
        "<svg xmlns=\"http://www.w3.org/2000/svg\" viewBox=\"0 0 {width} {height}\" font-family=\"sans-serif\" font-size=\"13\">\n\
         <rect width=\"{width}\" height=\"{height}\" rx=\"6\" fill=\"#fff\"/>\n{}{}{}</svg>\n",
        text([40.0, 30.0], "start", &title),
        of_teeth(positions),
        of_axes(positions)
    )
}

fn color(position: &Position) -> &'static str {
    match position.served {
        true => SERVED,
        false => REFUSED,
    }
}

/// Each wanted pair of angles about its tooth: within a square of half a degree, the tooth in the middle.
fn of_teeth(positions: &[Position]) -> String {
    let [left, top, side] = [70.0, 60.0, 280.0];
    let place = |offset: f64| side * (0.5 + offset / 0.5);
    let frame = format!(
        "<rect x=\"{left}\" y=\"{top}\" width=\"{side}\" height=\"{side}\" fill=\"none\" stroke=\"#9ab\"/>\n"
    );
    let middle = [left + place(0.0), top + place(0.0)];
    let points = positions.iter().map(|p| {
        let [a, c] = [0, 1].map(|i| p.wanted[i] - p.tooth[i]);
        let at = [left + place(a), top + side - place(c)];
        line(middle, at, "#dde") + &dot(at, color(p))
    });
    let labels = [
        text(
            [left + side / 2.0, top + side + 22.0],
            "middle",
            "A, degrees from its tooth",
        ),
        text([left, top + side + 22.0], "middle", "-0.25"),
        text([left + side, top + side + 22.0], "middle", "0.25"),
        text([left - 8.0, top + 12.0], "end", "0.25"),
        text([left - 8.0, top + side], "end", "-0.25"),
        text([left - 8.0, top + side / 2.0], "end", "C"),
    ];
    frame + &points.collect::<String>() + &dot(middle, "#555") + &labels.concat()
}

/// How far each axis is off, as a bar, and the tolerance as a line.
fn of_axes(positions: &[Position]) -> String {
    let [left, top, width, height] = [450.0, 60.0, 380.0, 280.0];
    let most = 0.35;
    let step = width / positions.len() as f64;
    let bars = positions.iter().enumerate().map(|(i, p)| {
        let tall = height * p.off / most;
        let x = left + step * i as f64 + 4.0;
        let y = top + height - tall;
        let fill = color(p);
        let wide = step - 8.0;
        let angles = format!("{} / {}", p.tooth[0], p.tooth[1]);
        let middle = [x + wide / 2.0, top + height + 16.0];
        format!(
            "<rect x=\"{x:.1}\" y=\"{y:.1}\" width=\"{wide:.1}\" height=\"{tall:.1}\" fill=\"{fill}\"><title>{angles}</title></rect>\n"
        ) + &text(middle, "middle", &i.to_string())
    });
    let level = top + height * (1.0 - TOLERANCE / most);
    let words = format!("tolerance {TOLERANCE}\u{b0}");
    bars.collect::<String>()
        + &line([left, level], [left + width, level], "#555")
        + &text([left + width, level - 6.0], "end", &words)
        + &text(
            [left + width / 2.0, top + height + 36.0],
            "middle",
            "pose; how far its axis is off on the teeth",
        )
}

fn line(from: [f64; 2], to: [f64; 2], stroke: &str) -> String {
    let ([x, y], [u, v]) = (from, to);
    format!("<line x1=\"{x:.1}\" y1=\"{y:.1}\" x2=\"{u:.1}\" y2=\"{v:.1}\" stroke=\"{stroke}\"/>\n")
}

fn dot([x, y]: [f64; 2], fill: &str) -> String {
    format!("<circle cx=\"{x:.1}\" cy=\"{y:.1}\" r=\"4\" fill=\"{fill}\"/>\n")
}

fn text([x, y]: [f64; 2], anchor: &str, words: &str) -> String {
    format!("<text x=\"{x:.1}\" y=\"{y:.1}\" text-anchor=\"{anchor}\">{words}</text>\n")
}
