//! A finishing pass over a quarter of a cylinder on a machine with two tables, solved and divided; prints each pose with its
//! axis positions, and marks the inserted ones.
//!
//!     cargo run --example arc

use maztubel::{
    Carrier, Chain, Limits, Pose, Refusal, Rotary, Start, Tolerances, solve_and_divide,
};

const RADIUS: f64 = 40.0;

fn main() -> Result<(), Refusal> {
    let poses: Vec<Pose> = (0..=6)
        .map(|step| on_cylinder(15.0 * f64::from(step)))
        .collect();
    let tolerances = Tolerances {
        chord: 0.05,
        axis: 2.0,
    };
    let path = solve_and_divide(&tables(), &poses, Start::AtZero, 1.0, tolerances)?;
    println!(
        "{} poses, {} of them inserted",
        path.poses.len(),
        path.inserted
    );
    for (index, joints) in path.joints.iter().enumerate() {
        let [x, y, z] = joints.position;
        let [a, c] = joints.angles;
        let mark = if path.is_inserted(index) { '+' } else { ' ' };
        println!("{mark} X{x:9.3} Y{y:9.3} Z{z:9.3} A{a:9.3} C{c:9.3}");
    }
    Ok(())
}

/// A about x below, C about z on it.
fn tables() -> Chain {
    let table = |letter, axis, limits| Rotary {
        letter,
        carrier: Carrier::Table,
        axis,
        pivot: [0.0, 0.0, -100.0],
        limits,
        rest: 0.0,
    };
    let tilt = Some(Limits {
        min: -120.0,
        max: 120.0,
    });
    Chain {
        rotaries: vec![
            table(b'A', [1.0, 0.0, 0.0], tilt),
            table(b'C', [0.0, 0.0, 1.0], None),
        ],
        spindle: [0.0, 0.0, 1.0],
    }
}

/// The tool leans along a helix about x, square to the surface.
fn on_cylinder(degrees: f64) -> Pose {
    let (y, z) = (degrees + 5.0).to_radians().sin_cos();
    Pose {
        tip: [0.2 * degrees, RADIUS * y, RADIUS * z],
        axis: [0.1, y, z],
    }
}
