//! Chains, poses and memory that the tests share.

#![allow(dead_code)]

pub mod fenced;

use maztubel::flat::Told;
use maztubel::{Carrier, Chain, Limits, Pose, Rotary};

/// A flat entry that divides given poses with their joints, and one that quotes such a division.
pub type Dividing = fn(&[u8], &[f64], &[f64], f64, f64, &mut [f64], &mut [f64]) -> Told;
pub type Quoting =
    fn(&[u8], &[f64], &[f64], f64, f64, &mut [f64], &mut [f64], &mut u64, &mut u64) -> Told;

pub const X: [f64; 3] = [1.0, 0.0, 0.0];
pub const Y: [f64; 3] = [0.0, 1.0, 0.0];
pub const Z: [f64; 3] = [0.0, 0.0, 1.0];

pub fn rotary(letter: u8, carrier: Carrier, axis: [f64; 3]) -> Rotary {
    Rotary {
        letter,
        carrier,
        axis,
        pivot: [0.0; 3],
        limits: None,
        rest: 0.0,
    }
}

/// A head C alone, about z, with limits or without.
pub fn head_c(spindle: [f64; 3], limits: Option<[f64; 2]>) -> Chain {
    let limits = limits.map(|[min, max]| Limits { min, max });
    let head = rotary(b'C', Carrier::Head, Z);
    Chain {
        rotaries: vec![Rotary { limits, ..head }],
        spindle,
    }
}

/// A table A alone, about x.
pub fn table_a() -> Chain {
    Chain {
        rotaries: vec![rotary(b'A', Carrier::Table, X)],
        spindle: Z,
    }
}

/// The usual machine with two tables: A about x, C about z.
pub fn tables() -> Chain {
    Chain {
        rotaries: vec![
            rotary(b'A', Carrier::Table, X),
            rotary(b'C', Carrier::Table, Z),
        ],
        spindle: Z,
    }
}

pub fn pose(tip: [f64; 3], axis: [f64; 3]) -> Pose {
    Pose { tip, axis }
}

/// Poses along an arc of 50 mm about x, the axis square to it, every ten degrees.
pub fn arc(count: usize) -> Vec<Pose> {
    let at = |i: usize| {
        let angle = (10.0 * i as f64).to_radians();
        let (y, z) = (angle.sin(), angle.cos());
        pose([i as f64, 50.0 * y, 50.0 * z], [0.0, y, z])
    };
    (0..count).map(at).collect()
}

/// The poses' numbers, six each.
pub fn pose_numbers(poses: &[Pose]) -> Vec<f64> {
    let six = |pose: &Pose| [pose.tip, pose.axis].concat();
    poses.iter().flat_map(six).collect()
}

/// The cone and the tolerances of `job_bytes`.
pub const NUMBERS: [f64; 3] = [1.0, 0.25, 0.5];

/// The bytes of a job: a chain, poses, the trailer.
pub fn job_bytes(chain: &Chain, poses: &[Pose]) -> Vec<u8> {
    packed(&chain.bytes(), &pose_numbers(poses), NUMBERS)
}

/// A job's bytes from its parts, by the packer of `tools/job`: what the library writes is held to them. The last
/// numbers are the cone and the tolerances.
pub fn packed(chain: &[u8], poses: &[f64], numbers: [f64; 3]) -> Vec<u8> {
    let bytes: Vec<String> = chain.iter().map(|byte| format!("{byte:02X}")).collect();
    let poses: String = poses.chunks(6).map(|pose| line("pose", pose)).collect();
    let word = u8::from([112, 192].contains(&chain.len()));
    let [cone, chord, axis] = numbers.map(|number| [number]);
    let text = [
        format!("chain:\nbytes {}\nposes:\n", bytes.join(" ")),
        poses,
        "chain-offset chain\npose-offset poses\npose-count all\n".to_owned(),
        format!("word {word}\n"),
        line("cone", &cone),
        line("chord", &chord),
        line("axis-tolerance", &axis),
    ];
    job::pack(&text.concat()).unwrap()
}

/// A field of the text with its numbers, by their bits.
fn line(field: &str, numbers: &[f64]) -> String {
    let words = numbers
        .iter()
        .map(|number| format!(" {:016X}", number.to_bits()));
    format!("{field}{}\n", words.collect::<String>())
}
