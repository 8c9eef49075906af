//! Random joint sets and tool lengths: served ones, often at an end of what is served, and damaged ones.

use crate::angles::{moved, signed, within};
use crate::numbers::{damages, refused, served};
use crate::random::Random;

/// The largest position, angle and tool length that are served.
pub const MOST_POSITION: f64 = 10_000_000.0;
pub const MOST_ANGLE: f64 = 36_000.0;
pub const MOST_TOOL: f64 = 100_000.0;

/// The position, then both angles, the one that may be unused too.
pub fn sound_joints(random: &mut Random) -> Vec<f64> {
    let mut joints: Vec<f64> = (0..3)
        .map(|_| served(MOST_POSITION, 1000.0, random))
        .collect();
    joints.extend([degrees(random), degrees(random)]);
    joints
}

/// The same, sound or damaged.
pub fn joints(random: &mut Random) -> Vec<f64> {
    let mut joints = sound_joints(random);
    for _ in 0..damages(random) {
        let slot = random.below(5) as usize;
        let most = if slot < 3 { MOST_POSITION } else { MOST_ANGLE };
        joints[slot] = refused(most, random);
    }
    if random.below(32) == 0 {
        joints.resize(random.one_of(&[0, 1, 4, 6, 10]), 0.0);
    }
    joints
}

/// An angle that is served: often a multiple of 90 or of 15 degrees.
fn degrees(random: &mut Random) -> f64 {
    match random.below(8) {
        0 => served(MOST_ANGLE, 360.0, random),
        1 => signed(90.0 * random.below(401) as f64, random),
        2 => signed(15.0 * random.below(49) as f64, random),
        3 => moved(
            signed(90.0 * (1 + random.below(8)) as f64, random),
            2,
            random,
        ),
        4 => within(MOST_ANGLE, random),
        _ => within(180.0, random),
    }
}

pub fn sound_tool_length(random: &mut Random) -> f64 {
    match random.below(8) {
        0 => 0.0,
        1 => -0.0,
        _ => served(MOST_TOOL, 300.0, random).abs(),
    }
}

/// A tool length, sound or damaged.
pub fn tool_length(random: &mut Random) -> f64 {
    match random.below(12) {
        0 => refused(MOST_TOOL, random),
        1 => -served(MOST_TOOL, 300.0, random).abs(),
        2 => random.one_of(&[-f64::from_bits(1), -1e-300]),
        _ => sound_tool_length(random),
    }
}
