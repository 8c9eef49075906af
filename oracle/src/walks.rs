//! Joint sets along a path, drawn and not solved: in steps of every size, to and fro, by whole turns, by little more than 1e-12, and
//! from one end of what is served to the other.

use crate::angles::{moved, signed, within};
use crate::chains::Chain;
use crate::joints::{MOST_ANGLE, MOST_POSITION, sound_joints};
use crate::lean::Lean;
use crate::paths::{JOINTS, MOST_TIP};
use crate::random::Random;

/// About what `joints_unchanged` calls the same, halves and doubles of it.
const LEAST: [f64; 11] = [
    0.0, 0.0, 0.5e-12, 0.9e-12, 1e-12, 1.2e-12, 1.8e-12, 2e-12, 2.1e-12, 4e-12, 2e-11,
];

/// What the next joint set is drawn from.
#[derive(Clone, Copy)]
enum Style {
    /// Steps of at most so many mm and degrees.
    Steps(f64, f64),
    /// To and fro by the same.
    Zigzag([f64; JOINTS]),
    /// By quarters, halves and whole turns, the position still or not.
    Turns(f64),
    /// By little more than 1e-12.
    Least,
    /// The ends of what is served.
    Ends,
    /// Any.
    Jump,
}

fn style(random: &mut Random) -> Style {
    match random.below(16) {
        0..=6 => Style::Steps(
            random.one_of(&[0.0, 0.01, 1.0, 20.0, 20.0]),
            random.one_of(&[0.0, 0.01, 1.0, 1.0, 10.0, 60.0]),
        ),
        7..=9 => {
            let (mm, degrees) = random.one_of(&[(0.1, 0.1), (10.0, 5.0), (300.0, 30.0)]);
            let most = [mm, mm, mm, degrees, degrees];
            Style::Zigzag(most.map(|most| within(most, random)))
        }
        10 | 11 => Style::Turns(random.one_of(&[0.0, 0.0, 0.5, 10.0])),
        12 | 13 => Style::Least,
        14 => Style::Ends,
        _ => Style::Jump,
    }
}

/// Joint sets, all of which are served.
pub fn walk(count: usize, random: &mut Random) -> Vec<f64> {
    let mut style = style(random);
    let mut set = first(style, random);
    let mut joints = Vec::with_capacity(JOINTS * count);
    for step in 0..count {
        joints.extend(set);
        if random.below(32) == 0 {
            style = self::style(random);
        }
        if random.below(16) > 0 {
            set = next(style, set, step, random);
        }
    }
    joints
}

fn first(style: Style, random: &mut Random) -> [f64; JOINTS] {
    let near = random.one_of(&[0.0, 1e-3, 50.0]);
    match style {
        Style::Least => [(); JOINTS].map(|()| {
            let some = within(near, random);
            random.one_of(&[0.0, -0.0, some])
        }),
        Style::Steps(..) | Style::Zigzag(_) | Style::Turns(_) => {
            let [x, y, z] = [(); 3].map(|()| within(300.0, random));
            let [first, second] = [(); 2].map(|()| within(100.0, random));
            [x, y, z, first, second]
        }
        Style::Ends | Style::Jump => any(random),
    }
}

fn any(random: &mut Random) -> [f64; JOINTS] {
    let joints = sound_joints(random);
    std::array::from_fn(|i| joints[i])
}

fn next(style: Style, set: [f64; JOINTS], step: usize, random: &mut Random) -> [f64; JOINTS] {
    let by = match style {
        Style::Steps(mm, degrees) => {
            [mm, mm, mm, degrees, degrees].map(|most| within(most, random))
        }
        Style::Zigzag(by) => by.map(|x| if step.is_multiple_of(2) { x } else { -x }),
        Style::Turns(mm) => {
            let [x, y, z] = [(); 3].map(|()| within(mm, random));
            let turns = [0.0, 0.0, 90.0, 180.0, 180.0, 360.0, 720.0];
            let [first, second] = [(); 2].map(|()| signed(random.one_of(&turns), random));
            [x, y, z, first, second]
        }
        Style::Least => [(); JOINTS].map(|()| {
            let least = random.one_of(&LEAST);
            signed(moved(least, u64::from(least > 0.0), random), random)
        }),
        Style::Ends => return ends(random),
        Style::Jump => return any(random),
    };
    clamped(std::array::from_fn(|i| set[i] + by[i]))
}

fn ends(random: &mut Random) -> [f64; JOINTS] {
    let most = [
        MOST_POSITION,
        MOST_POSITION,
        MOST_POSITION,
        MOST_ANGLE,
        MOST_ANGLE,
    ];
    most.map(|most| {
        let end = signed(most, random);
        random.one_of(&[end, end, end * (1.0 - 1e-16), end * 0.5, 0.0])
    })
}

fn clamped(set: [f64; JOINTS]) -> [f64; JOINTS] {
    let [x, y, z, first, second] = set;
    let [x, y, z] = [x, y, z].map(|x| x.clamp(-MOST_POSITION, MOST_POSITION));
    let [first, second] = [first, second].map(|x| x.clamp(-MOST_ANGLE, MOST_ANGLE));
    [x, y, z, first, second]
}

/// The poses that the sets come to, but for last places; a tip that is too far is brought within what is served.
pub fn poses_of(chain: &Chain, joints: &[f64]) -> Vec<f64> {
    let lean = Lean::new(chain);
    let pose = |set: &[f64]| {
        let (tip, axis) = lean.forward([set[0], set[1], set[2]], [set[3], set[4]], 0.0);
        let [x, y, z] = tip.map(|x| x.clamp(-MOST_TIP, MOST_TIP));
        [x, y, z, axis[0], axis[1], axis[2]]
    };
    joints.chunks(JOINTS).flat_map(pose).collect()
}
