//! Divisions to try by name: the smallest on which two readings of "the same joints" part, whole turns, the job of document 01, and
//! paths as long as are served.

use crate::chains::{Chain, Rotary};
use crate::divisions::{Division, From};
use crate::halvings::Halvings;
use crate::lean::Lean;
use crate::paths::{JOINTS, POSE, Path};
use crate::random::Random;
use crate::reading;
use crate::rust::ported;
use crate::solved::MOST_POSES;

/// So many insertions are some.
const SOME: usize = 3000;

const TABLE: u8 = 0;
const HEAD: u8 = 1;

/// C about z, on the spindle.
fn chain(carrier: u8, pivot: f64) -> Vec<u8> {
    let rotary = Rotary {
        letter: b'C',
        carrier,
        axis: [0.0, 0.0, 1.0],
        pivot: [pivot; 3],
        ..Rotary::default()
    };
    let chain = Chain {
        count: 1,
        zeros: [0; 7],
        rotaries: [rotary, Rotary::default()],
        spindle: [0.0, 0.0, 1.0],
        rested: false,
    };
    chain.bytes()
}

fn poses(tips: &[[f64; 3]]) -> Vec<f64> {
    let pose = |&[x, y, z]: &[f64; 3]| [x, y, z, 0.0, 0.0, 1.0];
    tips.iter().flat_map(pose).collect()
}

/// No start, a cone of 1 degree.
fn both(chain: Vec<u8>, tips: &[[f64; 3]], tolerances: [f64; 2]) -> Division {
    Division {
        chain,
        poses: poses(tips),
        from: From::Start {
            start: Vec::new(),
            cone: 1.0,
        },
        tolerances,
    }
}

fn alone(chain: Vec<u8>, tips: &[[f64; 3]], joints: &[f64], tolerances: [f64; 2]) -> Division {
    Division {
        chain,
        poses: poses(tips),
        from: From::Joints(joints.to_vec()),
        tolerances,
    }
}

pub fn remarkable() -> Vec<Division> {
    let mut all = too_close();
    all.extend([
        both(
            chain(HEAD, 0.0),
            &[[1.0, 2.0, 3.0], [3.0, 2.0, 3.0]],
            [0.5, 0.5],
        ),
        both(chain(HEAD, 0.0), &[], [0.5, 0.5]),
        both(chain(HEAD, 0.0), &[], [f64::NAN, 0.5]),
        both(chain(HEAD, 0.0), &[[0.0; 3]], [0.5, 0.0]),
        alone(chain(HEAD, 0.0), &[], &[], [0.5, 0.5]),
        alone(chain(HEAD, 0.0), &[[0.0; 3]], &[0.0; 5], [0.5, 0.5]),
    ]);
    all.extend([360.0, 720.0, -720.0, 1080.0, 36_000.0, 90.0, 180.0].map(turned));
    all.extend(slot_by_slot());
    all
}

/// Midpoints of which no component differs by more than 1e-12, but three or two together do.
fn too_close() -> Vec<Division> {
    let mut all = Vec::new();
    for to in [[1.8e-12; 3], [1.8e-12, 1.8e-12, 0.0]] {
        let joints = [&[0.0; JOINTS], &to[..], &[0.0; 2]].concat();
        let far = [[0.0; 3], [1.0, 0.0, 0.0]];
        all.push(alone(chain(HEAD, 0.0), &far, &joints, [0.01, 1.0]));
        all.push(both(chain(TABLE, 1e5), &[[0.0; 3], to], [1e-13, 1.0]));
    }
    all
}

/// A tip that stays where it is while the table turns.
fn turned(degrees: f64) -> Division {
    let joints = [20.0, 5.0, 10.0, 0.0, 0.0, 20.0, 5.0, 10.0, degrees, 0.0];
    let still = [[20.0, 5.0, 10.0]; 2];
    alone(chain(TABLE, 0.0), &still, &joints, [0.5, 0.5])
}

/// A quarter turn of a table across the spindle, held to a millionth of a micrometre: it needs more insertions than may
/// be. Solved first, and given its joints.
pub fn too_many() -> [Division; 2] {
    let table = Rotary {
        letter: b'B',
        carrier: TABLE,
        axis: [0.0, 1.0, 0.0],
        ..Rotary::default()
    };
    let chain = Chain {
        count: 1,
        rotaries: [table, Rotary::default()],
        spindle: [0.0, 0.0, 1.0],
        ..Chain::default()
    };
    let poses = vec![
        20.0, 5.0, 10.0, 0.0, 0.0, 1.0, -10.0, 5.0, 20.0, -1.0, 0.0, 0.0,
    ];
    let joints = vec![20.0, 5.0, 10.0, 0.0, 0.0, 20.0, 5.0, 10.0, 90.0, 0.0];
    let start = From::Start {
        start: Vec::new(),
        cone: 1.0,
    };
    [start, From::Joints(joints)].map(|from| Division {
        chain: chain.bytes(),
        poses: poses.clone(),
        from,
        tolerances: [1e-9, 1.0],
    })
}

/// A number of the second record that is not finite, or at a limit or beyond it, in each place.
fn slot_by_slot() -> Vec<Division> {
    let mut all = Vec::new();
    for slot in 0..POSE {
        for number in [f64::NAN, f64::INFINITY, 1e5f64.next_up(), 1e5] {
            let mut division = turned(0.0);
            division.poses[POSE + slot] = number;
            all.push(division);
        }
    }
    for slot in 0..JOINTS {
        let most = if slot < 3 { 1e7f64 } else { 36_000.0 };
        for number in [f64::NAN, f64::NEG_INFINITY, -most.next_up(), most] {
            let mut division = turned(0.0);
            if let From::Joints(joints) = &mut division.from {
                joints[JOINTS + slot] = number;
            }
            division.tolerances = [1e8, 200.0];
            all.push(division);
        }
    }
    all
}

/// 100,000 poses, solved and divided, and given their joints, with some insertions and with too many; then one pose more, and that with
/// a last number that is not finite.
pub fn long(random: &mut Random) -> Vec<Division> {
    let [both, alone] = of_length(MOST_POSES, random);
    let mut all = vec![both, alone];
    for at in 0..2 {
        let mut tight = all[at].clone();
        tight.tolerances = tight.tolerances.map(|x| 0.1 * x);
        all.push(tight);
    }
    let [both, alone] = of_length(MOST_POSES + 1, random);
    let mut last = alone.clone();
    last.poses[POSE * MOST_POSES + 5] = f64::NAN;
    all.extend([both, alone, last]);
    all
}

fn of_length(count: usize, random: &mut Random) -> [Division; 2] {
    let path = Path::long(count, random);
    let chain = reading::chain(&path.chain).expect("a chain that was made");
    let joints = ported::solve_path(&ported::setup(&chain), &path.poses, &path.start, path.cone);
    let joints = joints.expect("a long path that is solved");
    let both = Division {
        chain: path.chain,
        tolerances: tolerances(&Halvings::new(Lean::new(&chain), &path.poses, &joints)),
        poses: path.poses,
        from: From::Start {
            start: path.start,
            cone: path.cone,
        },
    };
    let alone = Division {
        from: From::Joints(joints),
        ..both.clone()
    };
    [both, alone]
}

/// Under which some are inserted, by bisection.
fn tolerances(halvings: &Halvings) -> [f64; 2] {
    let largest = halvings.largest_gaps();
    let [mut tight, mut loose] = [0.0, 1.0];
    for _ in 0..40 {
        let part = 0.5 * (tight + loose);
        match halvings.inserted(largest.map(|gap| part * gap), 2 * SOME) {
            None => tight = part,
            Some(inserted) => {
                loose = part;
                if inserted >= SOME / 2 {
                    break;
                }
            }
        }
    }
    largest.map(|gap| loose * gap)
}

#[cfg(test)]
mod tests {
    use super::*;
    use crate::divided::{Verdict, expected};
    use crate::maztubel;

    fn inserted(division: &Division) -> Option<usize> {
        match expected(division) {
            Verdict::Judged { then, .. } => then.ok().map(|divided| divided.inserted),
            Verdict::Refused(_) => None,
        }
    }

    #[test]
    fn midpoints_that_are_just_far_enough_are_inserted() {
        for division in too_close() {
            assert_eq!(inserted(&division), Some(1), "{division}");
        }
    }

    #[test]
    fn whole_turns_are_not_divided() {
        for degrees in [0.0, 360.0 * 2.0, -720.0, 36_000.0] {
            assert_eq!(inserted(&turned(degrees)), Some(0));
        }
        assert!(inserted(&turned(90.0)) > Some(0));
    }

    /// The spherical mean takes sines up to 1e-12 for those of equal or opposite axes. No sine of an arccosine is near it, so that
    /// another threshold, from here to there, shows in no division.
    #[test]
    fn no_sine_lies_about_the_mean_s_threshold() {
        let sine = |cosine: f64| {
            let theta = maztubel::arccosine(cosine).expect("a cosine");
            maztubel::sine(theta).expect("an angle up to pi")
        };
        assert!([1.0, -1.0].iter().all(|&cosine| sine(cosine) <= 1.3e-16));
        let nearest = [1f64.next_down(), (-1f64).next_up()];
        assert!(nearest.iter().all(|&cosine| sine(cosine) >= 1.4e-8));
    }
}
