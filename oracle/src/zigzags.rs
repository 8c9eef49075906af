//! Paths to and fro that need a given number of insertions exactly: wide swings of many, then narrow ones of one each, as many as
//! the Rust itself says are needed.

use crate::angles::within;
use crate::chains::Chain;
use crate::divided::MOST_INSERTED;
use crate::divisions::{Division, From};
use crate::lean::dot;
use crate::machines::usual;
use crate::paths::JOINTS;
use crate::random::Random;
use crate::rust::ported;
use crate::stricts;
use crate::walks::poses_of;

const TOLERANCES: [f64; 2] = [0.01, 0.05];
const CONE: f64 = 1.0;

/// Of so many machines one has a path that is wanted.
const DRAWN: usize = 20;

/// Two joint sets of a machine, and how far a narrow swing goes from the first to the second.
struct Zigzag {
    chain: Chain,
    ends: [[f64; JOINTS]; 2],
    narrow: f64,
    how: How,
}

/// Solved in the same call, given its joints, or given them and divided strictly.
#[derive(Clone, Copy, PartialEq)]
enum How {
    Solved,
    Given,
    Strictly,
}

/// A path that needs `count` insertions, at most one more than may be; solved in the same call, or given its joints.
pub fn needing(count: usize, solved: bool, random: &mut Random) -> Division {
    let how = if solved { How::Solved } else { How::Given };
    needing_by(count, how, random)
}

/// One that needs them in a strict division.
pub fn needing_strictly(count: usize, random: &mut Random) -> Division {
    needing_by(count, How::Strictly, random)
}

fn needing_by(count: usize, how: How, random: &mut Random) -> Division {
    let mut drawn = (0..DRAWN).filter_map(|_| Zigzag::drawn(how, random)?.needing(count));
    drawn.next().expect("a path of so many insertions")
}

impl Zigzag {
    fn drawn(how: How, random: &mut Random) -> Option<Self> {
        let mut chain = usual(random);
        if random.below(3) == 0 {
            let [first, second] = chain.rotaries;
            chain.count = 1;
            if dot(first.axis, chain.spindle) != 0.0 {
                chain.rotaries = [second, first];
            }
        }
        let [x, y, z] = [(); 3].map(|()| within(100.0, random));
        let angle = 50.0 + within(10.0, random);
        let from = [x, y, z, angle, if chain.count == 1 { 0.0 } else { angle }];
        let by = [
            30.0,
            -20.0,
            5.0,
            15.0,
            if chain.count == 1 { 0.0 } else { 25.0 },
        ];
        let mut zigzag = Zigzag {
            chain,
            ends: [from, std::array::from_fn(|i| from[i] + by[i])],
            narrow: 1.0,
            how,
        };
        for _ in 0..20 {
            if zigzag.inserted(&zigzag.path(0, 1)) == Some(1) {
                return Some(zigzag);
            }
            zigzag.narrow *= 0.8;
        }
        None
    }

    fn needing(&self, count: usize) -> Option<Division> {
        let each = self.inserted(&self.path(1, 0)).filter(|&each| each > 0)?;
        let most = count.min(MOST_INSERTED);
        let wide = (most / each).saturating_sub(1);
        let mut narrow = most - wide * each;
        for _ in 0..4 {
            let inserted = self.inserted(&self.path(wide, narrow))?;
            if inserted == most {
                return Some(self.division(&self.path(wide, narrow + count - most)));
            }
            narrow = (narrow + most).checked_sub(inserted)?;
        }
        None
    }

    /// So many wide swings, to or fro, then so many narrow ones.
    fn path(&self, wide: usize, narrow: usize) -> Vec<f64> {
        let [near, far] = self.ends;
        let mut joints = near.to_vec();
        for i in 0..wide {
            joints.extend(if i % 2 == 0 { far } else { near });
        }
        let [from, to] = if wide.is_multiple_of(2) {
            [near, far]
        } else {
            [far, near]
        };
        let beside: [f64; JOINTS] =
            std::array::from_fn(|i| from[i] + (to[i] - from[i]) * self.narrow);
        for i in 0..narrow {
            joints.extend(if i % 2 == 0 { beside } else { from });
        }
        joints
    }

    /// What the Rust inserts, or the reference of the strict division.
    fn inserted(&self, joints: &[f64]) -> Option<usize> {
        let setup = ported::setup(&self.chain);
        let poses = poses_of(&self.chain, joints);
        let solved = match self.how {
            How::Solved => ported::solve_path(&setup, &poses, &joints[..JOINTS], CONE).ok()?,
            How::Given => joints.to_vec(),
            How::Strictly => {
                return stricts::inserted(&setup.kinematics, &poses, joints, TOLERANCES);
            }
        };
        let [_, divided] = ported::subdivide_path(&setup, &poses, &solved, TOLERANCES).ok()?;
        Some((divided.len() - solved.len()) / JOINTS)
    }

    fn division(&self, joints: &[f64]) -> Division {
        Division {
            chain: self.chain.bytes(),
            poses: poses_of(&self.chain, joints),
            from: match self.how {
                How::Solved => From::Start {
                    start: joints[..JOINTS].to_vec(),
                    cone: CONE,
                },
                How::Given | How::Strictly => From::Joints(joints.to_vec()),
            },
            tolerances: TOLERANCES,
        }
    }
}
