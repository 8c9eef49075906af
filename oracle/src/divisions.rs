//! What a call that divides a path is given, drawn at random: joints that were solved or not, tolerances that are met exactly, tips
//! that the joints do not reach; sound, or damaged in a field or in several at once; and spaces from none to more than enough.

use crate::angles::{signed, within};
use crate::chains::{Chain, chain_bytes, harmed_bytes, slot};
use crate::courses::at_stops;
use crate::divided::{MOST_INSERTED, Verdict};
use crate::floats;
use crate::halvings::Halvings;
use crate::joints::{MOST_ANGLE, MOST_POSITION, joints};
use crate::lean::Lean;
use crate::machines::machine;
use crate::numbers::{not_finite, refused};
use crate::paths::{JOINTS, MOST_TIP, POSE, Path, bad_cone};
use crate::random::Random;
use crate::reading;
use crate::rust::ported;
use crate::stops;
use crate::walks::{poses_of, walk};
use std::fmt;

/// A tolerance that is smaller is one of roundings, and the halving for it seldom ends.
const ROUNDINGS: f64 = 1e-9;

/// How many numbers a call is lent to write poses to, and joints.
pub type Rooms = [usize; 2];

/// What the joints come from: they are given, or solved in the same call.
#[derive(Clone)]
pub enum From {
    Joints(Vec<f64>),
    Start { start: Vec<f64>, cone: f64 },
}

#[derive(Clone)]
pub struct Division {
    pub chain: Vec<u8>,
    pub poses: Vec<f64>,
    pub from: From,
    pub tolerances: [f64; 2],
}

/// A path on a machine, with joints for it that need not be those that are solved, before its tolerances are drawn.
struct Drawn {
    chain: Chain,
    path: Path,
    joints: Vec<f64>,
}

impl Division {
    /// Of one machine: a path that is solved and divided, and one whose joints are given. Three quarters of each are not damaged.
    pub fn drawn(random: &mut Random) -> [Division; 2] {
        let chain = machine(random);
        let most = most_inserted(random);
        let drawn = match random.below(2) {
            0 => Drawn::course(chain, random),
            _ => Drawn::walk(chain, random),
        };
        let mut both = drawn.both(most, random);
        let mut alone = drawn.alone(most, random);
        if random.below(4) == 0 {
            for _ in 0..1 + random.below(3) {
                both.damage(random);
            }
        }
        if random.below(4) == 0 {
            for _ in 0..1 + random.below(3) {
                alone.damage(random);
            }
        }
        [both, alone]
    }

    /// Mostly of the same machine, since on another one the joints are those of another path.
    fn damage_chain(&mut self, random: &mut Random) {
        self.chain = match reading::chain(&self.chain) {
            Ok(chain) if random.below(32) > 0 => harmed_bytes(chain, random),
            _ => chain_bytes(random),
        };
    }

    pub fn given(&self) -> usize {
        self.poses.len() / POSE
    }

    /// Whether its joints are given.
    pub fn is_given(&self) -> bool {
        matches!(self.from, From::Joints(_))
    }

    fn damage(&mut self, random: &mut Random) {
        match random.below(20) {
            0..=5 => self.damage_chain(random),
            6..=8 => self.tolerances[random.below(2) as usize] = bad_tolerance(random),
            9 => {
                let length = random.below(self.poses.len() as u64 + 3) as usize;
                self.poses.resize(length, 0.0);
            }
            10 => self.poses.truncate(self.poses.len().saturating_sub(POSE)),
            11..=14 => damage_record(&mut self.poses, &POSE_LIMITS, random),
            _ => self.from.damage(random),
        }
    }
}

impl From {
    fn damage(&mut self, random: &mut Random) {
        match self {
            From::Joints(joints) => match random.below(8) {
                0 => {
                    let length = random.below(joints.len() as u64 + 3) as usize;
                    joints.resize(length, 0.0);
                }
                1 => joints.truncate(joints.len().saturating_sub(JOINTS)),
                _ => damage_record(joints, &JOINT_LIMITS, random),
            },
            From::Start { start, cone } => match random.below(8) {
                0 => start.resize(random.one_of(&[0, 1, 4, 6, 10]), 0.0),
                1..=4 => *start = joints(random),
                _ => *cone = bad_cone(random),
            },
        }
    }
}

/// How large each number of a record may be. Of an axis any size is served.
const POSE_LIMITS: [f64; POSE] = [
    MOST_TIP,
    MOST_TIP,
    MOST_TIP,
    f64::INFINITY,
    f64::INFINITY,
    f64::INFINITY,
];
const JOINT_LIMITS: [f64; JOINTS] = [
    MOST_POSITION,
    MOST_POSITION,
    MOST_POSITION,
    MOST_ANGLE,
    MOST_ANGLE,
];

/// Some number of some record becomes one that is refused.
fn damage_record(numbers: &mut [f64], limits: &[f64], random: &mut Random) {
    let count = numbers.len() / limits.len();
    if count == 0 {
        return;
    }
    let slot = random.below(limits.len() as u64) as usize;
    let number = &mut numbers[limits.len() * random.below(count as u64) as usize + slot];
    *number = match (random.below(4), limits[slot]) {
        (0 | 1, _) | (_, f64::INFINITY) => not_finite(random),
        (2, most) => signed(most.next_up(), random),
        (_, most) => refused(most, random),
    };
}

fn bad_tolerance(random: &mut Random) -> f64 {
    match random.below(3) {
        0 => not_finite(random),
        1 => random.one_of(&[0.0, -0.0, -f64::from_bits(1), -1.0, f64::MIN]),
        _ => -floats::any(random).abs(),
    }
}

impl Drawn {
    /// A path of any course or beside a stop, with the joints that are solved or those of a walk. Poses that are refused are mostly
    /// left out.
    fn course(chain: Chain, random: &mut Random) -> Self {
        let path = match random.below(16) {
            0 => at_stops(random),
            _ => {
                let count = length(random) + random.below(6) as usize;
                Path::of_course(chain, count, random)
            }
        };
        if path.poses.is_empty() && random.below(8) > 0 {
            return Drawn::walk(chain, random);
        }
        let chain = reading::chain(&path.chain).expect("bytes that were made of a chain");
        let joints = match random.below(3) {
            0 => walk(path.poses.len() / POSE, random),
            _ => Vec::new(),
        };
        Drawn {
            chain,
            path,
            joints,
        }
    }

    /// The poses that joints reach, or tips beside them.
    fn walk(chain: Chain, random: &mut Random) -> Self {
        let joints = walk(length(random), random);
        let mut poses = poses_of(&chain, &joints);
        displace(&mut poses, random);
        let path = Path {
            chain: chain.bytes(),
            poses,
            start: match random.below(4) {
                0 => Vec::new(),
                _ => joints.iter().copied().take(JOINTS).collect(),
            },
            cone: random.one_of(&[1.0, 1.0, 10.0, 0.1]),
            room: 0,
        };
        Drawn {
            chain,
            path,
            joints,
        }
    }

    fn solved(&self) -> Vec<f64> {
        let Path {
            poses, start, cone, ..
        } = &self.path;
        let rust = ported::setup(&self.chain);
        stops::solve_path(&rust, poses, start, *cone).unwrap_or_default()
    }

    fn both(&self, most: usize, random: &mut Random) -> Division {
        Division {
            chain: self.path.chain.clone(),
            poses: self.path.poses.clone(),
            from: From::Start {
                start: self.path.start.clone(),
                cone: self.path.cone,
            },
            tolerances: self.tolerances(&self.solved(), most, random),
        }
    }

    fn alone(self, most: usize, random: &mut Random) -> Division {
        let mut joints = match self.joints.is_empty() {
            true => self.solved(),
            false => self.joints.clone(),
        };
        if joints.is_empty() {
            joints = walk(self.path.poses.len() / POSE, random);
        }
        let tolerances = self.tolerances(&joints, most, random);
        let mut poses = self.path.poses;
        if random.below(4) == 0 {
            strange_axes(&mut poses, random);
        }
        Division {
            chain: self.path.chain,
            poses,
            from: From::Joints(joints),
            tolerances,
        }
    }

    /// Mostly such that no more poses are inserted than `most`.
    fn tolerances(&self, joints: &[f64], most: usize, random: &mut Random) -> [f64; 2] {
        let halvings = Halvings::new(Lean::new(&self.chain), &self.path.poses, joints);
        let mut tolerances = self.any_tolerances(&halvings, joints, random);
        for _ in 0..30 {
            if halvings.inserted(tolerances, most).is_some() {
                break;
            }
            tolerances = tolerances.map(|x| (x * 16.0).max(ROUNDINGS));
        }
        tolerances
    }

    /// Parts of the largest gaps, gaps that are met exactly, and others.
    fn any_tolerances(&self, halvings: &Halvings, joints: &[f64], random: &mut Random) -> [f64; 2] {
        let mut power = |from: f64, to: f64| {
            let half = (to - from) / 2.0;
            10f64.powf(from + half + within(half, random))
        };
        let usual = [power(-5.0, -1.0), power(-2.5, 0.5)];
        let part = [power(-2.5, 0.0), power(-2.5, 0.0)];
        let tolerances = match random.below(9) {
            0 => usual,
            1 => random.one_of(&[[f64::MAX, 0.5], [0.1, f64::MAX], [f64::from_bits(1); 2]]),
            2 => return [1e-13, 1.0],
            3 | 4 => self.gaps(joints, random),
            _ => {
                let [tip, axis] = halvings.largest_gaps();
                [part[0] * tip, part[1] * axis]
            }
        };
        let least = match random.below(512) {
            0 => 0.0,
            _ => ROUNDINGS,
        };
        tolerances.map(|x| if x > 0.0 { x.max(least) } else { 0.01 })
    }

    /// Those of two given neighbours to the last bit, or a place less.
    fn gaps(&self, joints: &[f64], random: &mut Random) -> [f64; 2] {
        let pairs = (self.path.poses.len() / POSE).min(joints.len() / JOINTS);
        if pairs < 2 {
            return [0.0; 2];
        }
        let at = random.below(pairs as u64 - 1) as usize;
        let poses = self.path.poses.chunks(POSE).skip(at).map(ported::tool_pose);
        let sets = joints.chunks(JOINTS).skip(at).map(ported::joint_set);
        let both: Vec<_> = poses.zip(sets).take(2).collect();
        let rust = ported::setup(&self.chain).kinematics;
        let gaps = rust.gaps(both[0], both[1]).unwrap_or([0.0; 2]);
        gaps.map(|gap| random.one_of(&[gap, gap, gap.next_down(), gap.next_up()]))
    }
}

/// Mostly few.
fn length(random: &mut Random) -> usize {
    let most = match random.below(64) {
        0 => return 0,
        1..=44 => 6,
        45..=62 => 20,
        _ => 100,
    };
    1 + random.below(most) as usize
}

/// How many poses may be inserted, mostly few.
fn most_inserted(random: &mut Random) -> usize {
    match random.below(4096) {
        0 => 2 * MOST_INSERTED,
        1..=8 => 2000,
        9..=80 => 300,
        81..=800 => 100,
        _ => 24,
    }
}

/// Moves none, one or all of the tips away from where the joints have them.
fn displace(poses: &mut [f64], random: &mut Random) {
    let size = random.one_of(&[1e-12, 1e-6, 0.01, 0.5, 5.0]);
    let one = random.below(poses.len().max(1) as u64) as usize / POSE;
    let all = match random.below(8) {
        0 => true,
        1 => false,
        _ => return,
    };
    for (i, pose) in poses.chunks_mut(POSE).enumerate() {
        if all || i == one {
            let slot = slot(random);
            pose[slot] = (pose[slot] + within(size, random)).clamp(-MOST_TIP, MOST_TIP);
        }
    }
}

/// Axes that division does not read: zero, of any size, and of any sign of zero.
fn strange_axes(poses: &mut [f64], random: &mut Random) {
    for pose in poses.chunks_mut(POSE) {
        let any = floats::any(random);
        let number = random.one_of(&[0.0, -0.0, f64::MAX, f64::from_bits(1), any]);
        if number.is_finite() {
            pose[3 + slot(random)] = number;
        }
    }
}

/// Spaces of two numbers of records, in numbers.
fn rooms(poses: usize, joints: usize) -> Rooms {
    [POSE * poses, JOINTS * joints]
}

/// Spaces that a division is to be tried with.
pub fn spaces(verdict: &Verdict, random: &mut Random) -> Vec<Rooms> {
    let few = random.below(4) as usize;
    let Verdict::Judged { given, then, .. } = verdict else {
        let count = random.below(12) as usize;
        return vec![broken(rooms(count, count + few), random)];
    };
    let inserted = match then {
        Ok(divided) => divided.inserted,
        Err(refusal) => refusal.inserted,
    };
    let enough = given + inserted;
    let other = match random.below(6) {
        0 => 0,
        1 => given.saturating_sub(1),
        2 => *given,
        3 => enough.saturating_sub(1),
        _ => given + random.below(inserted as u64 + 1) as usize,
    };
    let mut spaces = vec![aside(enough, few, random), aside(other, few, random)];
    if random.below(4) == 0 {
        spaces.push(broken(rooms(enough + few, enough), random));
    }
    if inserted + 1 >= MOST_INSERTED {
        let more = [enough - 1, enough + 7, given.saturating_sub(1), *given, 0];
        spaces.extend(more.map(|space| rooms(space, space)));
    }
    spaces
}

/// One of the two outputs a few records longer, or neither.
fn aside(space: usize, few: usize, random: &mut Random) -> Rooms {
    random.one_of(&[
        rooms(space, space),
        rooms(space + few, space),
        rooms(space, space + few),
    ])
}

/// Mostly; with a number or some too many.
fn broken([poses, joints]: Rooms, random: &mut Random) -> Rooms {
    let more = 1 + random.below(4) as usize;
    random.one_of(&[
        [poses, joints],
        [poses + more, joints],
        [poses, joints + more],
        [poses + more, joints + more],
        [poses, joints],
    ])
}

/// Every input as bits.
impl fmt::Display for Division {
    fn fmt(&self, f: &mut fmt::Formatter<'_>) -> fmt::Result {
        let digits = self.chain.iter().map(|byte| format!("{byte:02X}"));
        write!(f, "chain [{}]", digits.collect::<String>())?;
        let (words, numbers, cone) = match &self.from {
            From::Joints(joints) => ("joints", joints, None),
            From::Start { start, cone } => ("start", start, Some(*cone)),
        };
        let rest = [("poses", &self.poses), (words, numbers)];
        for (words, numbers) in rest {
            let spelled = numbers.iter().map(|x| format!("{:016X}", x.to_bits()));
            write!(f, " {words} [{}]", spelled.collect::<Vec<_>>().join(" "))?;
        }
        let [chord, axis] = self.tolerances.map(f64::to_bits);
        if let Some(cone) = cone {
            write!(f, " cone {:016X}", cone.to_bits())?;
        }
        write!(f, " tolerances {chord:016X} {axis:016X}")
    }
}
