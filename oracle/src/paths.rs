//! What a call of solve_path is given, drawn at random: a course on a machine, with limits and a cone that are hit exactly; sound,
//! or damaged in a field or in several at once.

use crate::angles::signed;
use crate::chains::{Chain, bad_axis, chain_bytes, slot};
use crate::courses::{Drawing, close_together, square_apart, straying};
use crate::joints::joints;
use crate::machines::{machine, usual};
use crate::numbers::{not_finite, refused};
use crate::random::Random;
use crate::rust::ported;
use crate::solved::pose_in;
use crate::stops;
use std::fmt;

/// A tip's component may be as large as this.
pub const MOST_TIP: f64 = 100_000.0;

/// How many numbers a pose and a joint set have.
pub const POSE: usize = 6;
pub const JOINTS: usize = 5;

/// `room` is how many numbers the call is lent to write to.
#[derive(Clone, Default)]
pub struct Path {
    pub chain: Vec<u8>,
    pub poses: Vec<f64>,
    pub start: Vec<f64>,
    pub cone: f64,
    pub room: usize,
}

impl Path {
    /// Three quarters of the time nothing is damaged, so that enough is served.
    pub fn drawn(random: &mut Random) -> Self {
        let mut path = match random.below(32) {
            0 => square_apart(random),
            1 => close_together(random),
            2 => straying(random),
            _ => {
                let count = length(random);
                Path::of_course(machine(random), count, random)
            }
        };
        if random.below(4) == 0 {
            for _ in 0..1 + random.below(3) {
                path.damage(random);
            }
        }
        path
    }

    pub fn of_course(mut chain: Chain, count: usize, random: &mut Random) -> Self {
        let mut path = Drawing::new(chain, random).path(count, random);
        match random.below(8) {
            0 => path.cone_to_clearance(&chain, random),
            1 | 2 => path.limits_to_angles(&mut chain, random),
            _ => {}
        }
        if random.below(4) > 0 {
            path.mend(&chain);
        }
        path.chain = chain.bytes();
        path
    }

    /// A path that is served: on a usual machine, tilts from 0 to 80 degrees.
    pub fn long(count: usize, random: &mut Random) -> Self {
        let chain = usual(random);
        let drawing = Drawing::new(chain, random);
        let mut poses = Vec::with_capacity(POSE * count);
        for i in 0..count {
            let t = i as f64 / 5000.0;
            let tilt = 40.0 * (1.0 - (7.0 * t).cos());
            poses.extend([100.0 * t.cos(), 100.0 * (3.0 * t).sin(), t]);
            poses.extend(drawing.tilted(tilt, 200.0 * t.sin()));
        }
        Path {
            chain: chain.bytes(),
            poses,
            start: Vec::new(),
            cone: 1.0,
            room: JOINTS * count,
        }
    }

    /// Changes an input so that it is refused, where it is read at all.
    fn damage(&mut self, random: &mut Random) {
        match random.below(20) {
            0..=3 => self.chain = chain_bytes(random),
            4 | 5 => self.start = joints(random),
            6 => self.start.resize(random.one_of(&[0, 1, 4, 6, 10]), 0.0),
            7 | 8 => self.cone = bad_cone(random),
            9 => self.room = random.below(self.room as u64 + 2) as usize,
            10 | 11 => self.room = self.room.saturating_sub(JOINTS),
            12 => {
                let shorter = random.below(self.poses.len() as u64 + 2) as usize;
                self.poses.resize(shorter, 0.0);
            }
            _ => self.damage_pose(random),
        }
    }

    fn damage_pose(&mut self, random: &mut Random) {
        let count = self.poses.len() / POSE;
        if count == 0 {
            return;
        }
        let at = POSE * random.below(count as u64) as usize;
        let pose = &mut self.poses[at..at + POSE];
        match random.below(5) {
            0 => pose[random.below(6) as usize] = not_finite(random),
            1 => pose[3..].copy_from_slice(&bad_axis(random)),
            2 => pose[slot(random)] = signed(MOST_TIP.next_up(), random),
            3 => pose[slot(random)] = refused(MOST_TIP, random),
            _ => pose[3 + slot(random)] *= random.one_of(&[0.0, 1e160, 1e-300, -1.0]),
        }
    }

    /// Some limit becomes an angle that the path comes to without limits, or one place more or less.
    pub fn limits_to_angles(&mut self, chain: &mut Chain, random: &mut Random) {
        for rotary in &mut chain.rotaries {
            (rotary.limited, rotary.limits) = (0, [0.0; 2]);
        }
        self.mend(chain);
        let setup = ported::setup(chain);
        let Ok(solved) = ported::solve_path(&setup, &self.poses, &self.start, self.cone) else {
            return;
        };
        if solved.is_empty() {
            return;
        }
        for at in 0..usize::from(chain.count) {
            let angles: Vec<f64> = solved.chunks(JOINTS).map(|set| set[3 + at]).collect();
            if random.below(6) > 0 {
                chain.rotaries[at].limited = 1;
                chain.rotaries[at].limits = limits_at(&angles, random);
            }
        }
    }

    /// A pose in the cone gets limits beside the angles of its lock and of its exact solution, on a chain that has none. A rotary
    /// whose angle is locked is limited at the first pose alone: on a later one the pose before would be outside already.
    pub fn limits_to_lock(&mut self, chain: &mut Chain, random: &mut Random) {
        let rust = ported::setup(chain).kinematics;
        let clearance = |pose: &[f64]| rust.clearance(ported::tool_pose(pose).axis);
        let poses = self.poses.chunks(POSE).map(clearance).enumerate();
        let inside = poses.filter(|(_, degrees)| degrees.is_some_and(|x| x <= self.cone));
        let inside: Vec<usize> = inside.map(|(at, _)| at).collect();
        if inside.is_empty() {
            return;
        }
        let any = random.one_of(&inside);
        let at = random.one_of(&[inside[0], any]);
        let Some((previous, lock, exact)) = self.solutions_in_cone(chain, at) else {
            return;
        };
        let exact = random.one_of(&[exact[0], exact[0], exact[0], exact[exact.len() - 1]]);
        let moved = (0..2).filter(|&slot| lock[slot] != previous[slot]);
        let moved: Vec<usize> = moved.collect();
        let slots = match (at, random.below(4)) {
            (0, 0) => vec![0, 1],
            (0, 1) => vec![random.below(2) as usize],
            (0, _) if moved.is_empty() => vec![random.below(2) as usize],
            _ => moved,
        };
        for slot in slots {
            let rotary = &mut chain.rotaries[slot];
            rotary.limited = 1;
            rotary.limits = stop_beside(lock[slot], exact[slot], previous[slot], random);
        }
    }

    /// The angles before a pose in the cone, those of its lock, and those of its exact solutions, or angles beside the lock's where it
    /// has none.
    fn solutions_in_cone(
        &self,
        chain: &Chain,
        at: usize,
    ) -> Option<([f64; 2], [f64; 2], Vec<[f64; 2]>)> {
        let rust = ported::setup(chain);
        let before = &self.poses[..POSE * at];
        let solved = ported::solve_path(&rust, before, &self.start, self.cone).ok()?;
        let last = solved.chunks(JOINTS).next_back().unwrap_or(&self.start);
        let previous = match last {
            [_, _, _, first, second] => [*first, *second],
            _ => [0.0; 2],
        };
        let pose = ported::tool_pose(&self.poses[POSE * at..]);
        let solutions = rust.kinematics.lock_and_exact(&pose, previous, self.cone);
        let (lock, exact) = solutions?;
        let exact = match exact.is_empty() {
            true => vec![lock.map(|angle| angle + 1.0)],
            false => exact,
        };
        Some((previous, lock, exact))
    }

    /// The cone becomes the clearance of some pose, or one place less.
    fn cone_to_clearance(&mut self, chain: &Chain, random: &mut Random) {
        let count = self.poses.len() / POSE;
        if count == 0 {
            return;
        }
        let at = POSE * random.below(count as u64) as usize;
        let axis = ported::tool_pose(&self.poses[at..]).axis;
        let clearance = ported::setup(chain).kinematics.clearance(axis);
        if let Some(clearance) = clearance.filter(|&degrees| degrees > 0.0 && degrees <= 10.0) {
            self.cone = random.one_of(&[clearance, clearance, clearance.next_down()]);
        }
    }

    /// Leaves out poses that are refused, the first few of them, so that more paths are served.
    fn mend(&mut self, chain: &Chain) {
        let setup = ported::setup(chain);
        for _ in 0..8 {
            match stops::solve_path(&setup, &self.poses, &self.start, self.cone) {
                Err(words) if words.starts_with("pose ") => {
                    let at = POSE * pose_in(&words);
                    self.poses.drain(at..at + POSE);
                }
                _ => return,
            }
        }
    }
}

/// Mostly few.
fn length(random: &mut Random) -> usize {
    let most = match random.below(64) {
        0 => return 0,
        1..=32 => 8,
        33..=51 => 32,
        52..=60 => 128,
        _ => 500,
    };
    1 + random.below(most) as usize
}

/// Limits of which one is among the angles, or a place away, or both are their ends.
fn limits_at(angles: &[f64], random: &mut Random) -> [f64; 2] {
    let some = random.one_of(angles);
    let some = random.one_of(&[some, some, some.next_up(), some.next_down()]);
    let least = angles.iter().copied().fold(some, f64::min);
    let most = angles.iter().copied().fold(some, f64::max);
    let span = random.one_of(&[1.0, 90.0, 180.0, 360.0, 7200.0]);
    match random.below(5) {
        0 => [some, some + span],
        1 => [some - span, some],
        2 => [some, most.max(some.next_up())],
        3 => [least.min(some.next_down()), some],
        _ => [least, most.max(least.next_up())],
    }
}

/// Limits with a stop at an angle of the exact solution, of the lock, between the two, or a place beside. Mostly they leave the lock
/// outside, and often the exact solution inside, with the angle before the pose where that can be.
fn stop_beside(lock: f64, exact: f64, previous: f64, random: &mut Random) -> [f64; 2] {
    let up = exact > lock || (exact == lock && random.below(2) == 0);
    let on = |x: f64| if up { x.next_up() } else { x.next_down() };
    let stop = match random.below(12) {
        0..=3 => exact,
        4 | 5 => lock + (exact - lock) / 2.0,
        6 | 7 => on(lock),
        8 => lock,
        9 | 10 => on(exact),
        _ => exact + if up { 1.0 } else { -1.0 },
    };
    let span = random.one_of(&[1.0, 90.0, 360.0, 7200.0]);
    match up {
        true => [stop, stop.max(exact).max(previous) + span],
        false => [stop.min(exact).min(previous) - span, stop],
    }
}

pub fn bad_cone(random: &mut Random) -> f64 {
    match random.below(6) {
        0 => not_finite(random),
        1 => random.one_of(&[0.0, -0.0, -f64::from_bits(1), -1.0, -10.0]),
        2 => 10f64.next_up(),
        _ => refused(10.0, random),
    }
}

/// Every input as bits.
impl fmt::Display for Path {
    fn fmt(&self, f: &mut fmt::Formatter<'_>) -> fmt::Result {
        let digits: String = self
            .chain
            .iter()
            .map(|byte| format!("{byte:02X}"))
            .collect();
        write!(f, "chain [{digits}] ")?;
        let cone = vec![self.cone];
        for (words, numbers) in [
            ("poses", &self.poses),
            ("start", &self.start),
            ("cone", &cone),
        ] {
            let spelled = numbers.iter().map(|x| format!("{:016X}", x.to_bits()));
            write!(f, "{words} [{}] ", spelled.collect::<Vec<_>>().join(" "))?;
        }
        write!(f, "room {}", self.room)
    }
}
