//! How far a divided path lies from the one that the Rust gives with libm, and how often that has another number or another count.
//!
//! A tolerance that is met exactly is drawn on purpose, and a pose at a border is solved another way by another last bit. So paths
//! with another count, and those that are divided at other places, are counted and not measured.

use crate::chains::Chain;
use crate::divided::{Divided, Refusal};
use crate::divisions::{Division, From};
use crate::from_libm::{OFF_BORDER, USUAL_CLEARANCE, USUAL_LENGTH, usual};
use crate::original::untouched::kinematics::FiveAxisSetup;
use crate::paths::{JOINTS, POSE};
use crate::rust::untouched;
use crate::stops;

/// Solved joints that are farther away than this, in mm or degrees, are those of another place on the path. Where the joints are
/// given those of one place are the same to the last bit.
const ELSEWHERE: f64 = 1e-3;

/// Angles up to this many degrees are those of a usual path.
const USUAL_ANGLE: f64 = 360.0;

#[derive(Default)]
pub struct WithLibm {
    compared: u64,
    other_number: u64,
    other_count: u64,
    elsewhere: u64,
    every: Measured,
    usual: Measured,
}

/// The largest distances of a component: of a tip and a position in mm, of an axis, and of an angle in degrees.
#[derive(Default)]
struct Measured {
    poses: u64,
    tip: f64,
    axis: f64,
    position: f64,
    angle: f64,
}

impl WithLibm {
    /// A division that comes to its halving.
    pub fn see(&mut self, division: &Division, chain: &Chain, answer: Result<&Divided, &Refusal>) {
        self.compared += 1;
        let rust = untouched::setup(chain);
        let (libms, divided) = match (divided(&rust, division), answer) {
            (Ok(libms), Ok(divided)) => (libms, divided),
            (Err(words), Err(_)) if words.contains("inserts more") => return,
            _ => {
                self.other_number += 1;
                return;
            }
        };
        if libms[1].len() != divided.joints.len() {
            self.other_count += 1;
            return;
        }
        let one = Measured::of(divided, &libms);
        let most = match division.from {
            From::Joints(_) => 0.0,
            From::Start { .. } => ELSEWHERE,
        };
        if one.angle.max(one.position) > most {
            self.elsewhere += 1;
            return;
        }
        if usual_division(&rust, division, chain, divided) {
            self.usual.add(&one);
        }
        self.every.add(&one);
    }

    pub fn add(&mut self, more: WithLibm) {
        self.compared += more.compared;
        self.other_number += more.other_number;
        self.other_count += more.other_count;
        self.elsewhere += more.elsewhere;
        self.every.add(&more.every);
        self.usual.add(&more.usual);
    }

    pub fn print(&self, entry: &str) {
        let WithLibm {
            compared,
            other_number,
            other_count,
            elsewhere,
            ..
        } = self;
        println!(
            "{entry} with libm, of {compared} halvings: {other_number} have another number, {other_count} another count, {elsewhere} poses at other places"
        );
        self.every.print("the others");
        self.usual.print("the usual of them");
    }
}

impl Measured {
    fn of(divided: &Divided, [poses, joints]: &[Vec<f64>; 2]) -> Self {
        let mut most = Measured::default();
        let gap = |x: &[f64], y: &[f64]| {
            let gaps = x.iter().zip(y).map(|(x, y)| (x - y).abs());
            gaps.fold(0.0, f64::max)
        };
        for (pose, libms) in divided.poses.chunks(POSE).zip(poses.chunks(POSE)) {
            most.poses += 1;
            most.tip = most.tip.max(gap(&pose[..3], &libms[..3]));
            most.axis = most.axis.max(gap(&pose[3..], &libms[3..]));
        }
        for (set, libms) in divided.joints.chunks(JOINTS).zip(joints.chunks(JOINTS)) {
            most.position = most.position.max(gap(&set[..3], &libms[..3]));
            most.angle = most.angle.max(gap(&set[3..], &libms[3..]));
        }
        most
    }

    fn add(&mut self, more: &Measured) {
        self.poses += more.poses;
        self.tip = self.tip.max(more.tip);
        self.axis = self.axis.max(more.axis);
        self.position = self.position.max(more.position);
        self.angle = self.angle.max(more.angle);
    }

    fn print(&self, words: &str) {
        let Measured {
            poses,
            tip,
            axis,
            position,
            angle,
        } = self;
        println!(
            "    {words}, {poses} poses: tip at most {tip:.3e} mm, axis {axis:.3e}, position {position:.3e} mm, angle {angle:.3e} degrees"
        );
    }
}

fn divided(rust: &FiveAxisSetup, division: &Division) -> untouched::Told<[Vec<f64>; 2]> {
    let Division {
        poses, tolerances, ..
    } = division;
    match &division.from {
        From::Joints(joints) => untouched::subdivide_path(rust, poses, joints, *tolerances),
        From::Start { start, cone } => {
            let (joints, _) = stops::with_libm(rust, poses, start, *cone);
            untouched::subdivide_path(rust, poses, &joints?, *tolerances)
        }
    }
}

/// On a usual machine, near, and where it is solved away from the poles, from the cone's border and from the stops in the cone.
fn usual_division(
    rust: &FiveAxisSetup,
    division: &Division,
    chain: &Chain,
    divided: &Divided,
) -> bool {
    let clear = |pose: &[f64]| match division.from {
        From::Joints(_) => true,
        From::Start { cone, .. } => {
            let axis = untouched::tool_pose(pose).axis;
            let clearance = rust.kinematics.clearance(axis);
            clearance.is_some_and(|degrees| {
                degrees >= USUAL_CLEARANCE && (degrees - cone).abs() >= OFF_BORDER
            })
        }
    };
    let near = |numbers: &[f64], most: f64| numbers.iter().all(|x| x.abs() <= most);
    let mut poses = division.poses.chunks(POSE);
    let mut sets = divided.joints.chunks(JOINTS);
    let stopped = match &division.from {
        From::Joints(_) => false,
        From::Start { start, cone } => {
            let (_, stops) = stops::with_libm(rust, &division.poses, start, *cone);
            !stops.is_empty()
        }
    };
    usual(chain)
        && !stopped
        && poses.all(|pose| near(&pose[..3], USUAL_LENGTH) && clear(pose))
        && sets.all(|set| near(&set[..3], USUAL_LENGTH) && near(&set[3..], USUAL_ANGLE))
}
