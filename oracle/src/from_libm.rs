//! How far the joints along a path lie from those that the Rust gives with libm, by the same rule for the stops.
//!
//! Places where a cone, a limit, a branch or a half turn is met exactly are drawn on purpose, and there libm may fall to the other
//! side; and near a pole outside the cone an angle is as uncertain as its pole is near. So poses whose angles lie a degree or more
//! away are counted and not measured, and usual poses are measured apart.

use crate::chains::Chain;
use crate::paths::{JOINTS, POSE, Path};
use crate::rust::untouched;
use crate::solved::{Answer, cause, pose_in};
use crate::stops;

/// Pivots and tips up to this many mm are those of a usual machine.
pub(crate) const USUAL_LENGTH: f64 = 1000.0;

/// Poses at least this many degrees from a pole are usual, on a path of which none is as near as this to the cone's border, and on
/// which no lock leaves its limits: the exact solution beside a pole is as uncertain in the cone as outside, and is kept from there.
pub(crate) const USUAL_CLEARANCE: f64 = 0.1;
pub(crate) const OFF_BORDER: f64 = 1e-6;

#[derive(Default)]
pub struct FromLibm {
    paths: u64,
    other_number: u64,
    elsewhere: u64,
    every: Measured,
    usual: Measured,
}

/// The largest distances of a position's component in mm, and of an angle in degrees.
#[derive(Default)]
struct Measured {
    poses: u64,
    position: f64,
    angle: f64,
}

impl FromLibm {
    /// Of a path that comes to its first pose. What the Rust has no number for (17 and 26) is left out.
    /// `stopped`: a lock leaves a rotary's limits on it.
    pub fn see(&mut self, path: &Path, chain: &Chain, answer: &Answer, stopped: bool) {
        if answer
            .as_ref()
            .is_err_and(|refusal| matches!(refusal.number, 17 | 26))
        {
            return;
        }
        self.paths += 1;
        let rust = untouched::setup(chain);
        let (libms, stops) = stops::with_libm(&rust, &path.poses, &path.start, path.cone);
        let stopped = stopped || !stops.is_empty();
        match (answer, libms) {
            (Ok(joints), Ok(libms)) => self.measure(path, chain, [joints, &libms], stopped),
            (Err(refusal), Err(words)) => {
                let pose = pose_in(&words);
                let told = (refusal.number, refusal.letter, refusal.at as usize);
                let (number, letter) = cause(&words, pose);
                self.other_number += u64::from(told != (number, letter, pose));
            }
            _ => self.other_number += 1,
        }
    }

    fn measure(&mut self, path: &Path, chain: &Chain, both: [&[f64]; 2], stopped: bool) {
        let rust = untouched::setup(chain);
        let clearance = |pose: &[f64]| rust.kinematics.clearance(untouched::tool_pose(pose).axis);
        let off_border = |pose: &[f64]| {
            clearance(pose).is_some_and(|degrees| (degrees - path.cone).abs() >= OFF_BORDER)
        };
        let usual_path = usual(chain) && !stopped && path.poses.chunks(POSE).all(off_border);
        let [joints, libms] = both.map(|sets| sets.chunks(JOINTS));
        let sets = joints.zip(libms);
        for (pose, (set, libms)) in path.poses.chunks(POSE).zip(sets) {
            let one = Measured::of(set, libms);
            if one.angle >= 1.0 {
                self.elsewhere += 1;
                continue;
            }
            self.every.see(&one);
            let near = pose[..3].iter().all(|x| x.abs() <= USUAL_LENGTH);
            if usual_path && near && clearance(pose) >= Some(USUAL_CLEARANCE) {
                self.usual.see(&one);
            }
        }
    }

    pub fn add(&mut self, more: FromLibm) {
        self.paths += more.paths;
        self.other_number += more.other_number;
        self.elsewhere += more.elsewhere;
        self.every.see(&more.every);
        self.usual.see(&more.usual);
    }

    pub fn print(&self) {
        let FromLibm {
            paths,
            other_number,
            elsewhere,
            ..
        } = self;
        println!(
            "with libm, of {paths} paths: {other_number} have another number or pose, and {elsewhere} poses an angle a degree or more away"
        );
        for (words, most) in [("the other", &self.every), ("the usual", &self.usual)] {
            let Measured {
                poses,
                position,
                angle,
            } = most;
            println!(
                "from libm, {words} {poses} poses: position at most {position:.3e} mm, angle {angle:.3e} degrees"
            );
        }
    }
}

impl Measured {
    fn of(set: &[f64], libms: &[f64]) -> Self {
        let gap = |i: usize| (set[i] - libms[i]).abs();
        Measured {
            poses: 1,
            position: gap(0).max(gap(1)).max(gap(2)),
            angle: gap(3).max(gap(4)),
        }
    }

    fn see(&mut self, more: &Measured) {
        self.poses += more.poses;
        self.position = self.position.max(more.position);
        self.angle = self.angle.max(more.angle);
    }
}

/// Two rotaries on x, y or z, one of them on the spindle, and pivots not far.
pub(crate) fn usual(chain: &Chain) -> bool {
    let axes = chain.present().map(|rotary| rotary.axis);
    let whole = |axis: [f64; 3]| axis.iter().map(|x| x.abs()).sum::<f64>() == 1.0;
    let mut pivots = chain.present().flat_map(|rotary| rotary.pivot);
    let near = pivots.all(|x| x.abs() <= USUAL_LENGTH);
    near && axes.chain([chain.spindle]).all(whole)
}
