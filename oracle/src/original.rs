//! The Rust that is compared, built as it stands three times: `untouched`, `ported`, in which the calls of `sin_cos`, `sin`,
//! `acos` and `atan2` in kinematics.rs go to the exports, `rotate_vector` takes the pair of its degrees from the port, or within
//! `on_teeth` from the oracle's own table, and nothing else changes, and `counted`, which is `ported` with a count of the calls of `forward`. The build script writes all, and puts behind
//! each a constructor of limits that are not checked.

use crate::{maztubel, probe, teeth};
use std::cell::Cell;
use std::fmt;

thread_local! {
    /// How often `forward` of `counted` was called in this thread.
    pub static EVALUATED: Cell<u64> = const { Cell::new(0) };
}

/// What the files take from the crate's root.
pub type Result<T> = std::result::Result<T, IrError>;

#[derive(Clone, Debug, PartialEq)]
pub enum IrError {
    InvalidInput(String),
    Json(String),
}

impl fmt::Display for IrError {
    fn fmt(&self, f: &mut fmt::Formatter<'_>) -> fmt::Result {
        match self {
            IrError::InvalidInput(text) => write!(f, "invalid input: {text}"),
            IrError::Json(text) => write!(f, "json: {text}"),
        }
    }
}

#[allow(dead_code, clippy::type_complexity)]
pub mod untouched {
    pub use super::{IrError, Result};
    include!(concat!(env!("OUT_DIR"), "/untouched/modules.rs"));
}

#[allow(dead_code, clippy::type_complexity)]
pub mod ported {
    pub use super::{IrError, Ported, Result};
    include!(concat!(env!("OUT_DIR"), "/ported/modules.rs"));
}

#[allow(dead_code, clippy::type_complexity)]
pub mod counted {
    pub use super::{EVALUATED, IrError, Ported, Result};
    include!(concat!(env!("OUT_DIR"), "/counted/modules.rs"));
}

/// The exports under the names that `ported` calls. Where an export refuses there is no number: a nan.
pub trait Ported {
    fn ported_sin(self) -> f64;
    fn ported_sin_cos(self) -> (f64, f64);
    /// The sine and the cosine of an angle in degrees.
    fn ported_turn(self) -> (f64, f64);
    fn ported_acos(self) -> f64;
    fn ported_atan2(self, x: f64) -> f64;
}

thread_local! {
    /// Whether this thread's turns stand on teeth.
    static ON_TEETH: Cell<bool> = const { Cell::new(false) };
}

/// Lets every turn of `ported` that the work makes take its pair from the table of half degrees: `rotate_vector` and all above it
/// stay the Rust's.
pub fn on_teeth<T>(work: impl FnOnce() -> T) -> T {
    ON_TEETH.set(true);
    let done = work();
    ON_TEETH.set(false);
    done
}

impl Ported for f64 {
    fn ported_sin(self) -> f64 {
        maztubel::sine(self).unwrap_or(f64::NAN)
    }

    fn ported_sin_cos(self) -> (f64, f64) {
        let cosine = maztubel::cosine(self).unwrap_or(f64::NAN);
        (self.ported_sin(), cosine)
    }

    fn ported_turn(self) -> (f64, f64) {
        if ON_TEETH.get() {
            return teeth::pair(self);
        }
        let [mut sine, mut cosine] = [f64::NAN; 2];
        probe::turn(self, &mut sine, &mut cosine);
        (sine, cosine)
    }

    fn ported_acos(self) -> f64 {
        maztubel::arccosine(self).unwrap_or(f64::NAN)
    }

    fn ported_atan2(self, x: f64) -> f64 {
        maztubel::arctangent(self, x).unwrap_or(f64::NAN)
    }
}

#[cfg(test)]
mod tests {
    /// The joints of a small path on a table A and C, as far as solving and dividing it, and the poses.
    macro_rules! divided {
        ($module:ident) => {{
            use super::$module::geom::Vec3;
            use super::$module::kinematics::*;
            let joint = |letter, axis| RotaryJoint {
                letter,
                carrier: Carrier::Table,
                axis,
                pivot: Vec3::from_xyz(1.0, 2.0, 3.0),
                limits: None,
            };
            let setup = FiveAxisSetup {
                kinematics: Kinematics {
                    name: "k".to_owned(),
                    rotaries: vec![joint('A', Vec3::X), joint('C', Vec3::Z)],
                    spindle_axis: Vec3::Z,
                    model: None,
                },
                policy: SolutionPolicy::Nearest,
            };
            let pose = |x, y| ToolPose {
                tip: Vec3::from_xyz(x, y, 5.0),
                axis: Vec3::from_xyz(0.6, 0.0, 0.8),
            };
            let poses = [pose(10.0, 20.0), pose(-30.0, 40.0)];
            let joints = solve_path(&setup, &poses, None, 1.0).expect("a path that is solved");
            let (poses, joints) = subdivide_path(&setup, "p", &poses, &joints, 0.01, 0.01)
                .expect("a path that is divided");
            let numbers = |v: Vec3| [v.x(), v.y(), v.z()];
            let of_poses = poses.iter().flat_map(|p| [numbers(p.tip), numbers(p.axis)]);
            let of_joints = joints.iter().map(|j| numbers(j.xyz));
            of_poses.chain(of_joints).flatten().collect::<Vec<f64>>()
        }};
    }

    #[test]
    fn ported_stays_close() {
        let (untouched, ported) = (divided!(untouched), divided!(ported));
        assert_eq!(untouched.len(), ported.len());
        for (x, y) in untouched.into_iter().zip(ported) {
            assert!((x - y).abs() < 1e-9, "{x} and {y}");
        }
    }
}
