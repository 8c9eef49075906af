//! Links the archive of `probe` that `tools/archive` wrote to target/staticlib/ of the repository (that of `maztubel` comes with
//! bindings/rust), and copies the Rust that is compared, where it stands beside the repository, for `src/original.rs` to include.
//! The cfg `original` says whether it does.

use std::path::{Path, PathBuf};
use std::process::exit;
use std::{env, fs};

/// The files of the Rust that are compared.
const FILES: [&str; 4] = ["check", "geom", "kinematics", "rotary"];

/// In `ported` these calls of kinematics.rs go to the exports. Those of rotary.rs stay: the port leaves their functions out.
const CALLS: [&str; 4] = [".sin_cos(", ".sin(", ".acos(", ".atan2("];

/// In `ported` these two lines of `rotate_vector` become one call: turning takes its sine and cosine from the degrees.
const TURN: &str = "    let theta = angle_deg.to_radians();
    let (sin, cos) = theta.sin_cos();
";
const PORTED_TURN: &str = "    let (sin, cos) = angle_deg.ported_turn();
";

/// In `counted`, which else is `ported`, each call of `forward` counts.
const FORWARD: &str = "    pub fn forward(&self, joints: &Joints, tool_length: f64) -> Result<ToolPose> {
";
const COUNTED_FORWARD: &str = "        crate::EVALUATED.with(|count| count.set(count.get() + 1));
";

/// How many other lines of kinematics.rs have such a call.
const LINES_WITH_CALLS: usize = 8;

/// Stands behind the copies of rotary.rs, whose own text stays: limits that `RotaryLimits::new` would refuse. The Rust gets such
/// limits from JSON, and `Kinematics::check` is what refuses them.
const UNCHECKED_LIMITS: &str = "
impl RotaryLimits {
    pub(crate) fn unchecked(min_deg: f64, max_deg: f64) -> Self {
        Self { min_deg, max_deg }
    }
}
";

/// Stands behind the copies of kinematics.rs, whose own text stays: how `solve_path` comes to one pose, told by its own
/// steps, its loop over the poses with another rule inside the cone, `inverse`'s steps for one pair of angles, the
/// clearance that it holds to the cone, the length that R-3 holds to 1e-9, the gaps that `segment_within` holds to the
/// tolerances, at any part of the way, what that test says, the midpoint that `fill` inserts, one turn of the loop of
/// `fill`, and the unit axes of a chain.
const OF_A_POSE: &str = "
#[derive(Clone, Copy, Debug, PartialEq)]
pub(crate) enum Way {
    Alone,
    Closest,
    Other,
    Locked,
    Pole,
    LockLeft,
    PoleLeft,
}

impl Kinematics {
    /// `solve_path`'s loop. Inside the cone `rule` chooses, from the lock's answer and from the exact one that it may ask for.
    pub(crate) fn solve_by(
        &self,
        poses: &[ToolPose],
        start: [f64; 2],
        cone_deg: f64,
        mut rule: impl FnMut(Result<Joints>, &dyn Fn() -> Result<Joints>) -> Result<Joints>,
    ) -> Result<Vec<Joints>> {
        let frame = singular_frame(self);
        let (mut previous, mut out) = (start, Vec::with_capacity(poses.len()));
        for (index, pose) in poses.iter().enumerate() {
            let exact = || exact_pose(self, index, pose, previous);
            let chosen = match frame {
                Some(frame) if in_singular_cone(pose.axis, frame.direction, cone_deg) => {
                    let locked = cone_solution(self, index, pose, frame, previous, cone_deg);
                    rule(locked, &exact)?
                }
                _ => exact()?,
            };
            previous = chosen.angles;
            out.push(chosen);
        }
        Ok(out)
    }

    /// Of a pose in the cone, on a chain without limits: the lock's angles, and those of the exact solutions, if any, the closest first.
    pub(crate) fn lock_and_exact(&self, pose: &ToolPose, previous: [f64; 2], cone_deg: f64) -> Option<([f64; 2], Vec<[f64; 2]>)> {
        let frame = singular_frame(self)?;
        if !in_singular_cone(pose.axis, frame.direction, cone_deg) {
            return None;
        }
        let locked = cone_solution(self, 0, pose, frame, previous, cone_deg).ok()?;
        Some((locked.angles, self.closest_first(pose, previous).unwrap_or_default()))
    }

    fn closest_first(&self, pose: &ToolPose, previous: [f64; 2]) -> Option<Vec<[f64; 2]>> {
        let count = self.rotaries.len();
        let all = self.unbounded_solutions(pose, PATH_TOOL_LENGTH, previous).ok()?;
        let mut all: Vec<[f64; 2]> = all.iter().map(|sol| unwind_angles(sol.angles, previous, count)).collect();
        all.sort_by(|l, r| {
            let [left, right] = [l, r].map(|angles| rotary_distance(*angles, previous, count));
            left.total_cmp(&right).then_with(|| angle_order(*l, *r))
        });
        Some(all)
    }

    /// `inverse`'s steps for one pair of angles: the joints, how far the axis that is reached is from the pose's, and whether the
    /// angles are within the limits.
    pub(crate) fn placed(&self, pose: &ToolPose, tool_length: f64, angles: [f64; 2]) -> Result<(Joints, f64, bool)> {
        let at_origin = Joints { xyz: Vec3::ZERO, angles };
        let pose0 = self.forward(&at_origin, tool_length)?;
        let table = self.chain(&at_origin, Carrier::Table)?;
        let xyz = map_direction(&table, sub(pose.tip, pose0.tip));
        let gap = angle_between_deg(pose0.axis, pose.axis);
        Ok((Joints { xyz, angles }, gap, axis_outside(self, angles).is_none()))
    }

    pub(crate) fn clearance(&self, axis: Vec3) -> Option<f64> {
        let frame = singular_frame(self)?;
        Some(pole_clearance_deg(unit_direction(axis)?, frame.direction))
    }

    /// How long the cross product of the two rotaries' unit axes is.
    pub(crate) fn across(&self) -> Option<f64> {
        let [first, second] = &self.rotaries[..] else {
            return None;
        };
        Some(norm(cross(unit_direction(first.axis)?, unit_direction(second.axis)?)))
    }

    /// Two rotaries that R-3 refuses on a path.
    pub(crate) fn parallel(&self) -> bool {
        self.across().is_some_and(|length| length < 1e-9)
    }

    /// Of the tip and of the axis, in the middle of two poses with their joints.
    pub(crate) fn gaps(&self, left: (ToolPose, Joints), right: (ToolPose, Joints)) -> Option<[f64; 2]> {
        let [gaps] = self.gaps_at(left, right, [0.5])?;
        Some(gaps)
    }

    /// The same at parts of the way, by lerp and slerp.
    pub(crate) fn gaps_at<const N: usize>(
        &self,
        left: (ToolPose, Joints),
        right: (ToolPose, Joints),
        parts: [f64; N],
    ) -> Option<[[f64; 2]; N]> {
        let axis = |joints: Joints| Some(self.forward(&joints, PATH_TOOL_LENGTH).ok()?.axis);
        let [from, to] = [axis(left.1)?, axis(right.1)?];
        let mut gaps = [[0.0; 2]; N];
        for (gaps, part) in gaps.iter_mut().zip(parts) {
            let reached = self.forward(&lerp_joints(left.1, right.1, part), PATH_TOOL_LENGTH).ok()?;
            let tip_gap = gap_vec(reached.tip, lerp_vec(left.0.tip, right.0.tip, part));
            *gaps = [tip_gap, angle_between_deg(reached.axis, slerp_axis(from, to, part))];
        }
        Some(gaps)
    }

    /// Whether the Rust's own test passes two poses with their joints; none where it does before it evaluates anything.
    pub(crate) fn tested(&self, left: (ToolPose, Joints), right: (ToolPose, Joints), [chord, axis]: [f64; 2]) -> Option<bool> {
        let test = Subdiv { kin: self, toolpath: \"p\", chord_tol_mm: chord, axis_tol_deg: axis, inserted: 0 };
        let within = test.segment_within(left.0, left.1, right.0, right.1);
        let within = within.expect(\"poses that are reached\");
        (!joints_unchanged(left.1, right.1)).then_some(within)
    }

    /// The midpoint, unless its joints are those of one of the two.
    pub(crate) fn midpoint(&self, left: Joints, right: Joints) -> Option<(ToolPose, Joints)> {
        let joints = lerp_joints(left, right, 0.5);
        if joints_unchanged(joints, left) || joints_unchanged(joints, right) {
            return None;
        }
        Some((self.forward(&joints, PATH_TOOL_LENGTH).ok()?, joints))
    }

    /// What one test of two poses with their joints comes to, by the steps of `fill`: the midpoint, where they divide.
    pub(crate) fn one_test(
        &self,
        left: (ToolPose, Joints),
        right: (ToolPose, Joints),
        [chord_tol_mm, axis_tol_deg]: [f64; 2],
    ) -> Result<Option<(ToolPose, Joints)>> {
        let job = Subdiv { kin: self, toolpath: \"p\", chord_tol_mm, axis_tol_deg, inserted: 0 };
        if job.segment_within(left.0, left.1, right.0, right.1)? {
            return Ok(None);
        }
        let mid_joints = lerp_joints(left.1, right.1, 0.5);
        if joints_unchanged(mid_joints, left.1) || joints_unchanged(mid_joints, right.1) {
            return Ok(None);
        }
        Ok(Some((self.forward(&mid_joints, PATH_TOOL_LENGTH)?, mid_joints)))
    }

    /// The unit vector of an axis of a chain that was checked.
    pub(crate) fn unit(axis: Vec3) -> Vec3 {
        unit_direction(axis).unwrap_or(axis)
    }

    /// Whether `sp1` and `sp2` let an axis by, which the test of the axis that is reached may refuse.
    pub(crate) fn nearly_reaches(&self, axis: Vec3) -> bool {
        let (Some(spindle), Some(target)) = (unit_direction(self.spindle_axis), unit_direction(axis)) else {
            return false;
        };
        self.orientation_angles(spindle, target, [0.0; 2]).is_ok_and(|raw| !raw.is_empty())
    }

    /// Of a pose that is solved; and the two solutions that it has outside the cone, the closest first.
    pub(crate) fn way(&self, pose: &ToolPose, previous: [f64; 2], cone_deg: f64) -> Option<(Way, Vec<[f64; 2]>)> {
        let target = unit_direction(pose.axis)?;
        if let Some(frame) = singular_frame(self)
            && in_singular_cone(pose.axis, frame.direction, cone_deg)
        {
            let locked = locked_joints(self, pose, target, frame, previous).ok()?;
            let strays = angle_between_deg(self.forward(&locked, PATH_TOOL_LENGTH).ok()?.axis, target) > cone_deg + 1e-6;
            let left = cone_solution(self, 0, pose, frame, previous, cone_deg).is_err();
            let way = match (strays, left) {
                (false, false) => Way::Locked,
                (true, false) => Way::Pole,
                (false, true) => Way::LockLeft,
                (true, true) => Way::PoleLeft,
            };
            return Some((way, Vec::new()));
        }
        let all = self.closest_first(pose, previous)?;
        let way = match all[..] {
            [_, _] if axis_outside(self, all[0]).is_some() => Way::Other,
            [_, _] => Way::Closest,
            _ => Way::Alone,
        };
        Some((way, all))
    }
}
";

fn main() {
    let root = Path::new(env!("CARGO_MANIFEST_DIR"));
    link_probe(&root.join("../target/staticlib"));
    println!("cargo::rustc-check-cfg=cfg(original)");
    let sources = root.join("../../shared/docs/src/crates/ir/src");
    println!("cargo::rerun-if-changed={}", sources.display());
    if sources.is_dir() {
        let out = PathBuf::from(env::var_os("OUT_DIR").expect("cargo sets OUT_DIR"));
        copy("untouched", &sources, &out, str::to_owned);
        copy("ported", &sources, &out, ported);
        copy("counted", &sources, &out, counted);
        println!("cargo::rustc-cfg=original");
    }
}

fn link_probe(folder: &Path) {
    let archive = folder.join("libprobe.a");
    println!("cargo::rustc-link-search=native={}", folder.display());
    println!("cargo::rerun-if-changed={}", archive.display());
    if !archive.is_file() {
        println!(
            "cargo::error=target/staticlib/libprobe.a is missing: run `tools/archive probe` in the repository's root first"
        );
        exit(1);
    }
    println!("cargo::rustc-link-lib=static=probe");
}

/// Writes each file as a module of `original::NAME`, and a file that declares them.
fn copy(name: &str, sources: &Path, out: &Path, change: fn(&str) -> String) {
    let folder = out.join(name);
    fs::create_dir_all(&folder).expect("OUT_DIR can be written");
    let mut modules = String::new();
    for file in FILES {
        let text = fs::read_to_string(sources.join(format!("{file}.rs")))
            .unwrap_or_else(|error| panic!("{file}.rs of the Rust cannot be read: {error}"));
        let text = match file {
            "kinematics" => change(&text) + OF_A_POSE,
            "rotary" => text + UNCHECKED_LIMITS,
            _ => text,
        };
        let text = text.replace("crate::", &format!("crate::original::{name}::"));
        let copied = folder.join(format!("{file}.rs"));
        fs::write(&copied, text).expect("OUT_DIR can be written");
        modules += &format!("#[path = {copied:?}]\npub mod {file};\n");
    }
    fs::write(folder.join("modules.rs"), modules).expect("OUT_DIR can be written");
}

/// The turn's two lines become one, and then `.sin(` becomes `.ported_sin(`, and so on for each call: methods of a trait that is
/// brought into scope at the end.
fn ported(text: &str) -> String {
    let turns = text.matches(TURN).count();
    assert_eq!(turns, 1, "places of kinematics.rs that make a turn");
    let text = text.replace(TURN, PORTED_TURN);
    let has_call = |line: &&str| CALLS.iter().any(|call| line.contains(call));
    let lines = text.lines().filter(has_call).count();
    assert_eq!(
        lines, LINES_WITH_CALLS,
        "lines of kinematics.rs with calls to port"
    );
    let text = CALLS.iter().fold(text, |text, call| {
        text.replace(call, &call.replacen('.', ".ported_", 1))
    });
    text + "\nuse crate::Ported as _;\n"
}

fn counted(text: &str) -> String {
    let places = text.matches(FORWARD).count();
    assert_eq!(places, 1, "places of kinematics.rs where forward begins");
    ported(text).replace(FORWARD, &[FORWARD, COUNTED_FORWARD].concat())
}
