//! The Rust on plain numbers: a chain and links, as read from their bytes, become its structs, and its answers become numbers
//! again. Once for each of its three builds, whose types are not the same.
//!
//! Names are bytes here and texts there. The Rust asks of a name only whether it is empty, how long it is and whether it is equal
//! to another, so each has a stand-in of which all three are the same, and which a refusal's words can quote without harm.
//!
//! The Rust knows no rest angle. One that is finite is left out. One that is not must be refused directly behind the limits: there the
//! Rust gets limits that it refuses, unless it refuses the rotary's own.

use crate::chains::Chain;
use crate::models::Link;

/// A machine as its bytes were read.
pub struct Machine<'a> {
    pub name_length: usize,
    pub chain: &'a Chain,
    pub links: &'a [Link],
}

/// The name of the chain in the Rust.
pub fn chain_name(length: usize) -> String {
    "n".repeat(length)
}

fn link_names(links: &[Link]) -> Vec<String> {
    links.iter().map(|link| stand_in(link, links)).collect()
}

/// As many bytes as the name has, and others for another name, as far as the Rust reads them: it refuses 65 links unread. No
/// stand-in has the mark that a refusal's words put around a name.
fn stand_in(link: &Link, links: &[Link]) -> String {
    let Some(rest) = link.name.len().checked_sub(1) else {
        return String::new();
    };
    let before = links.iter().take_while(|other| other.name != link.name);
    let letter = b'!' + (before.count() % 64) as u8;
    let letter = if letter < b'`' { letter } else { letter + 1 };
    format!("{}{}", char::from(letter), "n".repeat(rest))
}

macro_rules! on_plain_numbers {
    ($build:ident) => {
        pub mod $build {
            use super::{Chain, Link, Machine, chain_name, link_names};
            use crate::chains::Rotary;
            use crate::models::BOX;
            use crate::original::IrError;
            use crate::original::$build::geom::Vec3;
            use crate::original::$build::kinematics::*;
            pub use crate::original::$build::kinematics::{
                solve_path as solve, subdivide_path as subdivide,
            };
            use crate::original::$build::rotary::RotaryLimits;

            /// The Rust's answer in numbers, or its words.
            pub type Told<T> = Result<T, String>;

            pub fn kinematics(machine: &Machine) -> Kinematics {
                Kinematics {
                    name: chain_name(machine.name_length),
                    rotaries: machine.chain.present().map(joint).collect(),
                    spindle_axis: vector(&machine.chain.spindle),
                    model: (!machine.links.is_empty()).then(|| model(machine.links)),
                }
            }

            fn vector(numbers: &[f64]) -> Vec3 {
                Vec3::from_xyz(numbers[0], numbers[1], numbers[2])
            }

            fn joint(rotary: &Rotary) -> RotaryJoint {
                let [min, max] = rotary.limits;
                let limits = (rotary.limited == 1).then(|| RotaryLimits::unchecked(min, max));
                let refused = || RotaryLimits::unchecked(f64::NAN, f64::NAN);
                let stand_in = rotary.limits_served() && !rotary.rest.is_finite();
                RotaryJoint {
                    letter: char::from(rotary.letter),
                    carrier: match rotary.carrier {
                        0 => Carrier::Table,
                        _ => Carrier::Head,
                    },
                    axis: vector(&rotary.axis),
                    pivot: vector(&rotary.pivot),
                    limits: if stand_in { Some(refused()) } else { limits },
                }
            }

            fn model(links: &[Link]) -> MachineModel {
                let link = |(link, name): (&Link, String)| MachineLink {
                    name,
                    carrier: String::from_utf8_lossy(&link.carrier).into_owned(),
                    solid: solid(link),
                };
                MachineModel {
                    links: links.iter().zip(link_names(links)).map(link).collect(),
                }
            }

            fn solid(link: &Link) -> LinkSolid {
                let numbers = &link.numbers;
                let (first, second) = (vector(&numbers[..3]), vector(&numbers[3..6]));
                if link.kind == BOX {
                    LinkSolid::Box {
                        min: first,
                        max: second,
                    }
                } else {
                    LinkSolid::Cylinder {
                        base: first,
                        axis: second,
                        radius: numbers[6],
                        length: numbers[7],
                    }
                }
            }

            pub fn check(kinematics: &Kinematics) -> Told<()> {
                kinematics.check().map_err(words)
            }

            pub fn joint_set(joints: &[f64]) -> Joints {
                Joints {
                    xyz: vector(joints),
                    angles: [joints[3], joints[4]],
                }
            }

            /// The tip and the axis.
            pub fn forward(kinematics: &Kinematics, joints: &[f64], tool: f64) -> Told<Vec<f64>> {
                let pose = kinematics.forward(&joint_set(joints), tool);
                let pose = pose.map_err(words)?;
                Ok(numbers(&[pose.tip, pose.axis]))
            }

            pub fn tool_pose(pose: &[f64]) -> ToolPose {
                ToolPose {
                    tip: vector(pose),
                    axis: vector(&pose[3..]),
                }
            }

            pub fn pose_numbers(pose: ToolPose) -> Vec<f64> {
                numbers(&[pose.tip, pose.axis])
            }

            pub fn set_numbers(joints: Joints) -> [f64; 5] {
                let Joints { xyz, angles } = joints;
                [xyz.x(), xyz.y(), xyz.z(), angles[0], angles[1]]
            }

            pub fn inverse(
                chain: &Kinematics,
                pose: &[f64],
                tool: f64,
                hint: [f64; 2],
            ) -> Told<Vec<[f64; 5]>> {
                let sets = chain.inverse(&tool_pose(pose), tool, hint);
                let sets = sets.map_err(words)?;
                Ok(sets.into_iter().map(set_numbers).collect())
            }

            /// By the number of the choice in C.
            pub fn choose(
                chain: &Kinematics,
                pose: &[f64],
                tool: f64,
                choice: u32,
                hint: [f64; 2],
            ) -> Told<[f64; 5]> {
                let choice = match choice {
                    0 => Choice::Nearest(hint),
                    1 => Choice::FirstPositive,
                    2 => Choice::FirstNegative,
                    _ => panic!("there is no choice {choice}"),
                };
                let joints = chain.choose(&tool_pose(pose), tool, choice);
                joints.map(set_numbers).map_err(words)
            }

            /// By `inverse`'s steps at two angles: the joint set, how far the axis that is reached is from the pose's, and whether the
            /// angles are within the limits.
            pub fn placed(
                chain: &Kinematics,
                pose: &[f64],
                tool: f64,
                angles: [f64; 2],
            ) -> Told<([f64; 5], f64, bool)> {
                let placed = chain.placed(&tool_pose(pose), tool, angles);
                let (joints, gap, inside) = placed.map_err(words)?;
                Ok((set_numbers(joints), gap, inside))
            }

            /// The origin and the three axes.
            pub fn link_world(chain: &Kinematics, joints: &[f64], carrier: &str) -> Told<Vec<f64>> {
                let frame = chain.link_world(&joint_set(joints), carrier);
                frame.map(of_frame).map_err(words)
            }

            pub fn link_in_part(
                chain: &Kinematics,
                joints: &[f64],
                carrier: &str,
            ) -> Told<Vec<f64>> {
                let frame = chain.link_in_part(&joint_set(joints), carrier);
                frame.map(of_frame).map_err(words)
            }

            pub fn setup(chain: &Chain) -> FiveAxisSetup {
                FiveAxisSetup {
                    kinematics: kinematics(&Machine {
                        name_length: 1,
                        chain,
                        links: &[],
                    }),
                    policy: SolutionPolicy::Nearest,
                }
            }

            /// The position and the angles of each pose. The start is none or that of one pose.
            pub fn solve_path(
                setup: &FiveAxisSetup,
                poses: &[f64],
                start: &[f64],
                cone: f64,
            ) -> Told<Vec<f64>> {
                let poses: Vec<ToolPose> = poses.chunks(6).map(tool_pose).collect();
                let start = (!start.is_empty()).then(|| joint_set(start));
                let joints = solve(setup, &poses, start, cone).map_err(words)?;
                Ok(joints.into_iter().flat_map(set_numbers).collect())
            }

            /// The same pose by pose, of a chain, a start and a cone that are served. Inside the cone `rule` chooses, from the
            /// lock's answer and from the exact one that it may ask for.
            pub fn solve_by(
                setup: &FiveAxisSetup,
                poses: &[f64],
                start: &[f64],
                cone: f64,
                mut rule: impl FnMut(Told<[f64; 5]>, &dyn Fn() -> Told<[f64; 5]>) -> Told<[f64; 5]>,
            ) -> Told<Vec<f64>> {
                let poses: Vec<ToolPose> = poses.chunks(6).map(tool_pose).collect();
                let start = match start {
                    [] => [0.0; 2],
                    start => joint_set(start).angles,
                };
                let told = |answer: crate::original::Result<Joints>| {
                    answer.map(set_numbers).map_err(words)
                };
                let joints = setup
                    .kinematics
                    .solve_by(&poses, start, cone, |locked, exact| {
                        let chosen = rule(told(locked), &|| told(exact()));
                        chosen
                            .map(|set| joint_set(&set))
                            .map_err(IrError::InvalidInput)
                    });
                let joints = joints.map_err(words)?;
                Ok(joints.into_iter().flat_map(set_numbers).collect())
            }

            /// The divided poses and their joints.
            pub fn subdivide_path(
                setup: &FiveAxisSetup,
                poses: &[f64],
                joints: &[f64],
                [chord, axis]: [f64; 2],
            ) -> Told<[Vec<f64>; 2]> {
                let poses: Vec<ToolPose> = poses.chunks(6).map(tool_pose).collect();
                let joints: Vec<Joints> = joints.chunks(5).map(joint_set).collect();
                let divided = subdivide(setup, "p", &poses, &joints, chord, axis);
                let (poses, joints) = divided.map_err(words)?;
                Ok([
                    poses.into_iter().flat_map(pose_numbers).collect(),
                    joints.into_iter().flat_map(set_numbers).collect(),
                ])
            }

            /// The six numbers of a pose and the five of its joints.
            pub fn item_numbers((pose, joints): (ToolPose, Joints)) -> ([f64; 6], [f64; 5]) {
                let (tip, axis) = (pose.tip, pose.axis);
                let pose = [tip.x(), tip.y(), tip.z(), axis.x(), axis.y(), axis.z()];
                (pose, set_numbers(joints))
            }

            /// The unit vector of an axis.
            pub fn unit(axis: &[f64; 3]) -> [f64; 3] {
                let unit = Kinematics::unit(vector(axis));
                [unit.x(), unit.y(), unit.z()]
            }

            fn of_frame(frame: Rigid) -> Vec<f64> {
                let axes = [frame.axis_x(), frame.axis_y(), frame.axis_z()];
                numbers(&[frame.origin(), axes[0], axes[1], axes[2]])
            }

            fn numbers(vectors: &[Vec3]) -> Vec<f64> {
                vectors.iter().flat_map(|v| [v.x(), v.y(), v.z()]).collect()
            }

            fn words(error: IrError) -> String {
                match error {
                    IrError::InvalidInput(words) | IrError::Json(words) => words,
                }
            }
        }
    };
}

on_plain_numbers!(counted);
on_plain_numbers!(ported);
on_plain_numbers!(untouched);
