//! The machines of docs/CONVENTIONS.md: the library answers the numbers there, and the example in C prints them.

use maztubel::*;
use std::fs;
use std::path::Path;

/// In mm, degrees and parts of a unit axis.
const NEAR: f64 = 1e-9;

/// The example in C prints six decimals.
const PRINTED: f64 = 1e-6;

/// A chain, a tool's length, a pose, and every joint set that reaches the pose.
#[derive(Debug)]
struct Machine {
    name: String,
    chain: Chain,
    tool: f64,
    pose: Pose,
    joints: Vec<Joints>,
}

/// The numbers behind a word, up to the next word.
fn numbers(line: &str, word: &str) -> Vec<f64> {
    let behind = line.split_whitespace().skip_while(|item| *item != word);
    behind.skip(1).map_while(|item| item.parse().ok()).collect()
}

fn these<const COUNT: usize>(line: &str, word: &str) -> [f64; COUNT] {
    let all = numbers(line, word);
    all.try_into()
        .unwrap_or_else(|_| panic!("{line}: {COUNT} numbers behind {word}"))
}

fn rotary(line: &str) -> Rotary {
    let words: Vec<&str> = line.split_whitespace().collect();
    let limits = line.contains("limits").then(|| these(line, "limits"));
    Rotary {
        letter: words[1].as_bytes()[0],
        carrier: match words[2] {
            "table" => Carrier::Table,
            "head" => Carrier::Head,
            other => panic!("{line}: {other}"),
        },
        axis: these(line, "axis"),
        pivot: these(line, "pivot"),
        limits: limits.map(|[min, max]| Limits { min, max }),
        rest: 0.0,
    }
}

/// Of lines as the example in C prints them.
fn machines(lines: &str) -> Vec<Machine> {
    let mut all: Vec<Machine> = Vec::new();
    for line in lines.lines() {
        let (first, rest) = line.split_once(' ').unwrap();
        if first == "machine" {
            all.push(Machine {
                name: rest.to_owned(),
                chain: Chain {
                    rotaries: vec![],
                    spindle: [0.0; 3],
                },
                tool: f64::NAN,
                pose: Pose::default(),
                joints: vec![],
            });
            continue;
        }
        let machine = all.last_mut().unwrap();
        match first {
            "rotary" => machine.chain.rotaries.push(rotary(line)),
            "spindle" => machine.chain.spindle = these(line, "axis"),
            "tool" => [machine.tool] = these(line, "length"),
            "pose" => {
                machine.pose = Pose {
                    tip: these(line, "tip"),
                    axis: these(line, "axis"),
                }
            }
            "joints" => machine.joints.push(Joints {
                position: these(line, "position"),
                angles: these(line, "angles"),
            }),
            _ => panic!("{line}"),
        }
    }
    all
}

fn text(path: &str) -> String {
    let root = Path::new(env!("CARGO_MANIFEST_DIR")).join("../..");
    fs::read_to_string(root.join(path)).unwrap()
}

/// Those of the blocks that are marked as machines.
fn documented() -> Vec<Machine> {
    let document = text("docs/CONVENTIONS.md");
    let blocks = document.split("```machine\n").skip(1);
    let lines: String = blocks
        .map(|rest| rest.split("```").next().unwrap())
        .collect();
    machines(&lines)
}

fn near(left: &[f64], right: &[f64], within: f64) -> bool {
    left.len() == right.len() && left.iter().zip(right).all(|(l, r)| (l - r).abs() < within)
}

fn same_pose(left: &Pose, right: &Pose, within: f64) -> bool {
    near(&left.tip, &right.tip, within) && near(&left.axis, &right.axis, within)
}

fn same_joints(left: &Joints, right: &Joints, within: f64) -> bool {
    near(&left.position, &right.position, within) && near(&left.angles, &right.angles, within)
}

/// `vector` and `length` times `direction`, a unit vector.
fn along(vector: [f64; 3], length: f64, direction: [f64; 3]) -> [f64; 3] {
    [0, 1, 2].map(|i| vector[i] + length * direction[i])
}

/// The chain for paths with a tool: the gauge point moved to the tip.
fn with_tool(machine: &Machine) -> Chain {
    let mut chain = machine.chain.clone();
    let heads = chain
        .rotaries
        .iter_mut()
        .filter(|rotary| rotary.carrier == Carrier::Head);
    for head in heads {
        head.pivot = along(head.pivot, machine.tool, machine.chain.spindle);
    }
    chain
}

/// Joints of a path with a tool, from the tip back to the gauge point.
fn at_gauge(machine: &Machine, joints: &Joints) -> Joints {
    let position = along(joints.position, machine.tool, machine.chain.spindle);
    Joints {
        position,
        ..*joints
    }
}

/// Every kind is there, and the tool counts.
#[test]
fn kinds() {
    use Carrier::{Head, Table};
    let kinds: Vec<(String, Vec<Carrier>)> = documented()
        .into_iter()
        .map(|machine| {
            assert!(machine.tool > 0.0, "{}", machine.name);
            let carriers = machine.chain.rotaries.iter().map(|rotary| rotary.carrier);
            (machine.name, carriers.collect())
        })
        .collect();
    let expected = [
        ("table", vec![Table]),
        ("head", vec![Head]),
        ("table-table", vec![Table, Table]),
        ("head-table", vec![Table, Head]),
        ("head-head", vec![Head, Head]),
    ];
    assert_eq!(
        kinds,
        expected.map(|(name, carriers)| (name.to_owned(), carriers))
    );
}

#[test]
fn forward_leads_to_the_pose() {
    for machine in documented() {
        for joints in &machine.joints {
            let reached = forward(&machine.chain, joints, machine.tool).unwrap();
            assert!(
                same_pose(&reached, &machine.pose, NEAR),
                "{}: {reached:?}",
                machine.name
            );
        }
    }
}

/// Each joint set once, and no other; which of two comes first may hang on the last bit of an angle.
#[test]
fn inverse_has_these_joints_alone() {
    for machine in documented() {
        let list = inverse(&machine.chain, &machine.pose, machine.tool, [0.0; 2]).unwrap();
        assert_eq!(
            list.len(),
            machine.joints.len(),
            "{}: {list:?}",
            machine.name
        );
        for joints in &machine.joints {
            let found = list.iter().filter(|other| same_joints(other, joints, NEAR));
            assert_eq!(found.count(), 1, "{}: {joints:?} in {list:?}", machine.name);
        }
    }
}

#[test]
fn choose_takes_the_nearest() {
    for machine in documented() {
        for joints in &machine.joints {
            let nearest = Choice::Nearest(joints.angles);
            let chosen = choose(&machine.chain, &machine.pose, machine.tool, nearest).unwrap();
            assert!(
                same_joints(&chosen, joints, NEAR),
                "{}: {chosen:?}",
                machine.name
            );
        }
    }
}

#[test]
fn a_path_with_a_tool() {
    for machine in documented() {
        for joints in &machine.joints {
            let start = Start::From(*joints);
            let path = solve_path(&with_tool(&machine), &[machine.pose], start, 1.0).unwrap();
            let solved = at_gauge(&machine, &path[0]);
            assert!(
                same_joints(&solved, joints, NEAR),
                "{}: {solved:?}",
                machine.name
            );
        }
    }
}

/// With the tool in the chain an inserted pose has the tip that the tool has.
#[test]
fn a_divided_path_with_a_tool() {
    let tolerances = Tolerances {
        chord: 0.1,
        axis: 1.0,
    };
    for machine in documented() {
        let upright = Pose {
            tip: machine.pose.tip,
            axis: [0.0, 0.0, 1.0],
        };
        let start = Start::From(machine.joints[0]);
        let poses = [machine.pose, upright];
        let path = solve_and_divide(&with_tool(&machine), &poses, start, 1.0, tolerances).unwrap();
        assert!(path.inserted > 0, "{}", machine.name);
        for (pose, joints) in path.poses.iter().zip(&path.joints) {
            let reached =
                forward(&machine.chain, &at_gauge(&machine, joints), machine.tool).unwrap();
            assert!(
                near(&reached.tip, &pose.tip, NEAR),
                "{}: {reached:?}",
                machine.name
            );
        }
    }
}

/// Inside the cone the tool axis is not the one that the pose asks for. With the tool in the chain the tip holds. With
/// the pose raised along its own axis instead, it misses.
#[test]
fn inside_the_cone_the_tip_holds() {
    let two = documented()
        .into_iter()
        .filter(|machine| machine.chain.rotaries.len() == 2);
    for machine in two {
        let length = (1.0 + 2.0 * 0.006 * 0.006f64).sqrt();
        let pose = Pose {
            tip: machine.pose.tip,
            axis: [0.006, 0.006, 1.0].map(|part| part / length),
        };
        let miss = |chain: &Chain, asked: Pose, shift: f64| {
            let joints = solve_path(chain, &[asked], Start::AtZero, 1.0).unwrap()[0];
            let position = along(joints.position, shift, machine.chain.spindle);
            let reached =
                forward(&machine.chain, &Joints { position, ..joints }, machine.tool).unwrap();
            let squares = [0, 1, 2].map(|i| (reached.tip[i] - pose.tip[i]).powi(2));
            squares.iter().sum::<f64>().sqrt()
        };
        assert!(
            miss(&with_tool(&machine), pose, machine.tool) < NEAR,
            "{}",
            machine.name
        );
        let raised = Pose {
            tip: along(pose.tip, machine.tool, pose.axis),
            ..pose
        };
        let missed = miss(&machine.chain, raised, 0.0);
        assert!((0.5..1.75).contains(&missed), "{}: {missed}", machine.name);
    }
}

#[test]
fn c_prints_the_same() {
    let (documented, printed) = (
        documented(),
        machines(&text("examples/c/machines.expected")),
    );
    assert_eq!(documented.len(), printed.len());
    for (left, right) in documented.iter().zip(&printed) {
        assert_eq!(left.name, right.name);
        assert_eq!(left.chain, right.chain, "{}", left.name);
        assert_eq!(left.tool, right.tool, "{}", left.name);
        assert!(same_pose(&left.pose, &right.pose, PRINTED), "{}", left.name);
        assert_eq!(left.joints.len(), right.joints.len(), "{}", left.name);
        let mut pairs = left.joints.iter().zip(&right.joints);
        assert!(
            pairs.all(|(l, r)| same_joints(l, r, PRINTED)),
            "{}",
            left.name
        );
    }
}
