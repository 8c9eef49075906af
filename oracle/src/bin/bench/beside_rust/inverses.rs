//! Inverse through the export, which reads and checks the chain in each call, beside the untouched Rust's, which checks it too.

use super::forwards::{COUNT, MACHINES, TOOL_LENGTH, TWO_TABLES, chain, joint_sets, lean_forward};
use crate::rows::{GROWN, Row, Section};
use crate::timing::of_both;
use oracle::chains::Chain;
use oracle::lean::Lean;
use oracle::maztubel::{self, Asked};
use oracle::random::Random;
use oracle::rust::{Machine, untouched};
use std::hint::black_box;

const CALLS: usize = 60 * COUNT;
const HINT: [f64; 2] = [0.0; 2];
/// All five turns of each angle lie within them.
const WIDE: [f64; 2] = [-1000.0, 1000.0];

pub fn section() -> Section {
    let row = |(words, carriers)| Row {
        chief: (words, carriers) == TWO_TABLES,
        ..beside(words, &chain(carriers), COUNT)
    };
    let mut rows = MACHINES.map(row).to_vec();
    let mut wide = chain(TWO_TABLES.1);
    for rotary in &mut wide.rotaries {
        (rotary.limited, rotary.limits) = (1, WIDE);
    }
    rows.push(beside(
        "two rotaries, tables, limits that give 50 joint sets",
        &wide,
        COUNT,
    ));
    Section {
        title: "Inverse",
        unit: "Best of 60 rounds over 4,096 poses, ns a call, the hint zero:",
        other: "Rust",
        rows,
    }
}

pub fn grown() -> Vec<Row> {
    let (words, carriers) = TWO_TABLES;
    let row = |count| beside(words, &chain(carriers), count);
    GROWN.map(row).to_vec()
}

fn beside(words: &str, chain: &Chain, count: usize) -> Row {
    let lean = Lean::new(chain);
    let joints = joint_sets(count, &mut Random::new(5));
    let poses = joints.iter().map(|set| lean_forward(&lean, set));
    let poses: Vec<[f64; 6]> = poses
        .map(|([x, y, z], [i, j, k])| [x, y, z, i, j, k])
        .collect();
    let (port, rust) = (exported(chain, &poses), rusts(chain, &poses));
    let [port, rust] = of_both(CALLS, count, port, rust);
    Row::new("inverse", words, count, port, rust)
}

fn exported(chain: &Chain, poses: &[[f64; 6]]) -> impl FnMut() {
    let chain = chain.bytes();
    let mut list = [0.0; 250];
    let (mut count, mut at, mut letter) = (0, 0, 0);
    move || {
        let told = poses.iter().map(|pose| {
            let asked = Asked {
                chain: &chain,
                pose,
                tool_length: TOOL_LENGTH,
                hint: &HINT,
            };
            let told = maztubel::inverse(asked, &mut list, &mut count, &mut at, &mut letter);
            black_box(&list);
            told
        });
        assert_eq!(told.sum::<u32>(), 0, "a pose was refused");
    }
}

fn rusts(chain: &Chain, poses: &[[f64; 6]]) -> impl FnMut() {
    let rust = untouched::kinematics(&Machine {
        name_length: 1,
        chain,
        links: &[],
    });
    let poses: Vec<_> = poses
        .iter()
        .map(|pose| untouched::tool_pose(pose))
        .collect();
    move || {
        for pose in &poses {
            let sets = rust.inverse(pose, TOOL_LENGTH, HINT);
            black_box(sets.expect("joint sets"));
        }
    }
}
