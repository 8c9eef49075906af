//! Forward through the export, which reads and checks the chain in each call, beside the untouched Rust's, which checks it too,
//! and beside lean arithmetic; and its inner form on a prepared chain beside that.

use crate::rows::{GROWN, Row, Section};
use crate::timing::{of_both, of_each};
use oracle::angles::within;
use oracle::chains::{Chain, Rotary};
use oracle::lean::Lean;
use oracle::maztubel;
use oracle::probe;
use oracle::random::Random;
use oracle::rust::{Machine, untouched};
use std::hint::black_box;

pub const COUNT: usize = 4096;
const CALLS: usize = 200 * COUNT;
pub const TOOL_LENGTH: f64 = 120.0;
pub const TABLE: u8 = 0;
pub const HEAD: u8 = 1;

/// The one that stands for all.
pub const TWO_TABLES: (&str, &[u8]) = ("two rotaries, tables", &[TABLE, TABLE]);

pub const MACHINES: [(&str, &[u8]); 5] = [
    ("one rotary, a table", &[TABLE]),
    ("one rotary, a head", &[HEAD]),
    TWO_TABLES,
    ("two rotaries, a table and a head", &[TABLE, HEAD]),
    ("two rotaries, heads", &[HEAD, HEAD]),
];

pub fn section() -> Section {
    let joints = joint_sets(COUNT, &mut Random::new(4));
    let row = |(words, carriers)| {
        let chain = chain(carriers);
        Row {
            inner: Some(prepared(&chain, &joints)),
            lean: Some(leans(&chain, &joints)),
            asked: "2.5, over lean at most 3",
            chief: (words, carriers) == TWO_TABLES,
            ..beside(words, &chain, &joints)
        }
    };
    Section {
        title: "Forward",
        unit: "Best of 200 rounds over 4,096 joint sets, ns a call:",
        other: "Rust",
        rows: MACHINES.map(row).to_vec(),
    }
}

/// From chains with rest angles, beside the same calls without.
pub fn rested() -> Section {
    let joints = joint_sets(COUNT, &mut Random::new(4));
    let row = |(words, carriers)| {
        let plain = chain(carriers);
        let mut resting = Chain {
            rested: true,
            ..plain
        };
        resting.rotaries[0].rest = 30.0;
        let (long, short) = (exported(&resting, &joints), exported(&plain, &joints));
        let [long, short] = of_both(CALLS, joints.len(), long, short);
        Row::new("forward", words, joints.len(), long, short).asked("1.1")
    };
    Section {
        title: "Forward from chains with rest angles",
        unit: "Best of 200 rounds over 4,096 joint sets, ns a call:",
        other: "without",
        rows: MACHINES.map(row).to_vec(),
    }
}

pub fn grown() -> Vec<Row> {
    let (words, carriers) = TWO_TABLES;
    let row = |count| {
        let joints = joint_sets(count, &mut Random::new(4));
        beside(words, &chain(carriers), &joints)
    };
    GROWN.map(row).to_vec()
}

fn beside(words: &str, chain: &Chain, joints: &[[f64; 5]]) -> Row {
    let (port, rust) = (exported(chain, joints), rusts(chain, joints));
    let [port, rust] = of_both(CALLS, joints.len(), port, rust);
    Row::new("forward", words, joints.len(), port, rust)
}

pub fn joint_sets(count: usize, random: &mut Random) -> Vec<[f64; 5]> {
    let set = |_| {
        let [x, y, z] = [(); 3].map(|()| within(500.0, random));
        [x, y, z, within(120.0, random), within(360.0, random)]
    };
    (0..count).map(set).collect()
}

pub fn rotary(letter: u8, carrier: u8, axis: [f64; 3]) -> Rotary {
    Rotary {
        letter,
        carrier,
        axis,
        pivot: [10.0, -20.0, 300.0],
        ..Rotary::default()
    }
}

/// A about a slanted axis, and C about z.
pub fn chain(carriers: &[u8]) -> Chain {
    Chain {
        count: carriers.len() as u8,
        zeros: [0; 7],
        rotaries: [
            rotary(b'A', carriers[0], [1.0, 0.25, 0.0]),
            rotary(b'C', carriers[carriers.len() - 1], [0.0, 0.0, 1.0]),
        ],
        spindle: [0.0, 0.0, 1.0],
        ..Chain::default()
    }
}

fn exported(chain: &Chain, joints: &[[f64; 5]]) -> impl FnMut() {
    let bytes = chain.bytes();
    let mut poses = vec![[0.0; 6]; joints.len()];
    let (mut at, mut letter) = (0, 0);
    move || {
        let each = joints.iter().zip(&mut poses);
        let told = each.map(|(joints, pose)| {
            maztubel::forward(&bytes, joints, TOOL_LENGTH, pose, &mut at, &mut letter)
        });
        assert_eq!(told.sum::<u32>(), 0, "a joint set was refused");
        black_box(&poses);
    }
}

/// The chain prepared once for all the joint sets.
fn prepared(chain: &Chain, joints: &[[f64; 5]]) -> f64 {
    let bytes = chain.bytes();
    of_each(CALLS, joints.len(), || {
        let sum = probe::forwards(&bytes, black_box(joints.as_flattened()), TOOL_LENGTH);
        assert!(black_box(sum).is_finite(), "a joint set was refused");
    })
}

fn rusts(chain: &Chain, joints: &[[f64; 5]]) -> impl FnMut() {
    let rust = untouched::kinematics(&Machine {
        name_length: 1,
        chain,
        links: &[],
    });
    let joints: Vec<_> = joints.iter().map(|set| untouched::joint_set(set)).collect();
    let mut poses = Vec::with_capacity(joints.len());
    move || {
        poses.clear();
        let each = joints.iter().map(|set| rust.forward(set, TOOL_LENGTH));
        poses.extend(each.map(|pose| pose.expect("a pose")));
        black_box(&poses);
    }
}

fn leans(chain: &Chain, joints: &[[f64; 5]]) -> f64 {
    let lean = Lean::new(chain);
    let mut poses = vec![([0.0; 3], [0.0; 3]); joints.len()];
    of_each(CALLS, joints.len(), || {
        for (joints, pose) in joints.iter().zip(&mut poses) {
            *pose = lean_forward(&lean, joints);
        }
        black_box(&poses);
    })
}

#[inline(never)]
pub fn lean_forward(lean: &Lean, joints: &[f64; 5]) -> ([f64; 3], [f64; 3]) {
    let &[x, y, z, first, second] = joints;
    lean.forward([x, y, z], [first, second], TOOL_LENGTH)
}
