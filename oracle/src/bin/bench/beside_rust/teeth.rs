//! choose_tooth beside choose: what the teeth take beside the choice, whose work both have.

use super::forwards::{COUNT, MACHINES, TOOL_LENGTH, chain, joint_sets, lean_forward};
use crate::rows::{Row, Section};
use crate::timing::of_both;
use oracle::chains::Chain;
use oracle::lean::Lean;
use oracle::maztubel::{self, Asked};
use oracle::random::Random;
use std::hint::black_box;

const CALLS: usize = 60 * COUNT;
const HINT: [f64; 2] = [0.0; 2];

/// No tooth is so far.
const TOLERANCE: f64 = 1.0;

pub fn section() -> Section {
    let row = |(words, carriers)| beside(words, &chain(carriers)).asked("at most 1.3");
    Section {
        title: "Hirth tables",
        unit: "Best of 60 rounds over 4,096 poses, ns a call, the nearest to the hint zero; beside choose of this library:",
        other: "choose",
        rows: MACHINES.map(row).to_vec(),
    }
}

fn beside(words: &str, chain: &Chain) -> Row {
    let lean = Lean::new(chain);
    let joints = joint_sets(COUNT, &mut Random::new(5));
    let poses = joints.iter().map(|set| lean_forward(&lean, set));
    let poses: Vec<[f64; 6]> = poses
        .map(|([x, y, z], [i, j, k])| [x, y, z, i, j, k])
        .collect();
    let bytes = chain.bytes();
    let tooth = over(&bytes, &poses, |asked, joints, at, letter| {
        maztubel::choose_tooth(asked, 0, TOLERANCE, joints, at, letter)
    });
    let plain = over(&bytes, &poses, |asked, joints, at, letter| {
        maztubel::choose(asked, 0, joints, at, letter)
    });
    let [port, other] = of_both(CALLS, COUNT, tooth, plain);
    Row::new("choose_tooth", words, COUNT, port, other)
}

fn over(
    chain: &[u8],
    poses: &[[f64; 6]],
    call: impl Fn(Asked, &mut [f64], &mut u64, &mut u8) -> u32,
) -> impl FnMut() {
    let mut joints = [0.0; 5];
    let (mut at, mut letter) = (0, 0);
    move || {
        let told = poses.iter().map(|pose| {
            let asked = Asked {
                chain,
                pose,
                tool_length: TOOL_LENGTH,
                hint: &HINT,
            };
            let told = call(asked, &mut joints, &mut at, &mut letter);
            black_box(&joints);
            told
        });
        assert_eq!(told.sum::<u32>(), 0, "a pose was refused");
    }
}
