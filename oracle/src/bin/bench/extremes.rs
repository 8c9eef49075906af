//! The extremes beside a path of 100,000 joint sets, beside plain loops in Rust: one that works the same extremes out,
//! and one that reads every joint set.

use super::rows::{Row, Section};
use super::timing::of_both;
use oracle::angles::within;
use oracle::extremes::{GROUP, SET, TEN, summary_length};
use oracle::joints::{MOST_ANGLE, MOST_POSITION};
use oracle::maztubel;
use oracle::random::Random;
use std::hint::black_box;

const SETS: usize = 100_000;

/// Rounds over a whole path; calls of one group, and groups in a round.
const WHOLE: usize = 400;
const CALLS: usize = 400_000;
const GROUPS: usize = 64;

/// No angle of the path is above it.
const ABOVE_ALL: f64 = 180.0;

pub fn section() -> Section {
    let joints = path(&mut Random::new(9));
    let mut summary = vec![0.0; summary_length(SETS)];
    let served = maztubel::build_extremes(&joints, &mut summary);
    assert_eq!(served, 0, "the path was refused");
    let rows = vec![
        building(&joints),
        asking(&joints, &summary, "none of 100,000 joint sets").asked("at least 20 times as fast"),
        asking(&joints, &opened(&summary), "every group opened in vain"),
        replacing(&joints, &summary),
    ];
    Section {
        title: "Extremes beside a path",
        unit: "Best of many rounds on 100,000 joint sets, ns a call, of building ns a joint set; beside loops that work out the same, and of asking beside a full reading:",
        other: "Rust loop",
        rows,
    }
}

/// A walk, as a path is one: its extremes change now and then.
fn path(random: &mut Random) -> Vec<f64> {
    let mut set = [0.0; SET];
    let mut joints = Vec::with_capacity(SET * SETS);
    for _ in 0..SETS {
        for (slot, x) in set.iter_mut().enumerate() {
            let (most, step) = if slot < 3 { (500.0, 2.0) } else { (170.0, 1.0) };
            *x = (*x + within(step, random)).clamp(-most, most);
        }
        joints.extend(set);
    }
    joints
}

/// Every group's largest is above, though no joint set is.
fn opened(summary: &[f64]) -> Vec<f64> {
    let mut forged = summary.to_vec();
    for ten in forged.chunks_mut(TEN) {
        ten[SET + 3] = MOST_ANGLE;
    }
    forged
}

fn building(joints: &[f64]) -> Row {
    let (mut summary, mut same) = (
        vec![0.0; summary_length(SETS)],
        vec![0.0; summary_length(SETS)],
    );
    let [port, rust] = of_both(
        WHOLE * SETS,
        SETS,
        || assert_eq!(maztubel::build_extremes(black_box(joints), &mut summary), 0),
        || assert!(built(black_box(joints), &mut same)),
    );
    assert_eq!(summary, same);
    Row::new("build_extremes", "a joint set", SETS, port, rust).asked("under 60 ns")
}

fn asking(joints: &[f64], summary: &[f64], words: &str) -> Row {
    let (mut found, mut index) = (9, 9);
    let [port, rust] = of_both(
        WHOLE,
        1,
        || {
            let angle = black_box(ABOVE_ALL);
            let told = maztubel::first_above(joints, summary, 0, angle, &mut found, &mut index);
            assert_eq!(told, 0);
        },
        || assert_eq!(full_reading(joints, black_box(ABOVE_ALL)), None),
    );
    assert_eq!((found, index), (0, 0));
    Row::new("first_above", words, 1, port, rust)
}

/// In the middle of each of some groups.
fn replacing(joints: &[f64], summary: &[f64]) -> Row {
    let (mut all, mut ten) = (joints.to_vec(), summary.to_vec());
    let fresh = &joints[..SET];
    let mut same = [0.0; TEN];
    let [port, rust] = of_both(
        CALLS,
        GROUPS,
        || {
            for group in 0..GROUPS {
                let index = black_box(GROUP * group + GROUP / 2) as u64;
                assert_eq!(
                    maztubel::replace_joints(&mut all, &mut ten, index, fresh),
                    0
                );
            }
        },
        || {
            for group in joints.chunks(GROUP * SET).take(GROUPS) {
                extremes(black_box(group), &mut same);
            }
        },
    );
    Row::new("replace_joints", "a call", GROUPS, port, rust).asked("at most 64 sets' work")
}

#[inline(never)]
fn full_reading(joints: &[f64], angle: f64) -> Option<usize> {
    joints.chunks_exact(SET).position(|set| set[3] > angle)
}

/// With the checks, by `total_cmp`.
#[inline(never)]
fn built(joints: &[f64], summary: &mut [f64]) -> bool {
    let fits = |set: &[f64]| {
        set[..3].iter().all(|x| x.abs() <= MOST_POSITION)
            && set[3..].iter().all(|x| x.abs() <= MOST_ANGLE)
    };
    if !joints.iter().all(|x| x.is_finite()) || !joints.chunks_exact(SET).all(fits) {
        return false;
    }
    for (group, ten) in joints.chunks(GROUP * SET).zip(summary.chunks_mut(TEN)) {
        extremes(group, ten);
    }
    true
}

#[inline(never)]
fn extremes(group: &[f64], ten: &mut [f64]) {
    let (low, high) = ten.split_at_mut(SET);
    low.copy_from_slice(&group[..SET]);
    high.copy_from_slice(&group[..SET]);
    for set in group.chunks_exact(SET).skip(1) {
        for ((low, high), x) in low.iter_mut().zip(high.iter_mut()).zip(set) {
            if x.total_cmp(low).is_lt() {
                *low = *x;
            }
            if high.total_cmp(x).is_lt() {
                *high = *x;
            }
        }
    }
}
