//! About how many poses a division inserts, by lean arithmetic, so that tolerances can be drawn of which most are served soon. No
//! answer is expected of it.

use crate::lean::{Lean, cross, dot, sum};
use crate::paths::{JOINTS, POSE};

/// A tip with its joint set.
type Item = ([f64; 3], [f64; 5]);

pub struct Halvings {
    lean: Lean,
    items: Vec<Item>,
}

impl Halvings {
    pub fn new(lean: Lean, poses: &[f64], joints: &[f64]) -> Self {
        let tips = poses.chunks(POSE).map(|pose| [pose[0], pose[1], pose[2]]);
        let sets = joints
            .chunks(JOINTS)
            .map(|set| std::array::from_fn(|i| set[i]));
        Halvings {
            lean,
            items: tips.zip(sets).collect(),
        }
    }

    /// The largest gap of the tip and the largest of the axis in the middle of two given neighbours.
    pub fn largest_gaps(&self) -> [f64; 2] {
        let mut largest = [0.0f64; 2];
        for pair in self.items.windows(2) {
            let (gaps, _) = self.middle(&pair[0], &pair[1]);
            largest = [largest[0].max(gaps[0]), largest[1].max(gaps[1])];
        }
        largest
    }

    /// How many poses are inserted, where there are at most so many.
    pub fn inserted(&self, tolerances: [f64; 2], most: usize) -> Option<usize> {
        let mut inserted = 0;
        for pair in self.items.windows(2) {
            let mut left = pair[0];
            let mut waiting = vec![pair[1]];
            while let Some(right) = waiting.last() {
                let (gaps, middle) = self.middle(&left, right);
                let within = gaps[0] <= tolerances[0] && gaps[1] <= tolerances[1];
                if within || same(&left.1, &middle.1) || same(&middle.1, &right.1) {
                    left = *right;
                    waiting.pop();
                    continue;
                }
                inserted += 1;
                if inserted > most {
                    return None;
                }
                waiting.push(middle);
            }
        }
        Some(inserted)
    }

    fn middle(&self, left: &Item, right: &Item) -> ([f64; 2], Item) {
        let joints: [f64; 5] = std::array::from_fn(|i| left.1[i] + (right.1[i] - left.1[i]) * 0.5);
        let [(_, left_axis), (_, right_axis), (tip, axis)] =
            [&left.1, &right.1, &joints].map(|set| self.forward(set));
        let off = |i: usize| tip[i] - (left.0[i] + right.0[i]) * 0.5;
        let tip_gap = (off(0).powi(2) + off(1).powi(2) + off(2).powi(2)).sqrt();
        let between = sum(left_axis, right_axis);
        let across = cross(axis, between);
        let axis_gap = dot(across, across)
            .sqrt()
            .atan2(dot(axis, between))
            .to_degrees();
        ([tip_gap, axis_gap.abs()], (tip, joints))
    }

    fn forward(&self, set: &[f64; 5]) -> ([f64; 3], [f64; 3]) {
        let &[x, y, z, first, second] = set;
        self.lean.forward([x, y, z], [first, second], 0.0)
    }
}

fn same(left: &[f64; 5], right: &[f64; 5]) -> bool {
    let gap = |i: usize| (left[i] - right[i]).abs();
    let position = (gap(0).powi(2) + gap(1).powi(2) + gap(2).powi(2)).sqrt();
    position <= 1e-12 && gap(3) <= 1e-12 && gap(4) <= 1e-12
}
