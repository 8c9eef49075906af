//! Forward and division with nothing but their arithmetic: the Rust's operations in plain Rust, one sine and cosine of libm's for each
//! rotary, unit axes made beforehand, no check, and nothing computed twice. What they would cost if they proved and checked nothing.

use crate::chains::Chain;

pub type Vector = [f64; 3];

/// A rotary, its axis of length 1.
#[derive(Clone, Copy, Default)]
struct Spin {
    axis: Vector,
    pivot: Vector,
    /// Which of the angles is its own.
    slot: usize,
}

/// The rotaries of one carrier, the outer one first.
#[derive(Default)]
struct Spins {
    spins: [Spin; 2],
    count: usize,
}

/// A pose on a path that is divided: its tip, its joints and the axis that they reach.
#[derive(Clone, Copy)]
pub struct Stop {
    pub tip: Vector,
    pub axis: Vector,
    pub position: Vector,
    pub angles: [f64; 2],
}

/// Joints that are no farther apart, in mm and degrees, are the same.
const UNCHANGED: f64 = 1e-12;

/// A chain made ready.
pub struct Lean {
    heads: Spins,
    tables: Spins,
    spindle: Vector,
}

impl Lean {
    pub fn new(chain: &Chain) -> Self {
        Lean {
            heads: Spins::of(chain, 1),
            tables: Spins::of(chain, 0),
            spindle: unit(chain.spindle),
        }
    }

    /// The tip and the axis.
    pub fn forward(
        &self,
        position: Vector,
        angles: [f64; 2],
        tool_length: f64,
    ) -> (Vector, Vector) {
        let mut tip = scaled(self.spindle, -tool_length);
        let mut axis = self.spindle;
        for spin in self.heads.all().iter().rev() {
            (tip, axis) = spin.turned(tip, axis, angles[spin.slot]);
        }
        tip = sum(position, tip);
        for spin in self.tables.all() {
            (tip, axis) = spin.turned(tip, axis, -angles[spin.slot]);
        }
        (tip, unit(axis))
    }

    /// The given poses with their joints, and those that the halving puts between them.
    pub fn divide(
        &self,
        poses: &[f64],
        joints: &[f64],
        tolerances: [f64; 2],
        path: &mut Vec<Stop>,
    ) {
        path.clear();
        let mut right_ends = Vec::new();
        for (pose, set) in poses.chunks_exact(6).zip(joints.chunks_exact(5)) {
            right_ends.push(self.given(pose, set));
            while let Some(&right) = right_ends.last() {
                let inserted = path
                    .last()
                    .and_then(|left| self.between(left, &right, tolerances));
                match inserted {
                    Some(middle) => right_ends.push(middle),
                    None => path.extend(right_ends.pop()),
                }
            }
        }
    }

    fn given(&self, pose: &[f64], joints: &[f64]) -> Stop {
        let position = [joints[0], joints[1], joints[2]];
        Stop {
            tip: [pose[0], pose[1], pose[2]],
            ..self.reached(position, [joints[3], joints[4]])
        }
    }

    #[inline]
    fn reached(&self, position: Vector, angles: [f64; 2]) -> Stop {
        let (tip, axis) = self.forward(position, angles, 0.0);
        Stop {
            tip,
            axis,
            position,
            angles,
        }
    }

    /// The midpoint of two neighbours that are divided.
    #[inline]
    fn between(&self, left: &Stop, right: &Stop, [chord, axis]: [f64; 2]) -> Option<Stop> {
        if unchanged(left, right) {
            return None;
        }
        let middle = self.middle(left, right);
        let tip_gap = length(difference(middle.tip, halfway(left.tip, right.tip)));
        let axis_gap = degrees_between(middle.axis, mean(left.axis, right.axis));
        let within = tip_gap <= chord && axis_gap <= axis;
        let divided = !within && !unchanged(&middle, left) && !unchanged(&middle, right);
        divided.then_some(middle)
    }

    #[inline]
    fn middle(&self, left: &Stop, right: &Stop) -> Stop {
        let position = halfway(left.position, right.position);
        let angle = |slot: usize| {
            let (from, to) = (left.angles[slot], right.angles[slot]);
            from + (to - from) * 0.5
        };
        self.reached(position, [angle(0), angle(1)])
    }
}

#[inline]
fn unchanged(left: &Stop, right: &Stop) -> bool {
    let near = |slot: usize| (left.angles[slot] - right.angles[slot]).abs() <= UNCHANGED;
    length(difference(left.position, right.position)) <= UNCHANGED && near(0) && near(1)
}

#[inline]
fn halfway(v: Vector, w: Vector) -> Vector {
    sum(v, scaled(difference(w, v), 0.5))
}

/// Of two directions that are not opposite, on the sphere.
#[inline]
fn mean(v: Vector, w: Vector) -> Vector {
    let (v, w) = (unit(v), unit(w));
    let angle = dot(v, w).clamp(-1.0, 1.0).acos();
    let sine = angle.sin();
    if sine <= 1e-12 {
        return v;
    }
    let weight = (0.5 * angle).sin() / sine;
    unit(sum(scaled(v, weight), scaled(w, weight)))
}

#[inline]
fn degrees_between(v: Vector, w: Vector) -> f64 {
    let (v, w) = (unit(v), unit(w));
    let sine = length(cross(v, w));
    sine.atan2(dot(v, w).clamp(-1.0, 1.0)).to_degrees()
}

impl Spins {
    fn of(chain: &Chain, carrier: u8) -> Self {
        let mut spins = Spins::default();
        let all = chain.present().enumerate();
        for (slot, rotary) in all.filter(|(_, rotary)| rotary.carrier == carrier) {
            spins.spins[spins.count] = Spin {
                axis: unit(rotary.axis),
                pivot: rotary.pivot,
                slot,
            };
            spins.count += 1;
        }
        spins
    }

    #[inline]
    fn all(&self) -> &[Spin] {
        &self.spins[..self.count]
    }
}

impl Spin {
    /// A point and a direction, both turned by the same angle.
    #[inline]
    fn turned(&self, point: Vector, direction: Vector, degrees: f64) -> (Vector, Vector) {
        let (sine, cosine) = degrees.to_radians().sin_cos();
        let arm = rotated(self.axis, difference(point, self.pivot), sine, cosine);
        let direction = rotated(self.axis, direction, sine, cosine);
        (sum(self.pivot, arm), direction)
    }
}

/// Rodrigues' formula.
#[inline]
pub fn rotated(axis: Vector, v: Vector, sine: f64, cosine: f64) -> Vector {
    let along = dot(axis, v) * (1.0 - cosine);
    let across = sum(scaled(v, cosine), scaled(cross(axis, v), sine));
    sum(across, scaled(axis, along))
}

#[inline]
pub fn unit(v: Vector) -> Vector {
    scaled(v, 1.0 / length(v))
}

#[inline]
fn length(v: Vector) -> f64 {
    dot(v, v).sqrt()
}

#[inline]
pub fn sum(v: Vector, w: Vector) -> Vector {
    [v[0] + w[0], v[1] + w[1], v[2] + w[2]]
}

#[inline]
fn difference(v: Vector, w: Vector) -> Vector {
    [v[0] - w[0], v[1] - w[1], v[2] - w[2]]
}

#[inline]
pub fn scaled(v: Vector, factor: f64) -> Vector {
    v.map(|x| x * factor)
}

#[inline]
pub fn dot(v: Vector, w: Vector) -> f64 {
    v[0] * w[0] + v[1] * w[1] + v[2] * w[2]
}

#[inline]
pub fn cross(v: Vector, w: Vector) -> Vector {
    [
        v[1] * w[2] - v[2] * w[1],
        v[2] * w[0] - v[0] * w[2],
        v[0] * w[1] - v[1] * w[0],
    ]
}

#[cfg(all(test, original))]
mod tests {
    use super::*;
    use crate::cases::{Case, Entry};
    use crate::random::Random;
    use crate::reading;
    use crate::reference::{expected, with_libm};
    use crate::rust::untouched;

    #[test]
    fn forward_equals_the_untouched_rust() {
        let mut random = Random::new(1);
        let mut compared = 0;
        while compared < 10_000 {
            let case = Case::of_chain(&mut random);
            if expected(Entry::Forward, &case).is_err() {
                continue;
            }
            let chain = reading::chain(&case.chain).expect("a chain that is served");
            let joints = &case.joints;
            let position = [joints[0], joints[1], joints[2]];
            let angles = [joints[3], joints[4]];
            let (tip, axis) = Lean::new(&chain).forward(position, angles, case.tool_length);
            let rust = with_libm(Entry::Forward, &case).expect("a pose");
            for (x, y) in tip.iter().chain(&axis).zip(rust) {
                assert!((x - y).abs() <= 1e-9, "{x} and {y} at {case}");
            }
            compared += 1;
        }
    }

    /// On random chains, a path whose tips are those of its joints.
    #[test]
    fn division_equals_the_untouched_rust() {
        let mut random = Random::new(2);
        let mut inserted = 0;
        while inserted < 2000 {
            let case = Case::of_chain(&mut random);
            if expected(Entry::Forward, &case).is_err() {
                continue;
            }
            let chain = reading::chain(&case.chain).expect("a chain that is served");
            let lean = Lean::new(&chain);
            let set = |i: usize| [i as f64, 5.0, -7.0, 3.0 * i as f64, -2.0 * i as f64];
            let joints: Vec<f64> = (0..10).flat_map(set).collect();
            let tip = |set: &[f64]| {
                let (tip, axis) = lean.forward([set[0], set[1], set[2]], [set[3], set[4]], 0.0);
                [tip, axis].concat()
            };
            let poses: Vec<f64> = joints.chunks(5).flat_map(tip).collect();
            let tolerances = [1e9, 0.01];
            let rust = untouched::setup(&chain);
            let rust = untouched::subdivide_path(&rust, &poses, &joints, tolerances);
            let [rust, _] = rust.expect("a path that is divided");
            let mut path = Vec::new();
            lean.divide(&poses, &joints, tolerances, &mut path);
            assert_eq!(6 * path.len(), rust.len(), "{case}");
            let tips = path.iter().zip(rust.chunks(6));
            let near = |(stop, rust): (&Stop, &[f64])| (stop.tip[0] - rust[0]).abs() <= 1e-6;
            assert!(tips.into_iter().all(near), "{case}");
            inserted += path.len() - 10;
        }
    }
}
