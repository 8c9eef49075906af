//! Chains for paths: machines of every type, and above all those on which a path meets a delicate place. One rotary on the
//! spindle, exactly or nearly; rotaries that are parallel or nearly so; slanted ones, whose reach has a border.

use crate::angles::{moved, signed, within};
use crate::chains::{Chain, direction, slot, sound};
use crate::floats::power_of_two;
use crate::lean::{Vector, cross, dot, rotated, scaled, sum, unit};
use crate::random::Random;

/// A chain that is served, but for a few axes.
pub fn machine(random: &mut Random) -> Chain {
    let mut chain = sound(random);
    match random.below(16) {
        0 | 1 => {}
        2..=6 => square(&mut chain, random),
        7 | 8 => slanted(&mut chain, random),
        9 => match random.below(2) {
            0 => nearly_parallel(&mut chain, random),
            _ => just_parallel(&mut chain, random),
        },
        10 | 11 => nearly_square(&mut chain, random),
        12 => at_tolerance(&mut chain, random),
        13 => third_axis(&mut chain, random),
        _ => alone(&mut chain, random),
    }
    if random.below(3) == 0 {
        let (axis, degrees) = (unit(direction(random)), within(180.0, random));
        change_axes(&mut chain, |v| turned(axis, v, degrees));
    }
    if random.below(4) == 0 {
        let scale = power_of_two(random.below(80) as i64 - 40) * (1.0 + within(0.5, random));
        change_axes(&mut chain, |v| scaled(v, scale));
    }
    for rotary in &mut chain.rotaries {
        (rotary.limited, rotary.limits) = match random.below(8) {
            0..=3 => (0, [0.0; 2]),
            4 => (1, [-36_000.0, 36_000.0]),
            5 => {
                let half = random.one_of(&[90.0, 120.0, 180.0, 360.0, 3600.0]);
                (1, [-half, half])
            }
            _ => (rotary.limited, rotary.limits),
        };
    }
    chain
}

/// A machine as shops have it: two axes of x, y and z, the spindle on one of them, every axis within reach, and no limits.
pub fn usual(random: &mut Random) -> Chain {
    let mut chain = sound(random);
    square(&mut chain, random);
    let [first, _] = equation(&chain);
    if dot(chain.rotaries[first].axis, chain.spindle) == 0.0 {
        let [one, other] = &mut chain.rotaries;
        std::mem::swap(&mut one.axis, &mut other.axis);
    }
    for rotary in &mut chain.rotaries {
        rotary.pivot = [(); 3].map(|()| within(500.0, random).round());
        (rotary.limited, rotary.limits) = (0, [0.0; 2]);
    }
    chain
}

/// Turned by an angle in degrees.
pub fn turned(axis: Vector, v: Vector, degrees: f64) -> Vector {
    let (sine, cosine) = degrees.to_radians().sin_cos();
    rotated(axis, v, sine, cosine)
}

/// A unit vector square to a unit vector.
pub fn square_to(v: Vector) -> Vector {
    let other = if v[0].abs() < 0.7 {
        [1.0, 0.0, 0.0]
    } else {
        [0.0, 1.0, 0.0]
    };
    unit(cross(v, other))
}

/// The slots of the two rotaries of a chain of two as the Rust has them in R(first, x) R(second, y) spindle = axis.
pub fn equation(chain: &Chain) -> [usize; 2] {
    match chain.rotaries.map(|rotary| rotary.carrier) {
        [0, 0] | [1, 0] => [1, 0],
        _ => [0, 1],
    }
}

fn change_axes(chain: &mut Chain, change: impl Fn(Vector) -> Vector) {
    for rotary in &mut chain.rotaries {
        rotary.axis = change(rotary.axis);
    }
    chain.spindle = change(chain.spindle);
}

fn along(slot: usize, random: &mut Random) -> Vector {
    let mut axis = [0.0, 0.0, 0.0];
    axis[slot] = signed(1.0, random);
    axis
}

/// The spindle on a rotary, mostly the first factor's, so that every axis can be reached, and the other one square to it.
fn square(chain: &mut Chain, random: &mut Random) {
    chain.count = 2;
    let on = slot(random);
    let across = (on + 1 + random.below(2) as usize) % 3;
    let [first, second] = equation(chain);
    let primary = random.one_of(&[first, first, first, second]);
    chain.rotaries[primary].axis = along(on, random);
    chain.rotaries[1 - primary].axis = along(across, random);
    chain.spindle = along(on, random);
}

/// The same, but off the spindle and off the square by about what a singular direction allows, 1e-6 in the cosine and 1e-3.
fn nearly_square(chain: &mut Chain, random: &mut Random) {
    square(chain, random);
    let off = random.one_of(&[
        1e-9, 1e-6, 1e-4, 0.9e-3, 1e-3, 1.4e-3, 1.41e-3, 1.42e-3, 0.01,
    ]);
    for rotary in &mut chain.rotaries {
        let nudge = [(); 3].map(|()| within(off, random));
        let exact = [0.0, off, 0.0];
        let most = random.one_of(&[nudge, nudge, exact, [0.0; 3]]);
        rotary.axis = sum(rotary.axis, most);
    }
}

/// Off by just as much as that, or a place more or less.
fn at_tolerance(chain: &mut Chain, random: &mut Random) {
    square(chain, random);
    let spindle = chain.spindle;
    for rotary in &mut chain.rotaries {
        let on_spindle = dot(rotary.axis, spindle) != 0.0;
        let cosine = match (on_spindle, random.below(2)) {
            (_, 0) => continue,
            (true, _) => 1.0 - 1e-6,
            (false, _) => 1e-3,
        };
        let cosine = moved(cosine, 1, random);
        let across = if on_spindle {
            square_to(spindle)
        } else {
            rotary.axis
        };
        let sine = (1.0 - cosine * cosine).sqrt();
        rotary.axis = sum(scaled(spindle, cosine), scaled(across, sine));
    }
}

/// A usual machine, but its rotary leans from the spindle toward the other one, by almost as much as is allowed.
pub fn off_spindle(random: &mut Random) -> Chain {
    let mut chain = usual(random);
    let on = (0..2).find(|&slot| dot(chain.rotaries[slot].axis, chain.spindle) != 0.0);
    let on = on.expect("a rotary on the spindle");
    let lean = random.one_of(&[0.9e-3, 1.2e-3, 1.4e-3, 1.41e-3]);
    let toward = scaled(chain.rotaries[1 - on].axis, signed(lean, random));
    chain.rotaries[on].axis = sum(chain.rotaries[on].axis, toward);
    chain
}

/// The first factor of the equation on the spindle, the other at any angle to it, often 45 degrees.
fn slanted(chain: &mut Chain, random: &mut Random) {
    chain.count = 2;
    let [first, second] = equation(chain);
    let other = match random.below(3) {
        0 => [0.0, 1.0, 1.0],
        1 => [0.0, signed(1.0, random), 0.5],
        _ => direction(random),
    };
    chain.rotaries[first].axis = [0.0, 0.0, 1.0];
    chain.rotaries[second].axis = other;
    chain.spindle = match random.below(3) {
        0 => unit(direction(random)),
        _ => [0.0, 0.0, signed(1.0, random)],
    };
}

fn nearly_parallel(chain: &mut Chain, random: &mut Random) {
    chain.count = 2;
    let axis = unit(direction(random));
    let off = random.one_of(&[
        0.0, 1e-16, 1e-12, 0.9e-9, 1e-9, 1.1e-9, 2e-9, 1e-8, 1e-6, 1e-3,
    ]);
    let nudge = scaled(square_to(axis), off);
    chain.rotaries[0].axis = axis;
    chain.rotaries[1].axis = scaled(sum(axis, nudge), signed(1.0, random));
    chain.spindle = match random.below(3) {
        0 => axis,
        1 => sum(
            axis,
            scaled(square_to(axis), random.one_of(&[1e-10, 1e-9, 1e-8])),
        ),
        _ => square_to(axis),
    };
}

/// A cross product of 1e-9, the shortest that is not parallel, or some places more or less; the axes of any length, one of them
/// often turned round.
fn just_parallel(chain: &mut Chain, random: &mut Random) {
    chain.count = 2;
    let on = slot(random);
    let across = (on + 1 + random.below(2) as usize) % 3;
    let leaning = random.below(2) as usize;
    for rotary in &mut chain.rotaries {
        rotary.axis = along(on, random);
    }
    chain.rotaries[leaning].axis[across] = signed(moved(1e-9, 2, random), random);
    for rotary in &mut chain.rotaries {
        let power = random.one_of(&[0, 0, 3, -40, 400]);
        rotary.axis = scaled(rotary.axis, power_of_two(power));
    }
    let spindle = random.one_of(&[on, across]);
    chain.spindle = along(spindle, random);
}

/// Both rotaries square to the spindle and to each other.
fn third_axis(chain: &mut Chain, random: &mut Random) {
    chain.count = 2;
    let first = slot(random);
    chain.rotaries[0].axis = along(first, random);
    chain.rotaries[1].axis = along((first + 1) % 3, random);
    chain.spindle = along((first + 2) % 3, random);
}

/// One rotary, square to the spindle, on it, or slanted.
fn alone(chain: &mut Chain, random: &mut Random) {
    chain.count = 1;
    let on = slot(random);
    chain.rotaries[0].axis = along(on, random);
    chain.spindle = match random.below(4) {
        0 => along(on, random),
        1 => direction(random),
        _ => along((on + 1) % 3, random),
    };
}

/// The axis at the border of what a chain of two can reach: the three of the equation in one plane, then turned about the first.
/// None where its rotaries are parallel.
pub fn border(chain: &Chain, degrees: f64, far: bool) -> Option<Vector> {
    let [first, second] = equation(chain).map(|slot| unit(chain.rotaries[slot].axis));
    let height = dot(second, unit(chain.spindle));
    let across = sum(first, scaled(second, -dot(first, second)));
    let across = unit(across);
    let width = (1.0 - height * height).max(0.0).sqrt();
    let width = if far { -width } else { width };
    let axis = sum(scaled(second, height), scaled(across, width));
    let axis = turned(first, axis, degrees);
    axis.iter().all(|x| x.is_finite()).then_some(axis)
}
