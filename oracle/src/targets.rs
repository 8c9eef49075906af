//! Random chains and tool axes for the inverse map, drawn where its answer turns: rotaries that are parallel or nearly so, a
//! spindle on a rotary, axes on the circle that a chain reaches, at its tangents and a little off it, and limits that an angle just
//! meets or misses.

use crate::angles::{moved, signed, within};
use crate::chains::{Chain, Rotary, axis, sound, usable_axis};
use crate::floats::{power_of_two, subnormal};
use crate::lean::Lean;
use crate::random::Random;

type Vector = [f64; 3];

const TABLE: u8 = 0;

/// The tolerances of the inverse map and what lies about them.
const GAPS: [f64; 12] = [
    1e-300, 1e-16, 1e-12, 1e-10, 5e-10, 1e-9, 2e-9, 1e-8, 5e-8, 1e-7, 1.5e-7, 1e-6,
];

/// A chain that is mostly served, of one kind or another.
pub fn chain(random: &mut Random) -> Chain {
    let mut chain = sound(random);
    match random.below(8) {
        0 | 1 => (),
        2..=4 => square(&mut chain, random),
        5 => beside(&mut chain, random),
        _ => {
            for rotary in &mut chain.rotaries {
                rotary.axis = usable_axis(random);
            }
            chain.spindle = usable_axis(random);
        }
    }
    for rotary in &mut chain.rotaries {
        relimit(rotary, random);
    }
    chain
}

/// Rotaries and spindle along x, y or z.
fn square(chain: &mut Chain, random: &mut Random) {
    let mut along = || {
        let mut axis = [0.0; 3];
        axis[random.below(3) as usize] = signed(1.0, random);
        axis
    };
    chain.rotaries[0].axis = along();
    chain.rotaries[1].axis = along();
    chain.spindle = along();
}

/// The second rotary, or the spindle, nearly along another.
fn beside(chain: &mut Chain, random: &mut Random) {
    let [first, second] = chain.rotaries.map(|rotary| rotary.axis);
    match random.below(4) {
        0 | 1 => chain.rotaries[1].axis = shaken(unit(first), random),
        2 => chain.spindle = shaken(unit(first), random),
        _ => chain.spindle = shaken(unit(second), random),
    }
}

/// Often without limits, else often with those that many whole turns fit in.
fn relimit(rotary: &mut Rotary, random: &mut Random) {
    let limits = match random.below(24) {
        0..=12 => {
            (rotary.limited, rotary.limits) = (0, [0.0; 2]);
            return;
        }
        13 | 14 => return,
        15 | 16 => [-36_900.0, 36_900.0],
        17 | 18 => [
            -90.0 * random.below(12) as f64,
            90.0 * (1 + random.below(12)) as f64,
        ],
        19 => [-180.0, 180.0],
        20 => [
            -700.0 + within(200.0, random),
            700.0 + within(200.0, random),
        ],
        _ => {
            let least = within(1000.0, random);
            [least, least + 1.0 + within(1200.0, random).abs()]
        }
    };
    (rotary.limited, rotary.limits) = (1, limits);
}

/// A tool axis, mostly one that the chain reaches or nearly does.
pub fn target(chain: &Chain, random: &mut Random) -> Vector {
    let target = match random.below(16) {
        0..=6 => reached(chain, random),
        7 | 8 => shaken(reached(chain, random), random),
        9 => tangent(chain, 0.0, random),
        10 => match random.below(2) {
            0 => shaken(tangent(chain, 0.0, random), random),
            _ => {
                let gap = random.one_of(&GAPS) * (1.0 + within(1e-6, random));
                tangent(chain, signed(gap, random), random)
            }
        },
        11 => on_rotary(chain, random),
        12 => chain.spindle.map(|x| x * random.one_of(&[1.0, -1.0])),
        13 => usable_axis(random),
        14 => axis(random),
        _ => off_circle(chain, random),
    };
    match random.below(4) {
        0 => target.map(|x| x * power_of_two(random.below(200) as i64 - 40)),
        1 => target.map(|x| x * 3.0),
        _ => target,
    }
}

/// The axis at angles of its own.
fn reached(chain: &Chain, random: &mut Random) -> Vector {
    let angles = [angle(random), angle(random)];
    Lean::new(chain).forward([0.0; 3], angles, 0.0).1
}

/// Often a multiple of 15 or 90 degrees.
pub fn angle(random: &mut Random) -> f64 {
    match random.below(8) {
        0 | 1 => signed(90.0 * random.below(5) as f64, random),
        2 => signed(15.0 * random.below(25) as f64, random),
        3 => within(random.one_of(&GAPS), random),
        4 => 180.0 + within(random.one_of(&GAPS), random),
        _ => within(180.0, random),
    }
}

/// A unit vector moved by about one of the gaps.
fn shaken(v: Vector, random: &mut Random) -> Vector {
    let gap = random.one_of(&GAPS) * (1.0 + within(1e-3, random));
    let scale = random.one_of(&[1.0, 1.0, -1.0]);
    let mut shaken = v.map(|x| x * scale);
    match random.below(3) {
        0 => shaken[random.below(3) as usize] += signed(gap, random),
        _ => shaken = shaken.map(|x| x + within(gap, random)),
    }
    shaken
}

/// The two axes of the orientation equation; of one rotary its own twice.
fn pair(chain: &Chain) -> (Vector, Vector) {
    let [first, second] = chain.rotaries;
    let (outer, inner) = (unit(first.axis), unit(second.axis));
    match (chain.count, first.carrier, second.carrier) {
        (1, ..) => (outer, outer),
        (_, TABLE, TABLE) => (inner, outer),
        (_, _, TABLE) => (inner, outer),
        _ => (outer, inner),
    }
}

/// An axis on which the two solutions meet: the spindle, turned about the one rotary into the plane of both, then about the other.
/// With a gap an axis past it or before it, where the cosine that the Rust takes the sine from is larger than 1 by the gap.
fn tangent(chain: &Chain, gap: f64, random: &mut Random) -> Vector {
    let (wa, wb) = pair(chain);
    let (d, along) = (dot(wa, wb), dot(wb, unit(chain.spindle)));
    let side = unit(sum(wa, scaled(wb, -d)));
    let across = signed((1.0 - along * along).max(0.0).sqrt(), random);
    let c = sum(scaled(wb, along), scaled(side, across));
    if gap == 0.0 {
        return turned(wa, c, angle(random));
    }
    let (cosine, square) = (dot(wa, c), unit(sum(c, scaled(wa, -dot(wa, c)))));
    let sine = dot(square, c);
    let slope = (d - along * cosine) / (along - d * cosine) / sine;
    let (sine, cosine) = (sine.atan2(cosine) + gap / slope).sin_cos();
    let c = sum(scaled(wa, cosine), scaled(square, sine));
    turned(wa, c, angle(random))
}

/// A rotary's own axis, bit for bit or nearly.
fn on_rotary(chain: &Chain, random: &mut Random) -> Vector {
    let rotary = chain.rotaries[random.below(2) as usize].axis;
    let mut rotary = rotary.map(|x| x * random.one_of(&[1.0, 1.0, -1.0]));
    if random.below(2) == 0 {
        rotary[random.below(3) as usize] += match random.below(3) {
            0 => subnormal(random),
            1 => signed(1e-200, random),
            _ => within(random.one_of(&GAPS), random),
        };
    }
    rotary
}

/// Off the circle about the first rotary by a gap, as exactly as can be.
fn off_circle(chain: &Chain, random: &mut Random) -> Vector {
    let w = unit(chain.rotaries[0].axis);
    let v = reached(chain, random);
    let gap = moved(random.one_of(&GAPS), 2, random);
    sum(v, scaled(w, signed(gap, random)))
}

fn turned(axis: Vector, v: Vector, degrees: f64) -> Vector {
    let (sine, cosine) = degrees.to_radians().sin_cos();
    let along = dot(axis, v) * (1.0 - cosine);
    let side = [
        axis[1] * v[2] - axis[2] * v[1],
        axis[2] * v[0] - axis[0] * v[2],
        axis[0] * v[1] - axis[1] * v[0],
    ];
    let across = sum(scaled(v, cosine), scaled(side, sine));
    sum(across, scaled(axis, along))
}

/// Zero where there is no length.
fn unit(v: Vector) -> Vector {
    let length = dot(v, v).sqrt();
    if length.is_finite() && length > 0.0 {
        v.map(|x| x / length)
    } else {
        [0.0; 3]
    }
}

fn dot(v: Vector, w: Vector) -> f64 {
    v[0] * w[0] + v[1] * w[1] + v[2] * w[2]
}

fn sum(v: Vector, w: Vector) -> Vector {
    [v[0] + w[0], v[1] + w[1], v[2] + w[2]]
}

fn scaled(v: Vector, factor: f64) -> Vector {
    v.map(|x| x * factor)
}
