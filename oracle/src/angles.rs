//! Arguments for sine, cosine, arctangent and arccosine: all signs and magnitudes, drawn where an answer is hard or a case begins.

use crate::floats::{self, PAIRED, power_of_two, subnormal};
use crate::random::Random;
use std::f64::consts::{FRAC_PI_4, PI};

/// The largest angle that is served: in radians, and in degrees for a turn.
pub const MOST: f64 = 800.0;
pub const MOST_DEGREES: f64 = 45_000.0;

/// An angle, or a double that is refused as one.
pub fn angle(random: &mut Random) -> f64 {
    match random.below(8) {
        0 => moved(signed(MOST, random), 64, random),
        1 => floats::any(random),
        _ => served_angle(random),
    }
}

/// An angle of at most 800 in size.
pub fn served_angle(random: &mut Random) -> f64 {
    match random.below(8) {
        0..=2 => near_eighth_turn(random),
        3 => subnormal(random),
        4 => within(
            power_of_two(random.below(1074) as i64 - 1022).min(MOST),
            random,
        ),
        5 => within(PI, random),
        _ => within(MOST, random),
    }
}

/// At most 8 places from a multiple of Pi / 4.
fn near_eighth_turn(random: &mut Random) -> f64 {
    let k = (1 + random.below(1018)) as f64;
    signed(moved(k * FRAC_PI_4, 8, random).clamp(0.0, MOST), random)
}

/// An angle in degrees, or a double that no turn is made by.
pub fn degrees(random: &mut Random) -> f64 {
    match random.below(8) {
        0 => moved(signed(MOST_DEGREES, random), 64, random),
        1 => floats::any(random),
        2 => near_eighth_turn_in_degrees(random),
        3 => power_of_two(random.below(1037) as i64 - 1022).min(MOST_DEGREES) * within(1.0, random),
        4 => subnormal(random),
        5 => (random.below(180_001) as f64 - 90_000.0) / 2.0,
        6 => within(360.0, random),
        _ => within(MOST_DEGREES, random),
    }
}

/// At most 8 places from a multiple of 45 degrees, half of the time that itself.
fn near_eighth_turn_in_degrees(random: &mut Random) -> f64 {
    let x = 45.0 * random.below(1001) as f64;
    let places = 8 * random.below(2);
    signed(moved(x, places.min(x.to_bits()), random), random)
}

/// y and x for the arctangent.
pub fn point(random: &mut Random) -> (f64, f64) {
    match random.below(8) {
        0 => (floats::any(random), floats::any(random)),
        1 => (edge(random), edge(random)),
        2 => (edge(random), floats::any(random)),
        3 => {
            let x = floats::any(random);
            (moved(signed(x, random), 4, random), x)
        }
        4 => apart(random),
        5 | 6 => on_ray(random),
        _ => (within(1000.0, random), within(1000.0, random)),
    }
}

/// A zero, a double at an end of its kind, or one of a few between.
fn edge(random: &mut Random) -> f64 {
    f64::from_bits(PAIRED[random.below(PAIRED.len() as u64) as usize])
}

/// Exponents apart by as much as a double has.
fn apart(random: &mut Random) -> (f64, f64) {
    let e = random.below(1023) as i64;
    let (large, small) = (power_of_two(e), power_of_two(-e.min(1022)));
    let large = within(large, random);
    let small = within(small, random);
    if random.below(2) == 0 {
        (large, small)
    } else {
        (small, large)
    }
}

/// Near a multiple of Pi / 64 around the circle, of any size.
fn on_ray(random: &mut Random) -> (f64, f64) {
    let angle = random.below(128) as f64 * (PI / 64.0);
    let scale = power_of_two(random.below(2000) as i64 - 1000);
    let (sine, cosine) = angle.sin_cos();
    (
        moved(sine * scale, 4, random),
        moved(cosine * scale, 4, random),
    )
}

/// A cosine, or a double that is refused as one.
pub fn cosine(random: &mut Random) -> f64 {
    match random.below(8) {
        0 => moved(signed(1.0, random), 64, random),
        1 => floats::any(random),
        _ => served_cosine(random),
    }
}

/// From -1 to 1.
pub fn served_cosine(random: &mut Random) -> f64 {
    match random.below(8) {
        0 => subnormal(random),
        1 => within(power_of_two(-(random.below(1022) as i64)), random),
        2 => signed(
            1.0 - within(power_of_two(-(random.below(54) as i64)), random).abs(),
            random,
        ),
        3 => (random.below(64) as f64 * (PI / 64.0)).cos(),
        _ => within(1.0, random),
    }
}

/// From -most to most.
pub fn within(most: f64, random: &mut Random) -> f64 {
    let part = random.below(1 << 53) as f64 / (1u64 << 53) as f64;
    signed(part * most, random)
}

/// Of either sign.
pub fn signed(x: f64, random: &mut Random) -> f64 {
    if random.below(2) == 0 { x } else { -x }
}

/// At most `places` away, either way.
pub fn moved(x: f64, places: u64, random: &mut Random) -> f64 {
    let away = random.below(2 * places + 1);
    f64::from_bits(x.to_bits().wrapping_add(away).wrapping_sub(places))
}
