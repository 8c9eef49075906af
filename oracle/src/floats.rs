//! Doubles to try a function on: edge values, and random ones drawn where rounding is hard. And when two answers are the
//! same: bit for bit, but that a nan is a nan, since the logic has one only.

use crate::random::Random;
use std::cmp::Ordering;

/// Given to each function of one argument. crates/edges/src/values.rt has the same two tables.
pub const EDGES: [u64; 78] = [
    // the zeros
    0x0000_0000_0000_0000,
    0x8000_0000_0000_0000,
    // the smallest and the largest subnormal and normal
    0x0000_0000_0000_0001,
    0x000F_FFFF_FFFF_FFFF,
    0x0010_0000_0000_0000,
    0x7FEF_FFFF_FFFF_FFFF,
    // the same below zero
    0x8000_0000_0000_0001,
    0x800F_FFFF_FFFF_FFFF,
    0x8010_0000_0000_0000,
    0xFFEF_FFFF_FFFF_FFFF,
    // the infinities and a nan
    0x7FF0_0000_0000_0000,
    0xFFF0_0000_0000_0000,
    0x7FF8_0000_0000_0000,
    // 1, -1, 0.5 and -0.5, each with its neighbours
    0x3FEF_FFFF_FFFF_FFFF,
    0x3FF0_0000_0000_0000,
    0x3FF0_0000_0000_0001,
    0xBFEF_FFFF_FFFF_FFFF,
    0xBFF0_0000_0000_0000,
    0xBFF0_0000_0000_0001,
    0x3FDF_FFFF_FFFF_FFFF,
    0x3FE0_0000_0000_0000,
    0x3FE0_0000_0000_0001,
    0xBFDF_FFFF_FFFF_FFFF,
    0xBFE0_0000_0000_0000,
    0xBFE0_0000_0000_0001,
    // 1.5, -1.5, 2.5 and -2.5, the first with its neighbours
    0x3FF7_FFFF_FFFF_FFFF,
    0x3FF8_0000_0000_0000,
    0x3FF8_0000_0000_0001,
    0xBFF8_0000_0000_0000,
    0x4004_0000_0000_0000,
    0xC004_0000_0000_0000,
    0x400C_0000_0000_0000,
    // 2251799813685247.5 and .75, 2^51, 2251799813685248.5
    0x431F_FFFF_FFFF_FFFE,
    0x431F_FFFF_FFFF_FFFF,
    0x4320_0000_0000_0000,
    0x4320_0000_0000_0001,
    // 4503599627370495.5, 2^52 and its neighbour above, the same below zero
    0x432F_FFFF_FFFF_FFFF,
    0x4330_0000_0000_0000,
    0x4330_0000_0000_0001,
    0xC32F_FFFF_FFFF_FFFF,
    0xC330_0000_0000_0000,
    0xC330_0000_0000_0001,
    // 2^53 with its neighbours, -2^53, 2^63, 2^64
    0x433F_FFFF_FFFF_FFFF,
    0x4340_0000_0000_0000,
    0x4340_0000_0000_0001,
    0xC340_0000_0000_0000,
    0x43E0_0000_0000_0000,
    0x43F0_0000_0000_0000,
    // 0.1, 2, 3, 4 with its neighbours, 9
    0x3FB9_9999_9999_999A,
    0x4000_0000_0000_0000,
    0x4008_0000_0000_0000,
    0x400F_FFFF_FFFF_FFFF,
    0x4010_0000_0000_0000,
    0x4010_0000_0000_0001,
    0x4022_0000_0000_0000,
    // the squares of 67108865 and 94906265, each with its neighbours
    0x4330_0000_0800_0000,
    0x4330_0000_0800_0001,
    0x4330_0000_0800_0002,
    0x433F_FFFF_F8EF_F970,
    0x433F_FFFF_F8EF_F971,
    0x433F_FFFF_F8EF_F972,
    // 1e-300, 1e-160, 1e-15, 1e-12, 1e-6
    0x01A5_6E1F_C2F8_F359,
    0x1EB6_7E9C_127B_6E74,
    0x3CD2_03AF_9EE7_5616,
    0x3D71_9799_812D_EA11,
    0x3EB0_C6F7_A0B5_ED8D,
    // 1e7, 1e15, 1e16, 1e160, 1e300
    0x4163_12D0_0000_0000,
    0x430C_6BF5_2634_0000,
    0x4341_C379_37E0_8000,
    0x6126_C2D4_256F_FCC3,
    0x7E37_E43C_8800_759C,
    // Pi / 2, Pi, 90, 180, -180, 360, 720
    0x3FF9_21FB_5444_2D18,
    0x4009_21FB_5444_2D18,
    0x4056_8000_0000_0000,
    0x4066_8000_0000_0000,
    0xC066_8000_0000_0000,
    0x4076_8000_0000_0000,
    0x4086_8000_0000_0000,
];

/// Given to each function of two arguments, each with each.
pub const PAIRED: [u64; 21] = [
    // the zeros, the least subnormals, the least normals
    0x0000_0000_0000_0000,
    0x8000_0000_0000_0000,
    0x0000_0000_0000_0001,
    0x8000_0000_0000_0001,
    0x0010_0000_0000_0000,
    0x8010_0000_0000_0000,
    // 1 with its neighbours, -1, 0.5, 2
    0x3FEF_FFFF_FFFF_FFFF,
    0x3FF0_0000_0000_0000,
    0x3FF0_0000_0000_0001,
    0xBFF0_0000_0000_0000,
    0x3FE0_0000_0000_0000,
    0x4000_0000_0000_0000,
    // 1e-12, -1e7, 180, 2^53
    0x3D71_9799_812D_EA11,
    0xC163_12D0_0000_0000,
    0x4066_8000_0000_0000,
    0x4340_0000_0000_0000,
    // the largest of both signs, the infinities, a nan
    0x7FEF_FFFF_FFFF_FFFF,
    0xFFEF_FFFF_FFFF_FFFF,
    0x7FF0_0000_0000_0000,
    0xFFF0_0000_0000_0000,
    0x7FF8_0000_0000_0000,
];

pub fn same(x: f64, y: f64) -> bool {
    x.to_bits() == y.to_bits() || (x.is_nan() && y.is_nan())
}

/// std's `min`. Of two zeros it may answer either; crates/float answers the first, as std does on the machines tried.
pub fn minimum(x: f64, y: f64) -> f64 {
    if x == y { x } else { x.min(y) }
}

/// std's `max`, the same of two zeros.
pub fn maximum(x: f64, y: f64) -> f64 {
    if x == y { x } else { x.max(y) }
}

/// std's `total_cmp`, but that a nan, whatever its bits, is one value and stands last.
pub fn total_order(x: f64, y: f64) -> Ordering {
    match (x.is_nan(), y.is_nan()) {
        (false, false) => x.total_cmp(&y),
        (x_is_nan, y_is_nan) => x_is_nan.cmp(&y_is_nan),
    }
}

/// A double of one of the kinds below.
pub fn any(random: &mut Random) -> f64 {
    match random.below(8) {
        0 | 1 => f64::from_bits(random.bits()),
        2 => subnormal(random),
        3 => near_square(random),
        4 => near_middle(random),
        5 => near_power_of_two(random),
        6 => near_half(random),
        _ => moderate(random),
    }
}

/// A second argument for `x`: often one that stands close to it.
pub fn beside(x: f64, random: &mut Random) -> f64 {
    match random.below(6) {
        0 => x,
        1 => -x,
        2 => shifted(x, random),
        3 => f64::from_bits(PAIRED[random.below(PAIRED.len() as u64) as usize]),
        _ => any(random),
    }
}

/// At most 2 places away, either way.
fn shifted(x: f64, random: &mut Random) -> f64 {
    f64::from_bits(x.to_bits().wrapping_add(random.below(5)).wrapping_sub(2))
}

/// Of any number of digits, either sign.
pub fn subnormal(random: &mut Random) -> f64 {
    let digits = random.below(53);
    let sign = random.bits() << 63;
    f64::from_bits(sign | (random.bits() >> 12 >> digits))
}

/// A double from 1 up to 2.
fn digits(random: &mut Random) -> f64 {
    f64::from_bits(1.0f64.to_bits() | (random.bits() >> 12))
}

/// 2 to the power of `e`, for a normal double's `e`.
pub fn power_of_two(e: i64) -> f64 {
    f64::from_bits(((e + 1023) as u64) << 52)
}

/// A square, exact where it has at most 53 digits, or a neighbour: there the root is a double, or nearly.
fn near_square(random: &mut Random) -> f64 {
    let kept = random.below(53);
    let root = f64::from_bits(digits(random).to_bits() >> kept << kept);
    let e = random.below(1020) as i64 - 510;
    shifted(root * root * power_of_two(2 * e), random)
}

/// The double nearest to the square of the middle of two neighbours, or one beside it: there the root is hardest to round.
fn near_middle(random: &mut Random) -> f64 {
    let middle = u128::from((1 << 53) | (random.bits() >> 11) | 1);
    let square = (middle * middle) as f64;
    let e = random.below(900) as i64 - 500;
    shifted(square * power_of_two(2 * e), random)
}

/// Either sign, of every exponent.
fn near_power_of_two(random: &mut Random) -> f64 {
    let sign = random.bits() << 63;
    shifted(f64::from_bits(sign | (random.below(2048) << 52)), random)
}

/// A whole number and a half, or a neighbour, up to where a double has no half.
fn near_half(random: &mut Random) -> f64 {
    let whole = (random.bits() >> 11 >> random.below(53)) as f64;
    let x = shifted(whole + 0.5, random);
    if random.bits() & 1 == 0 { x } else { -x }
}

/// Either sign, from 2^-32 to 2^64 in size.
fn moderate(random: &mut Random) -> f64 {
    let x = digits(random) * power_of_two(random.below(96) as i64 - 32);
    if random.bits() & 1 == 0 { x } else { -x }
}
