//! Random doubles for a place that has a largest size, and how often an input is damaged.

use crate::angles::{moved, signed, within};
use crate::floats::{self, power_of_two, subnormal};
use crate::random::Random;

/// At most `most` in size, often at most `usual`.
pub fn served(most: f64, usual: f64, random: &mut Random) -> f64 {
    match random.below(16) {
        0 => 0.0,
        1 => -0.0,
        2 => subnormal(random),
        3 => signed(most, random),
        4 => moved(signed(most, random), 4, random).clamp(-most, most),
        5 => within(most, random),
        6 => within(power_of_two(-(random.below(1000) as i64)), random),
        7..=9 => within(usual, random).round(),
        _ => within(usual, random),
    }
}

/// Above `most` in size, or not finite; seldom any double.
pub fn refused(most: f64, random: &mut Random) -> f64 {
    match random.below(8) {
        0 | 1 => not_finite(random),
        2 | 3 => signed(most.next_up(), random),
        4 => signed(most * 1.25 + within(most, random).max(0.0), random),
        5 => signed(power_of_two(40 + random.below(984) as i64), random),
        6 => signed(f64::MAX, random),
        _ => floats::any(random),
    }
}

/// An infinity or a nan, of any bits.
pub fn not_finite(random: &mut Random) -> f64 {
    match random.below(4) {
        0 => f64::INFINITY,
        1 => f64::NEG_INFINITY,
        2 => f64::NAN,
        _ => f64::from_bits(random.bits() | 0x7FF8_0000_0000_0000),
    }
}

/// How many damages there are in one kind of input: often none, so that another kind's show.
pub fn damages(random: &mut Random) -> usize {
    random.one_of(&[0, 0, 0, 0, 1, 1, 2, 3])
}
