//! Chains as document 01 writes them in bytes, and random ones: of every kind that is served, at the ends of what is, and
//! damaged in one field or in several at once, so that the order of the checks shows.

use crate::angles::{moved, signed, within};
use crate::floats::{self, power_of_two, subnormal};
use crate::joints::MOST_ANGLE;
use crate::numbers::{damages, not_finite, refused, served};
use crate::random::Random;

/// A rest angle may be as large as any angle.
pub const MOST_REST: f64 = MOST_ANGLE;

/// A pivot's component may be as large as this.
pub const MOST_PIVOT: f64 = 100_000.0;

/// A direction whose components are all at most this large is zero.
const SMALLEST: f64 = 1e-15;

/// The root of the largest double: the square of one place more overflows.
const LARGEST: f64 = 1.340_780_792_994_259_6e154;

/// The fields of a rotary, as they stand in the bytes.
#[derive(Clone, Copy, Debug, Default, PartialEq)]
pub struct Rotary {
    pub letter: u8,
    /// 0 table, 1 head.
    pub carrier: u8,
    /// 0 or 1.
    pub limited: u8,
    pub zeros: [u8; 5],
    pub axis: [f64; 3],
    pub pivot: [f64; 3],
    /// The least and the largest angle, +0.0 where there are no limits.
    pub limits: [f64; 2],
    /// Only in the bytes of a chain with rest angles, else +0.0.
    pub rest: f64,
}

impl Rotary {
    /// Whether the limits are none that the Rust refuses.
    pub fn limits_served(&self) -> bool {
        let [least, most] = self.limits;
        self.limited == 0 || (least.is_finite() && most.is_finite() && least < most)
    }
}

/// The fields of a chain. A second rotary that the chain lacks does not stand in the bytes.
#[derive(Clone, Copy, Debug, Default, PartialEq)]
pub struct Chain {
    pub count: u8,
    pub zeros: [u8; 7],
    pub rotaries: [Rotary; 2],
    pub spindle: [f64; 3],
    /// Whether each record has a rest angle behind the limits.
    pub rested: bool,
}

impl Chain {
    pub fn bytes(&self) -> Vec<u8> {
        let mut bytes = Vec::with_capacity(192);
        bytes.push(self.count);
        bytes.extend(self.zeros);
        let written = if self.count == 1 { 1 } else { 2 };
        for rotary in &self.rotaries[..written] {
            bytes.extend([rotary.letter, rotary.carrier, rotary.limited]);
            bytes.extend(rotary.zeros);
            push_numbers(&mut bytes, &rotary.axis);
            push_numbers(&mut bytes, &rotary.pivot);
            push_numbers(&mut bytes, &rotary.limits);
            if self.rested {
                push_numbers(&mut bytes, &[rotary.rest]);
            }
        }
        push_numbers(&mut bytes, &self.spindle);
        bytes
    }

    /// How long a rotary's record is.
    pub fn record(&self) -> usize {
        if self.rested { 80 } else { 72 }
    }

    /// With a rest angle of each rotary, where it is not without any.
    pub fn resting(mut self, random: &mut Random) -> Self {
        self.rested = random.below(2) == 0;
        for rotary in &mut self.rotaries {
            rotary.rest = if self.rested { rest(random) } else { 0.0 };
        }
        self
    }

    /// The rotaries that the chain has. Of a count that no chain has, as many as it says.
    pub fn present(&self) -> impl Iterator<Item = &Rotary> {
        self.rotaries.iter().cycle().take(usize::from(self.count))
    }
}

pub fn push_numbers(bytes: &mut Vec<u8>, numbers: &[f64]) {
    for number in numbers {
        bytes.extend(number.to_le_bytes());
    }
}

/// A chain's bytes: mostly a whole chain's, or those of one that is refused, or of no chain at all.
pub fn chain_bytes(random: &mut Random) -> Vec<u8> {
    harmed_bytes(sound(random), random)
}

/// The same, of a chain that is given.
pub fn harmed_bytes(chain: Chain, random: &mut Random) -> Vec<u8> {
    let chain = harmed(chain, random);
    let mut bytes = chain.bytes();
    let no_count = chain.count != 1 && chain.count != 2;
    if random.below(32) == 0 || (no_count && random.below(2) == 0) {
        resize(&mut bytes, random);
    }
    bytes
}

/// A sound chain, or damaged.
fn harmed(mut chain: Chain, random: &mut Random) -> Chain {
    for _ in 0..damages(random) {
        damage(&mut chain, random);
    }
    if random.below(16) == 0 {
        breach(&mut chain, random);
    }
    chain
}

/// A chain that is served, but for the axes: those may be refused.
pub fn sound(random: &mut Random) -> Chain {
    let first = rotary(axis(random), random);
    let mut second = rotary(axis_beside(first.axis, random), random);
    if second.letter == first.letter {
        second.letter = b'A' + (first.letter - b'A' + 1) % 3;
    }
    let chain = Chain {
        count: random.one_of(&[1, 2, 2]),
        zeros: [0; 7],
        rotaries: [first, second],
        spindle: match random.below(4) {
            0 => axis_beside(first.axis, random),
            1 => [0.0, 0.0, 1.0],
            _ => axis(random),
        },
        rested: false,
    };
    chain.resting(random)
}

/// A rest angle that is served, often +0.0 or -0.0.
fn rest(random: &mut Random) -> f64 {
    match random.below(8) {
        0 | 1 => 0.0,
        2 => -0.0,
        3 => subnormal(random),
        4 => within(360.0, random),
        _ => served(MOST_REST, 720.0, random),
    }
}

fn rotary(axis: [f64; 3], random: &mut Random) -> Rotary {
    let limited = random.one_of(&[0, 1]);
    Rotary {
        letter: random.one_of(b"ABC"),
        carrier: random.one_of(&[0, 1]),
        limited,
        zeros: [0; 5],
        axis,
        pivot: pivot(random),
        limits: match limited {
            0 => [0.0; 2],
            _ => sound_limits(random),
        },
        rest: 0.0,
    }
}

fn pivot(random: &mut Random) -> [f64; 3] {
    match random.below(4) {
        0 => [0.0; 3],
        _ => [(); 3].map(|()| served(MOST_PIVOT, 1000.0, random)),
    }
}

fn sound_limits(random: &mut Random) -> [f64; 2] {
    let least = within(360.0, random);
    match random.below(8) {
        0 => [-f64::MAX, f64::MAX],
        1 => [least, least.next_up()],
        2 => [-0.0, subnormal(random).abs().next_up()],
        3 => [-36_000.0, 36_000.0],
        _ => [least, least + 1.0 + within(360.0, random).abs()],
    }
}

/// Limits that are refused.
fn bad_limits(random: &mut Random) -> [f64; 2] {
    let x = within(360.0, random);
    match random.below(8) {
        0 => [x, x],
        1 => [x.next_up(), x],
        2 => [x.abs(), -x.abs() - 1.0],
        3 => [-0.0, 0.0],
        4 => [0.0, -0.0],
        5 => [not_finite(random), x],
        6 => [x, not_finite(random)],
        _ => [not_finite(random), not_finite(random)],
    }
}

/// An axis, seldom one that is refused.
pub fn axis(random: &mut Random) -> [f64; 3] {
    match random.below(24) {
        0 => [(); 3].map(|()| near_smallest(random)),
        1 => [(); 3].map(|()| near_largest(random)),
        2 => {
            let scale = power_of_two(random.below(2046) as i64 - 1022);
            direction(random).map(|x| x * scale)
        }
        _ => usable_axis(random),
    }
}

/// An axis that is served, but for a few of whole numbers that are all 0.
pub fn usable_axis(random: &mut Random) -> [f64; 3] {
    match random.below(16) {
        0..=5 => {
            let mut axis = [0.0, -0.0, 0.0];
            axis[slot(random)] = signed(1.0, random);
            axis
        }
        6 => {
            let mut axis = direction(random);
            axis[slot(random)] = 0.0;
            axis
        }
        7 | 8 => [(); 3].map(|()| random.below(5) as f64 - 2.0),
        9 => {
            let scale = power_of_two(random.below(550) as i64 - 45);
            direction(random).map(|x| x * scale)
        }
        10 => {
            let mut axis = [(); 3].map(|()| tiny(random));
            axis[slot(random)] = signed(1.0, random);
            axis
        }
        _ => direction(random),
    }
}

/// Equal to an axis, opposite, parallel or nearly so, or any.
fn axis_beside(other: [f64; 3], random: &mut Random) -> [f64; 3] {
    match random.below(12) {
        0 => other,
        1 => other.map(|x| -x),
        2 => other.map(|x| x * 3.0),
        3 => other.map(|x| x * -0.125),
        4 => other.map(|x| x * (1.0 + within(1e-15, random))),
        _ => axis(random),
    }
}

/// Each component at most 1 in size, and one of them at least 1/16.
pub fn direction(random: &mut Random) -> [f64; 3] {
    let mut axis = [(); 3].map(|()| within(1.0, random));
    if axis.iter().all(|x| x.abs() < 1.0 / 16.0) {
        axis[slot(random)] = signed(0.5, random);
    }
    axis
}

fn near_smallest(random: &mut Random) -> f64 {
    let x = match random.below(6) {
        0 => 0.0,
        1 => tiny(random),
        2 | 3 => SMALLEST,
        _ => moved(SMALLEST, 2, random),
    };
    signed(x, random)
}

fn near_largest(random: &mut Random) -> f64 {
    let x = match random.below(6) {
        0 => 0.0,
        1 => 1.0,
        2 => LARGEST * 0.5,
        3 => within(LARGEST, random),
        _ => moved(LARGEST, 2, random),
    };
    signed(x, random)
}

fn tiny(random: &mut Random) -> f64 {
    match random.below(3) {
        0 => subnormal(random),
        1 => signed(1e-300, random),
        _ => within(power_of_two(-(random.below(1000) as i64)), random),
    }
}

/// A direction without a length that can be used: zero, or one that overflows.
pub fn bad_axis(random: &mut Random) -> [f64; 3] {
    match random.below(4) {
        0 => [0.0, -0.0, 0.0],
        1 => [(); 3].map(|()| within(SMALLEST, random)),
        2 => [signed(LARGEST, random), 0.0, signed(LARGEST, random)],
        _ => [0.0, signed(1e200, random), 1.0],
    }
}

pub fn slot(random: &mut Random) -> usize {
    random.below(3) as usize
}

/// Changes a field so that a check of the chain refuses it, where the field is read at all.
fn damage(chain: &mut Chain, random: &mut Random) {
    let rotary = &mut chain.rotaries[random.below(2) as usize];
    match random.below(16) {
        0 => rotary.letter = random.one_of(&[0, b'@', b'D', b'Z', b'a', 0xC1, 0xFF]),
        1 => chain.rotaries[1].letter = chain.rotaries[0].letter,
        2 => rotary.axis[slot(random)] = not_finite(random),
        3 => rotary.axis = bad_axis(random),
        4 => rotary.axis = [(); 3].map(|()| floats::any(random)),
        5 => rotary.pivot[slot(random)] = not_finite(random),
        6 => rotary.pivot[slot(random)] = refused(MOST_PIVOT, random),
        7 | 8 => {
            rotary.limited = 1;
            rotary.limits = bad_limits(random);
        }
        9 => chain.spindle[slot(random)] = not_finite(random),
        10 => chain.spindle = bad_axis(random),
        11 => chain.rotaries[0].pivot[slot(random)] = signed(MOST_PIVOT.next_up(), random),
        12 | 13 => (chain.rested, rotary.rest) = (true, not_finite(random)),
        14 => {
            chain.rested = true;
            rotary.rest = random.one_of(&[MOST_REST.next_up(), -MOST_REST.next_up()]);
        }
        _ => chain.count = random.one_of(&[0, 3, 4, 128, 255]),
    }
}

/// Changes a field to one that the bytes of a chain may not have.
fn breach(chain: &mut Chain, random: &mut Random) {
    let not_0 = 1 + random.below(255) as u8;
    let not_0_or_1 = 2 + random.below(254) as u8;
    let rotary = &mut chain.rotaries[random.below(2) as usize];
    match random.below(6) {
        0 => chain.zeros[random.below(7) as usize] = not_0,
        1 => rotary.carrier = not_0_or_1,
        2 => rotary.limited = not_0_or_1,
        3 => rotary.zeros[random.below(5) as usize] = not_0,
        _ => {
            rotary.limited = 0;
            let x = random.one_of(&[-0.0, f64::NAN, 1.0, f64::from_bits(1)]);
            rotary.limits[random.below(2) as usize] = x;
        }
    }
}

/// To a length that is not that of the count, or that of another count.
fn resize(bytes: &mut Vec<u8>, random: &mut Random) {
    let length = bytes.len() as u64;
    let length = match random.below(8) {
        0 => 0,
        1 => 1,
        2 => length - 1,
        3 => length + 1,
        4 => random.one_of(&[104, 112]),
        5 => random.one_of(&[176, 192]),
        6 => 104 + random.one_of(&[72, 80]) * random.below(4),
        _ => random.below(300),
    };
    bytes.resize(length as usize, 0);
}

#[cfg(test)]
mod tests {
    use super::*;

    #[test]
    fn fields_stand_where_the_document_has_them() {
        let mut chain = sound(&mut Random::new(1));
        (chain.count, chain.rested) = (2, false);
        chain.rotaries[1].letter = b'B';
        chain.rotaries[1].limits = [-7.0, 8.0];
        let bytes = chain.bytes();
        let number = |at: usize| f64::from_le_bytes(bytes[at..at + 8].try_into().unwrap());
        assert_eq!((bytes.len(), bytes[0], bytes[80]), (176, 2, b'B'));
        assert_eq!(number(80 + 8), chain.rotaries[1].axis[0]);
        assert_eq!(number(80 + 32), chain.rotaries[1].pivot[0]);
        assert_eq!((number(80 + 56), number(80 + 64)), (-7.0, 8.0));
        assert_eq!(number(152), chain.spindle[0]);
        chain.rested = true;
        chain.rotaries[1].rest = 9.0;
        let bytes = chain.bytes();
        let number = |at: usize| f64::from_le_bytes(bytes[at..at + 8].try_into().unwrap());
        assert_eq!((bytes.len(), bytes[88]), (192, b'B'));
        assert_eq!((number(88 + 64), number(88 + 72)), (8.0, 9.0));
        assert_eq!(number(168), chain.spindle[0]);
        chain.count = 1;
        assert_eq!(chain.bytes().len(), 112);
        chain.rested = false;
        assert_eq!(chain.bytes().len(), 104);
    }
}
