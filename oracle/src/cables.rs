//! The cable number: cases drawn at random, above all angles that are whole turns from the rest angle and a place beside them, a
//! call of the export, and what is expected of it. The chain is checked by the Rust, the number is counted in whole numbers.

use crate::angles::{moved, signed, within};
use crate::calls::{Guarded, LENT_AT, LENT_LETTER, Told};
use crate::chains::{Chain, harmed_bytes, sound};
use crate::floats::subnormal;
use crate::joints::{MOST_ANGLE, MOST_POSITION, joints, sound_joints};
use crate::maztubel;
use crate::numbers::{damages, not_finite, refused};
use crate::paths::JOINTS;
use crate::random::Random;
use crate::reading;
use crate::reference::{
    LENGTHS_DIFFER, NOT_FINITE, Refusal, TOO_LARGE, bare, chain_fits, finite, joints_fit,
    malformed, refusal, refused as refused_with,
};
use crate::rust::ported;
use std::fmt;

/// So many whole turns are in the largest difference of an angle and a rest angle.
#[cfg(test)]
const MOST_TURNS: u64 = 200;

pub struct Case {
    pub chain: Vec<u8>,
    pub joints: Vec<f64>,
    pub rotary: u64,
}

impl Case {
    /// Half of the time nothing is damaged, so that enough is served.
    pub fn drawn(random: &mut Random) -> Self {
        let damaged = random.below(2) == 0;
        let chain = sound(random);
        let mut joints = wound(&chain, random);
        if damaged {
            for _ in 0..damages(random) {
                damage(&mut joints, random);
            }
        }
        Case {
            chain: match damaged {
                true => harmed_bytes(chain, random),
                false => chain.bytes(),
            },
            joints,
            rotary: match random.below(8) {
                0 => random.one_of(&[2, 3, 1 << 32, (1 << 32) + 1, u64::MAX]),
                1 => random.bits(),
                _ => random.below(2),
            },
        }
    }
}

/// Joint sets that are served, none to some dozens, mostly few.
fn wound(chain: &Chain, random: &mut Random) -> Vec<f64> {
    let most = random.one_of(&[1, 2, 3, 4, 8, 50]);
    let mut joints = Vec::new();
    for _ in 0..random.below(most + 1) {
        let mut set = sound_joints(random);
        for (angle, rotary) in set[3..].iter_mut().zip(&chain.rotaries) {
            *angle = degrees(rotary.rest, random);
        }
        joints.extend(set);
    }
    joints
}

/// Often a whole number of turns from the rest angle, or a place more or less.
fn degrees(rest: f64, random: &mut Random) -> f64 {
    match random.below(8) {
        0 => random.one_of(&[0.0, -0.0]),
        1 => subnormal(random),
        2 => signed(MOST_ANGLE, random),
        3 => within(MOST_ANGLE, random),
        4 => within(720.0, random),
        _ => {
            let most = ((MOST_ANGLE + rest.abs()) / 360.0) as u64;
            let wind = signed(360.0 * (1 + random.below(most)) as f64, random);
            let angle = moved(rest + wind, 1, random);
            angle.clamp(-MOST_ANGLE, MOST_ANGLE)
        }
    }
}

fn damage(all: &mut Vec<f64>, random: &mut Random) {
    let length = all.len() as u64;
    if length == 0 || random.below(16) == 0 {
        let length = length.saturating_sub(4) + random.below(9);
        return all.resize(length as usize, 0.0);
    }
    let place = random.below(length) as usize;
    let most = match place % JOINTS {
        0..=2 => MOST_POSITION,
        _ => MOST_ANGLE,
    };
    match random.below(8) {
        0..=2 => all[place] = not_finite(random),
        3 => all[place] = signed(most.next_up(), random),
        4 => all[place] = signed(most, random),
        5 => {
            let set = place / JOINTS * JOINTS;
            all.splice(set..(set + JOINTS).min(length as usize), joints(random));
        }
        _ => all[place] = refused(most, random),
    }
}

/// The largest whole k with 360 k at most the size of a finite difference: that many times 360 are in its whole part, since 360 is
/// whole.
pub fn turns(wind: f64) -> u64 {
    let bits = wind.to_bits() & (u64::MAX >> 1);
    let (exponent, digits) = (bits >> 52, bits & ((1 << 52) - 1));
    let (digits, exponent) = match exponent {
        0 => (digits, 1),
        _ => (digits | 1 << 52, exponent),
    };
    let whole = match exponent.checked_sub(1075) {
        Some(up) => u128::from(digits) << up,
        None => u128::from(digits.checked_shr(1075 - exponent as u32).unwrap_or(0)),
    };
    (whole / 360) as u64
}

/// The difference of each angle and the rest angle, taken once in floats.
pub fn winds(chain: &Chain, joints: &[f64], rotary: usize) -> impl Iterator<Item = f64> {
    let rest = chain.rotaries[rotary].rest;
    joints.chunks(JOINTS).map(move |set| set[3 + rotary] - rest)
}

pub fn expected(case: &Case) -> Result<u64, Refusal> {
    if !case.joints.len().is_multiple_of(JOINTS) {
        return refused_with(LENGTHS_DIFFER);
    }
    let chain = reading::chain(&case.chain).map_err(malformed)?;
    let machine = bare(&chain);
    ported::check(&ported::kinematics(&machine)).map_err(|words| refusal(&words, &machine))?;
    if !finite(&case.joints) {
        return refused_with(NOT_FINITE);
    }
    if !chain_fits(&chain) || !case.joints.chunks(JOINTS).all(joints_fit) {
        return refused_with(TOO_LARGE);
    }
    if case.rotary >= u64::from(chain.count) {
        return Ok(0);
    }
    let each = winds(&chain, &case.joints, case.rotary as usize).map(turns);
    Ok(each.max().unwrap_or(0))
}

/// Calls the export. Each input stands between guards too, and all must stand as it did afterwards.
pub fn ask(case: &Case) -> Told {
    let (chain, joints) = (Guarded::bytes(&case.chain), Guarded::numbers(&case.joints));
    let (mut lent, mut at, mut letter) = ([LENT_AT; 3], [LENT_AT; 3], [LENT_LETTER; 3]);
    let number = maztubel::cable_number(
        chain.inner(),
        joints.inner(),
        case.rotary,
        &mut lent[1],
        &mut at[1],
        &mut letter[1],
    );
    let kept = chain.kept() && joints.kept();
    assert!(kept, "an input was written to: {case}");
    Told {
        number,
        at,
        letter,
        numbers: lent.to_vec(),
    }
}

/// What the call tells where it answers as it must.
pub fn telling(answer: &Result<u64, Refusal>) -> Told {
    let (number, at, lent) = match answer {
        Ok(turns) => (0, 0, *turns),
        Err(refusal) => (refusal.number, refusal.at, LENT_AT),
    };
    Told {
        number,
        at: [LENT_AT, at, LENT_AT],
        letter: [LENT_LETTER, 0, LENT_LETTER],
        numbers: vec![LENT_AT, lent, LENT_AT],
    }
}

/// Every input as bits.
impl fmt::Display for Case {
    fn fmt(&self, f: &mut fmt::Formatter<'_>) -> fmt::Result {
        let chain = self.chain.iter().map(|byte| format!("{byte:02X}"));
        let joints = self.joints.iter().map(|x| format!("{:016X}", x.to_bits()));
        let joints = joints.collect::<Vec<_>>().join(" ");
        let chain: String = chain.collect();
        write!(
            f,
            "chain [{chain}] joints [{joints}] rotary {}",
            self.rotary
        )
    }
}

#[cfg(test)]
mod tests {
    use super::*;

    /// By steps of 360, which are exact.
    #[test]
    fn turns_are_counted() {
        for k in 0..=MOST_TURNS {
            let angle = 360.0 * k as f64;
            assert_eq!([turns(angle), turns(-angle)], [k, k]);
            assert_eq!(turns(angle.next_up()), k);
            assert_eq!(turns(angle.abs().next_down().max(0.0)), k.saturating_sub(1));
        }
        assert_eq!(turns(f64::from_bits(1)), 0);
        assert_eq!(turns(360.0 * 2f64.powi(60)), 1 << 60);
    }
}
