//! What a call of inverse or choose is given, drawn at random: a chain, a pose, a tool length, a hint and a choice, sound or
//! damaged in each field.

use crate::angles::{moved, signed, within};
use crate::chains::{Chain, harmed_bytes};
use crate::joints::{MOST_ANGLE, sound_tool_length, tool_length};
use crate::numbers::{damages, not_finite, refused, served};
use crate::random::Random;
use crate::reference::bare;
use crate::rust::ported;
use crate::targets::{angle, chain, target};
use std::fmt;

/// The largest component of a tip that is served.
pub const MOST_TIP: f64 = 100_000.0;

/// How many numbers a pose, a hint, the list and a joint set have.
pub const POSE: usize = 6;
pub const HINT: usize = 2;
pub const LIST: usize = 250;
pub const JOINTS: usize = 5;

#[derive(Clone, Copy, Debug, PartialEq)]
pub enum Entry {
    Inverse,
    Choose,
}

impl Entry {
    pub const ALL: [Entry; 2] = [Entry::Inverse, Entry::Choose];

    pub fn name(self) -> &'static str {
        match self {
            Entry::Inverse => "inverse",
            Entry::Choose => "choose",
        }
    }

    /// How many numbers are written.
    pub fn asked_room(self) -> usize {
        match self {
            Entry::Inverse => LIST,
            Entry::Choose => JOINTS,
        }
    }
}

/// All inputs of a call. `missing` is how many numbers the lent answer lacks; below 0 it has some too many.
#[derive(Clone, Debug)]
pub struct Case {
    pub chain: Vec<u8>,
    pub pose: Vec<f64>,
    pub tool_length: f64,
    pub hint: Vec<f64>,
    pub choice: u32,
    pub missing: i64,
}

impl Case {
    /// Two of three times nothing is damaged, so that enough is served.
    pub fn new(random: &mut Random) -> Self {
        let mut chain = chain(random);
        let axis = target(&chain, random);
        let tip = [(); 3].map(|()| served(MOST_TIP, 1000.0, random));
        let pose: Vec<f64> = tip.into_iter().chain(axis).collect();
        let hint = [hint(random), hint(random)];
        if random.below(12) == 0 {
            meet_limits(&mut chain, &pose, hint, random);
        }
        let mut case = Case {
            chain: chain.bytes(),
            pose,
            tool_length: sound_tool_length(random),
            hint: hint.to_vec(),
            choice: random.below(3) as u32,
            missing: 0,
        };
        if random.below(3) == 0 {
            case.damage(&chain, random);
        }
        case
    }

    fn damage(&mut self, chain: &Chain, random: &mut Random) {
        self.chain = harmed_bytes(*chain, random);
        self.tool_length = tool_length(random);
        for _ in 0..damages(random) {
            match random.below(6) {
                0 | 1 => self.pose[random.below(3) as usize] = refused(MOST_TIP, random),
                2 => self.pose[3 + random.below(3) as usize] = not_finite(random),
                3 | 4 => self.hint[random.below(2) as usize] = refused(MOST_ANGLE, random),
                _ => self.pose[3..].fill(random.one_of(&[0.0, -0.0, 1e-15, 1e200])),
            }
        }
        match random.below(64) {
            0 => self.pose.resize(random.one_of(&[0, 3, 5, 7, 12]), 0.0),
            1 => self.hint.resize(random.one_of(&[0, 1, 3, 5]), 0.0),
            2 => self.missing = random.one_of(&[5, 1, -1, -5, i64::MAX]),
            3 => self.choice = random.one_of(&[3, 4, 255, u32::MAX]),
            _ => (),
        }
    }

    pub fn room(&self, entry: Entry) -> usize {
        (entry.asked_room() as i64)
            .saturating_sub(self.missing)
            .max(0) as usize
    }
}

/// A hint that is served.
fn hint(random: &mut Random) -> f64 {
    match random.below(8) {
        0 | 1 => 0.0,
        2 => signed(MOST_ANGLE, random),
        3 => within(MOST_ANGLE, random),
        4 => within(720.0, random),
        5 => served(MOST_ANGLE, 360.0, random),
        _ => angle(random),
    }
}

/// Gives a rotary limits of which one is an angle of an answer, or the next double.
fn meet_limits(chain: &mut Chain, pose: &[f64], hint: [f64; 2], random: &mut Random) {
    let mut free = *chain;
    for rotary in &mut free.rotaries {
        rotary.limited = 0;
    }
    let sets = ported::inverse(&ported::kinematics(&bare(&free)), pose, 0.0, hint);
    let Ok(sets) = sets else { return };
    let slot = random.below(u64::from(chain.count)) as usize;
    let turns = 360.0 * (random.below(5) as f64 - 2.0);
    let angle = random.one_of(&sets)[3 + slot] + turns;
    let limit = match angle {
        0.0 => random.one_of(&[0.0, -0.0, f64::from_bits(1), -f64::from_bits(1)]),
        _ => moved(angle, 1, random),
    };
    let wide = random.one_of(&[1.0, 360.0, 720.0, 2000.0]);
    let rotary = &mut chain.rotaries[slot];
    rotary.limited = 1;
    rotary.limits = match random.below(2) {
        0 => [limit, limit + wide],
        _ => [limit - wide, limit],
    };
}

/// Every input as bits.
impl fmt::Display for Case {
    fn fmt(&self, f: &mut fmt::Formatter<'_>) -> fmt::Result {
        let digits: String = self
            .chain
            .iter()
            .map(|byte| format!("{byte:02X}"))
            .collect();
        write!(f, "chain [{digits}] pose [{}] ", spelled(&self.pose))?;
        write!(f, "tool length {} ", spelled(&[self.tool_length]))?;
        write!(f, "hint [{}] choice {} ", spelled(&self.hint), self.choice)?;
        write!(f, "missing {}", self.missing)
    }
}

fn spelled(numbers: &[f64]) -> String {
    let each = numbers.iter().map(|x| format!("{:016X}", x.to_bits()));
    each.collect::<Vec<_>>().join(" ")
}
