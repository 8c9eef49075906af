//! Damage to a job's bytes: to each field of the trailer and of the chain, above all by one byte too many or too few, to any byte,
//! and to the length.

use crate::chains::slot;
use crate::jobs::{RESTED_ONE, RESTED_TWO, Written, number};
use crate::random::Random;
use job::{MOST_BYTES, POSE, TRAILER};

/// The smallest count whose poses take more bytes than 32 bits can say.
const WRAPPING: usize = (1 << 32) / POSE + 1;

/// The words of the trailer.
const CHAIN_OFFSET: usize = 0;
const POSE_OFFSET: usize = 1;
const POSE_COUNT: usize = 2;
const WORD: usize = 3;

/// Changes a field, mostly so that the reader refuses it.
pub fn damage(job: &mut Written, random: &mut Random) {
    match random.below(8) {
        0..=2 => damage_trailer(job, random),
        3..=6 => damage_chain(job, random),
        _ => {
            let place = random.below(job.bytes.len() as u64) as usize;
            job.set(place, random.bits() as u8);
        }
    }
}

fn damage_trailer(job: &mut Written, random: &mut Random) {
    let trailer = job.trailer();
    match random.below(8) {
        0 | 1 => job.set_word(CHAIN_OFFSET, chain_offset(job, random)),
        2..=4 => job.set_word(POSE_OFFSET, pose_offset(job, random)),
        5 => job.set_word(POSE_COUNT, pose_count(job, random)),
        6 => {
            let bit = 1 << random.below(32);
            job.set_word(WORD, random.one_of(&[0, 1, 2, 3, bit, bit]));
        }
        _ => job.set_number(trailer + 16 + 8 * slot(random), number(random)),
    }
}

fn damage_chain(job: &mut Written, random: &mut Random) {
    let start = job.chain.start;
    let rested = [RESTED_ONE, RESTED_TWO].contains(&job.chain.len());
    let record = if rested { 80 } else { 72 };
    let rotary = start + 8 + record * random.below(2) as usize;
    let not_0 = 1 + random.below(255) as u8;
    let not_0_or_1 = 2 + random.below(254) as u8;
    match random.below(9) {
        0 => job.set(start, random.one_of(&[0, 1, 2, 3, 4, 128, 255])),
        1 => job.set(start + 1 + random.below(7) as usize, not_0),
        2 => job.set(rotary, random.one_of(b"@DZabc\0\xC1\xFF")),
        3 => job.set(rotary + 1, not_0_or_1),
        4 => job.set(rotary + 2, random.one_of(&[0, 1, not_0_or_1, not_0_or_1])),
        5 => job.set(rotary + 3 + random.below(5) as usize, not_0),
        6 | 7 => {
            let any = number(random);
            let unused = random.one_of(&[-0.0, f64::from_bits(1), 1.0, any]);
            job.set(rotary + 2, 0);
            job.set_number(rotary + 56 + 8 * random.below(2) as usize, unused);
        }
        _ => job.set_number(start + 8 + 8 * random.below(22) as usize, number(random)),
    }
}

/// At an end of where the chain may be, or a byte away; or anywhere.
fn chain_offset(job: &Written, random: &mut Random) -> u32 {
    let (trailer, length) = (job.trailer(), job.chain.len());
    let places = [
        0,
        trailer,
        trailer.wrapping_sub(length),
        job.poses.end,
        job.poses.start.wrapping_sub(length),
        usize::MAX,
    ];
    beside(&places, trailer, random)
}

/// At an end of where the poses may be, or a byte away, so that they have one byte with the chain or the trailer; or anywhere.
fn pose_offset(job: &Written, random: &mut Random) -> u32 {
    let (trailer, length) = (job.trailer(), job.poses.len());
    let places = [
        0,
        trailer,
        trailer.wrapping_sub(length),
        job.chain.end,
        job.chain.start,
        job.chain.start.wrapping_sub(length),
        usize::MAX,
    ];
    beside(&places, trailer, random)
}

/// As many as there are or as fit, or one more or less; or so many that their bytes pass 32 bits.
fn pose_count(job: &Written, random: &mut Random) -> u32 {
    let count = job.poses.len() / POSE;
    let fitting = job.trailer().saturating_sub(job.poses.start) / POSE;
    beside(&[0, count, fitting, WRAPPING, usize::MAX], 2000, random)
}

fn beside(places: &[usize], usual: usize, random: &mut Random) -> u32 {
    let places_and_one = random.below(places.len() as u64 + 2) as usize;
    let place = match places.get(places_and_one) {
        Some(place) => *place,
        None if places_and_one == places.len() => random.below(usual as u64 + 1) as usize,
        None => random.bits() as usize,
    };
    (place as u32)
        .wrapping_add(random.below(3) as u32)
        .wrapping_sub(1)
}

/// Cuts or lengthens the file at its end or at its beginning.
pub fn resize(bytes: &mut Vec<u8>, random: &mut Random) {
    let length = bytes.len();
    let cut = random.below(length as u64) as usize;
    let byte = random.bits() as u8;
    match random.below(16) {
        0..=3 => bytes.resize(random.below(TRAILER as u64 + 8) as usize, byte),
        4 => bytes.truncate(length - 1),
        5 => bytes.truncate(cut),
        6 => drop(bytes.drain(..cut)),
        7..=9 => drop(bytes.remove(0)),
        10 | 11 => bytes.insert(0, byte),
        12..=14 => bytes.push(byte),
        _ => {
            let long = MOST_BYTES + random.below(3) as usize - 1;
            bytes.splice(..0, vec![byte; long.saturating_sub(length)]);
        }
    }
}

impl Written {
    /// A byte of the file, where it has it.
    fn set(&mut self, place: usize, byte: u8) {
        if let Some(old) = self.bytes.get_mut(place) {
            *old = byte;
        }
    }

    fn set_all(&mut self, place: usize, bytes: &[u8]) {
        for (i, byte) in bytes.iter().enumerate() {
            self.set(place + i, *byte);
        }
    }

    fn set_word(&mut self, field: usize, word: u32) {
        self.set_all(self.trailer() + 4 * field, &word.to_le_bytes());
    }

    fn set_number(&mut self, place: usize, number: f64) {
        self.set_all(place, &number.to_le_bytes());
    }
}
