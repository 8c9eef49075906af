//! Calls of the exports that take a job's bytes, and what is expected of them: the reader of tools/job says what the bytes are, which
//! is written from document 01 and shares nothing with what is compared; document 01 says the rest, the lengths (20) and the
//! space (28).

use crate::calls::{GUARD, LENT, LENT_AT, LENT_LETTER, Told};
use crate::maztubel;
use crate::paths::POSE;
use job::{Breach, Job, POSE as POSE_BYTES};

/// What the reader of tools/job says.
pub type Read = Result<Job, Breach>;

/// The definition's one nan, as its `toBits` writes it. It has no sign and no digits, so that any nan may stand for it
/// in memory.
const ONE_NAN: u64 = 0x7FF8_0000_0000_0000;

/// The bits of a number that was read.
fn as_read(x: f64) -> u64 {
    if x.is_nan() { ONE_NAN } else { x.to_bits() }
}

/// The bits of a number that was lent, which no call leaves as they were but where it keeps it.
fn as_left(x: f64) -> u64 {
    match x.to_bits() {
        LENT => LENT,
        _ => as_read(x),
    }
}

/// Calls the reader. The lent numbers are the chain's place and length, the poses' place and count, then the cone and the two
/// tolerances, each with a number before and behind it that no call may write to.
pub fn ask_read(bytes: &[u8]) -> Told {
    let mut places = [LENT_AT; 9];
    let mut numbers = [f64::from_bits(LENT); 7];
    let mut at = [LENT_AT; 3];
    let [_, chain_at, _, chain_length, _, poses_at, _, count, _] = &mut places;
    let [_, cone, _, chord, _, axis, _] = &mut numbers;
    let number = maztubel::read_job(
        bytes,
        [chain_at, chain_length, poses_at, count],
        [cone, chord, axis],
        &mut at[1],
    );
    Told {
        number,
        at,
        letter: [LENT_LETTER; 3],
        numbers: [&places[..], &numbers.map(as_left)].concat(),
    }
}

/// What the reader tells where it answers as it must.
pub fn telling_read(read: &Read) -> Told {
    let mut places = [LENT_AT; 9];
    let mut numbers = [LENT; 7];
    if let Ok(job) = read {
        let count = job.poses.len() / POSE_BYTES;
        let read = [job.chain.start, job.chain.len(), job.poses.start, count];
        for (i, place) in read.iter().enumerate() {
            places[1 + 2 * i] = *place as u64;
        }
        for (i, number) in [job.cone, job.chord, job.axis].iter().enumerate() {
            numbers[1 + 2 * i] = as_read(*number);
        }
    }
    let refusal = read.as_ref().err();
    Told {
        number: refusal.map_or(0, |breach| breach.number),
        at: [
            LENT_AT,
            refusal.map_or(0, |breach| breach.at as u64),
            LENT_AT,
        ],
        letter: [LENT_LETTER; 3],
        numbers: [&places[..], &numbers].concat(),
    }
}

/// Calls for the poses, with room for so many numbers.
pub fn ask_poses(bytes: &[u8], room: usize) -> Told {
    let mut numbers = vec![f64::from_bits(LENT); GUARD + room + GUARD];
    let mut at = [LENT_AT; 3];
    let lent = &mut numbers[GUARD..GUARD + room];
    let number = maztubel::job_poses(bytes, lent, &mut at[1]);
    Told {
        number,
        at,
        letter: [LENT_LETTER; 3],
        numbers: numbers.into_iter().map(as_left).collect(),
    }
}

/// The poses' numbers; or a refusal, and the offset or the rotary that goes with it.
pub fn expected_poses(bytes: &[u8], read: &Read, room: usize) -> Result<Vec<f64>, (u32, usize)> {
    if !room.is_multiple_of(POSE) {
        return Err((20, 0));
    }
    let job = read.as_ref().map_err(|breach| (breach.number, breach.at))?;
    let poses = job.numbers(bytes);
    if room < poses.len() {
        return Err((28, 0));
    }
    Ok(poses)
}

/// What the call for the poses tells where it answers as it must.
pub fn telling_poses(answer: &Result<Vec<f64>, (u32, usize)>, room: usize) -> Told {
    let mut numbers = vec![LENT; GUARD + room + GUARD];
    let (number, at) = match answer {
        Ok(poses) => {
            let lent = &mut numbers[GUARD..GUARD + room];
            lent.fill(0);
            for (bits, x) in lent.iter_mut().zip(poses) {
                *bits = as_read(*x);
            }
            (0, 0)
        }
        Err((number, at)) => (*number, *at as u64),
    };
    Told {
        number,
        at: [LENT_AT, at, LENT_AT],
        letter: [LENT_LETTER; 3],
        numbers,
    }
}
