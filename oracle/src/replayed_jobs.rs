//! Cases of the job's reader, of its poses, of its writer and of the cable number. What the bytes say is told by the
//! reader of tools/job, and a job that is written is packed by `writes`; document 01 has the rest: the space for poses,
//! and the cable number, which the Rust has not.

use crate::angles::{moved, signed};
use crate::chains::{self, Chain, harmed_bytes};
use crate::floats;
use crate::joints::{MOST_ANGLE, joints, sound_joints};
use crate::random::Random;
use crate::reading;
use crate::reference::{
    LENGTHS_DIFFER, NOT_FINITE, Refusal, TOO_LARGE, bare, chain_fits, finite, joints_fit,
    malformed, refusal, refused,
};
use crate::replayed::{FILLED, FILLED_COUNT, Given, Line, Replayed};
use crate::rust::ported;
use crate::writes::{self, Case};
use std::fs;
use std::path::Path;

const POSE: usize = 6;
const JOINTS: usize = 5;
const NO_SPACE: u32 = 28;

/// The program lends at most so many bytes for a job.
const MOST_ROOM: usize = 1024;

/// Every job of examples/jobs, in the order of their names.
pub fn examples() -> Vec<Vec<u8>> {
    let folder = Path::new(env!("CARGO_MANIFEST_DIR")).join("../examples/jobs");
    let files = fs::read_dir(folder).expect("examples/jobs");
    let mut jobs: Vec<_> = files
        .map(|file| file.expect("a file of examples/jobs").path())
        .filter(|file| file.extension().is_some_and(|kind| kind == "job"))
        .collect();
    jobs.sort();
    let bytes = jobs.iter().map(|job| fs::read(job).expect("a job"));
    bytes.collect()
}

/// A job: chain and poses in either order, with bytes between; half of the time damaged.
pub fn job(random: &mut Random) -> Vec<u8> {
    let chain = chains::sound(random);
    let word = usize::from(chain.rested);
    let chain = chain.bytes();
    let count = random.below(5) as usize;
    let poses = some_numbers(POSE * count, random);
    let mut bytes = Vec::new();
    let (chain_at, poses_at);
    if random.below(2) == 0 {
        chain_at = put(&chain, &mut bytes, random);
        poses_at = put(&poses, &mut bytes, random);
    } else {
        poses_at = put(&poses, &mut bytes, random);
        chain_at = put(&chain, &mut bytes, random);
    }
    bytes.extend(some_bytes(random));
    for word in [chain_at, poses_at, count, word] {
        bytes.extend((word as u32).to_le_bytes());
    }
    bytes.extend(some_numbers(3, random));
    if random.below(2) == 0 {
        damage(&mut bytes, chain_at, random);
    }
    bytes
}

/// Behind a few bytes. Where it stands.
fn put(part: &[u8], bytes: &mut Vec<u8>, random: &mut Random) -> usize {
    bytes.extend(some_bytes(random));
    let at = bytes.len();
    bytes.extend(part);
    at
}

fn some_numbers(count: usize, random: &mut Random) -> Vec<u8> {
    (0..count)
        .flat_map(|_| floats::any(random).to_le_bytes())
        .collect()
}

fn some_bytes(random: &mut Random) -> Vec<u8> {
    let length = random.below(10).saturating_sub(4);
    (0..length).map(|_| random.bits() as u8).collect()
}

/// Changes a byte of the chain's fields or of the trailer's, or cuts the bytes.
fn damage(bytes: &mut Vec<u8>, chain: usize, random: &mut Random) {
    let trailer = bytes.len() - 40;
    let byte = random.bits() as u8;
    match random.below(8) {
        0 => bytes[chain] = byte,
        1 => bytes[chain + 1 + random.below(7) as usize] = byte,
        2 => bytes[chain + 8 + random.below(8) as usize] = byte,
        3 => bytes[chain + 64 + random.below(16) as usize] = byte,
        4 => bytes[trailer + 4 * random.below(4) as usize] = byte,
        5 => bytes[trailer + random.below(16) as usize] = byte,
        6 => {
            let word = random.one_of(&[trailer as u32, u32::MAX, trailer as u32 - 1, 0]);
            let at = trailer + 4 * random.below(3) as usize;
            bytes[at..at + 4].copy_from_slice(&word.to_le_bytes());
        }
        _ => bytes.truncate(random.below(bytes.len() as u64) as usize),
    }
}

/// What the trailer says.
pub fn of_reader(bytes: &[u8]) -> Option<Replayed> {
    let entry = "read_job";
    let line = match job::read(bytes) {
        Ok(job) => {
            let count = job.poses.len() / job::POSE;
            let places = [job.chain.start, job.chain.len(), job.poses.start, count];
            let line = Line::new(entry, 0, 0, 0);
            let line = places.iter().fold(line, |line, n| line.count(*n as u64));
            line.numbers(&[job.cone, job.chord, job.axis])
        }
        Err(breach) => {
            let line = Line::new(entry, breach.number, breach.at as u64, 0);
            let line = (0..4).fold(line, |line, _| line.count(FILLED_COUNT));
            line.numbers(&[FILLED; 3])
        }
    };
    let given = Given {
        bytes,
        ..Given::default()
    };
    Replayed::new(line, &given)
}

/// The poses, in a room that is drawn.
pub fn of_poses(bytes: &[u8], random: &mut Random) -> Option<Replayed> {
    let read = job::read(bytes);
    let count = read.as_ref().map_or(0, |job| job.poses.len() / job::POSE);
    let room = match random.below(8) {
        0 => random.below(40) as usize,
        1 => POSE * count.saturating_sub(1),
        2 | 3 => POSE * (count + random.below(3) as usize),
        _ => POSE * count,
    };
    let (number, at, numbers) = match read {
        _ if !room.is_multiple_of(POSE) => (LENGTHS_DIFFER, 0, None),
        Err(breach) => (breach.number, breach.at, None),
        Ok(_) if room / POSE < count => (NO_SPACE, 0, None),
        Ok(job) => (0, 0, Some(job.numbers(bytes))),
    };
    let lent = match numbers {
        Some(mut numbers) => {
            numbers.resize(room, 0.0);
            numbers
        }
        None => vec![FILLED; room],
    };
    let line = Line::new("job_poses", number, at as u64, 0).numbers(&lent);
    let given = Given {
        bytes,
        rooms: [room, 0],
        ..Given::default()
    };
    Replayed::new(line, &given)
}

/// A job that is written, sound or with faults, in a room that the program has.
pub fn of_write(random: &mut Random) -> Option<Replayed> {
    let case = match random.below(2) {
        0 => Case::sound(random),
        _ => Case::faulty(random),
    };
    if case.room > MOST_ROOM {
        return None;
    }
    let (answer, length, mut bytes) = match writes::expected(&case) {
        Ok(job) => (Refusal { number: 0, at: 0 }, job.len(), job),
        Err(refusal) => (refusal, 0, vec![]),
    };
    bytes.resize(case.room, FILLED_COUNT as u8);
    let words = bytes.chunks_exact(8);
    let words = words.map(|eight| f64::from_le_bytes(eight.try_into().expect("8 bytes")));
    let words: Vec<f64> = words.collect();
    let line = Line::new("write_job", answer.number, answer.at, 0);
    let line = line.count(length as u64).numbers(&words);
    let given = Given {
        which: case.room as u16,
        bytes: &case.chain,
        numbers: [&case.poses, &[], &case.numbers],
        ..Given::default()
    };
    Replayed::new(line, &given)
}

/// The cable number, of a rotary that the chain has or lacks.
pub fn of_cable(random: &mut Random) -> Option<Replayed> {
    let sound = random.below(2) == 0;
    let drawn = chains::sound(random);
    let chain = match sound {
        true => drawn.bytes(),
        false => harmed_bytes(drawn, random),
    };
    let mut path: Vec<f64> = Vec::new();
    for _ in 0..random.below(5) {
        let set = match sound || random.below(2) == 0 {
            true => wound(&drawn, random),
            false => joints(random),
        };
        path.extend(set);
    }
    let rotary = random.one_of(&[0, 0, 0, 0, 1, 1, 1, 2, u16::MAX]);
    let (answer, number) = match cable_number(&chain, &path, usize::from(rotary)) {
        Ok(turns) => (Refusal { number: 0, at: 0 }, turns),
        Err(refusal) => (refusal, FILLED_COUNT),
    };
    let line = Line::new("cable_number", answer.number, answer.at, 0).count(number);
    let given = Given {
        which: rotary,
        bytes: &chain,
        numbers: [&path, &[], &[]],
        ..Given::default()
    };
    Replayed::new(line, &given)
}

/// Joints that are served, at times with an angle at a whole number of turns from the rest angle, or a place from it.
fn wound(chain: &Chain, random: &mut Random) -> Vec<f64> {
    let mut set = sound_joints(random);
    if random.below(2) == 0 {
        let turns = 360.0 * (1 + random.below(99)) as f64;
        let slot = random.below(2) as usize;
        let angle = chain.rotaries[slot].rest + signed(turns, random);
        set[3 + slot] = moved(angle, 1, random).clamp(-MOST_ANGLE, MOST_ANGLE);
    }
    set
}

/// The largest whole k with 360 k at most the size of some difference from the rest angle: whole degrees are compared, since a
/// division rounds.
fn cable_number(chain: &[u8], joints: &[f64], rotary: usize) -> Result<u64, Refusal> {
    if !joints.len().is_multiple_of(JOINTS) {
        return refused(LENGTHS_DIFFER);
    }
    let chain = reading::chain(chain).map_err(malformed)?;
    let machine = bare(&chain);
    ported::check(&ported::kinematics(&machine)).map_err(|words| refusal(&words, &machine))?;
    if !finite(joints) {
        return refused(NOT_FINITE);
    }
    if !chain_fits(&chain) || !joints.chunks(JOINTS).all(joints_fit) {
        return refused(TOO_LARGE);
    }
    if rotary >= usize::from(chain.count) {
        return Ok(0);
    }
    let rest = chain.rotaries[rotary].rest;
    let whole = |set: &[f64]| (set[3 + rotary] - rest).abs().floor() as u64;
    let degrees = joints.chunks(JOINTS).map(whole).max();
    Ok(degrees.map_or(0, |degrees| degrees / 360))
}
