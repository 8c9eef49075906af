//! Writing a job: cases drawn at random, a call of the export, and what is expected of it. The chain's bytes are read
//! and its fields put together again by this crate's own code, and the Rust checks the chain; the order of the checks,
//! the sizes and the space are R-1's. So the job that is expected shares nothing with the one that is written.

use crate::angles::within;
use crate::calls::{GUARD, Guarded, LENT_AT, LENT_LETTER};
use crate::chains::{Chain, MOST_REST, chain_bytes, push_numbers, slot, sound};
use crate::floats::{self, subnormal};
use crate::jobs::Content;
use crate::maztubel::{self, Parts};
use crate::numbers::{not_finite, refused as oversized, served};
use crate::paths::{MOST_TIP, POSE};
use crate::random::Random;
use crate::reading;
use crate::reference::{
    LENGTHS_DIFFER, NOT_FINITE, Refusal, TOO_LARGE, bare, chain_fits, exceeds, finite, malformed,
    refusal, refused,
};
use crate::rust::ported;
use job::{MOST_BYTES, TRAILER};
use std::fmt;

pub const CONE: u32 = 18;
pub const TOLERANCE: u32 = 19;
pub const NO_SPACE: u32 = 28;

/// The cone in degrees is at most this.
const MOST_CONE: f64 = 10.0;

/// The longest jobs have one rotary and so many poses, or two and two poses fewer.
pub const MOST_POSES: usize = 1362;

/// What a job is written from, the numbers being the cone and the two tolerances; and how many bytes are lent.
#[derive(Clone)]
pub struct Case {
    pub chain: Vec<u8>,
    pub poses: Vec<f64>,
    pub numbers: [f64; 3],
    pub room: usize,
}

/// What can be at fault, in the order of the checks.
#[derive(Clone, Copy, Debug, PartialEq, Eq)]
pub enum Fault {
    Records,
    Chain,
    Cone,
    Chord,
    Axis,
    NotFinite,
    Size,
    Space,
}

pub const FAULTS: [Fault; 8] = [
    Fault::Records,
    Fault::Chain,
    Fault::Cone,
    Fault::Chord,
    Fault::Axis,
    Fault::NotFinite,
    Fault::Size,
    Fault::Space,
];

impl Case {
    /// A job that is written, in a room that is as long as it, one byte longer, or more.
    pub fn sound(random: &mut Random) -> Self {
        let chain = served_chain(random);
        let poses = poses(count(&chain, random), random);
        let mut case = Case {
            chain,
            poses,
            numbers: [cone(random), positive(random), positive(random)],
            room: 0,
        };
        let more = random.below(100) as usize;
        case.room = case.length() + random.one_of(&[0, 0, 1, 2, more]);
        case
    }

    /// With this fault and every later one.
    pub fn faulty_from(first: usize, random: &mut Random) -> Self {
        Case::sound(random).with(&FAULTS[first..], random)
    }

    /// With some of the faults, and a chain that may be refused.
    pub fn faulty(random: &mut Random) -> Self {
        let mut case = Case::sound(random);
        if random.below(4) == 0 {
            case.chain = chain_bytes(random);
            case.room = case.length();
        }
        let faults: Vec<Fault> = FAULTS
            .into_iter()
            .filter(|_| random.below(4) == 0)
            .collect();
        case.with(&faults, random)
    }

    /// As many bytes as the job has, where it is one.
    pub fn length(&self) -> usize {
        as_written(&self.chain).len() + 8 * self.poses.len() + TRAILER
    }

    /// With the chain's bytes as they stand in the job.
    pub fn in_job(&self) -> Self {
        Case {
            chain: as_written(&self.chain),
            ..self.clone()
        }
    }

    /// The last first, so that the room is short for a job that nothing else changes.
    fn with(mut self, faults: &[Fault], random: &mut Random) -> Self {
        let beside = self.room - self.length();
        for fault in faults.iter().rev() {
            self.fault(*fault, random);
        }
        self.room = match faults.contains(&Fault::Space) {
            true => self.short_room(random),
            false => self.length() + beside,
        };
        self
    }

    fn short_room(&self, random: &mut Random) -> usize {
        let length = self.length();
        match random.below(4) {
            0 => random.below(length as u64) as usize,
            1 => random.one_of(&[0, 1, TRAILER, length - TRAILER]),
            _ => length - 1,
        }
    }

    fn fault(&mut self, fault: Fault, random: &mut Random) {
        match fault {
            Fault::Records => {
                let more = 1 + random.below(5) as usize;
                self.poses.resize(self.poses.len() + more, 0.0);
            }
            Fault::Chain => self.chain = refused_chain(random),
            Fault::Cone => self.numbers[0] = bad_cone(random),
            Fault::Chord => self.numbers[1] = not_positive(random),
            Fault::Axis => self.numbers[2] = not_positive(random),
            Fault::NotFinite => *self.some_number(POSE as u64, random) = not_finite(random),
            Fault::Size => self.oversize(random),
            Fault::Space => {}
        }
    }

    /// One of the first `of` numbers of some pose; one is added where there is none.
    fn some_number(&mut self, of: u64, random: &mut Random) -> &mut f64 {
        if self.poses.is_empty() {
            self.poses = poses(1, random);
        }
        let pose = random.below((self.poses.len() / POSE) as u64) as usize;
        &mut self.poses[POSE * pose + random.below(of) as usize]
    }

    /// A tip, a pivot or a rest angle that is too large, or too many poses.
    fn oversize(&mut self, random: &mut Random) {
        match random.below(32) {
            0 => {
                let more = random.one_of(&[0, 0, 1, 100]);
                let count = most_poses(&self.chain) + 1 + more;
                self.poses.resize(POSE * count, 0.0);
            }
            1..=6 => {
                let pivot = finite_oversized(random);
                self.set_in_chain(8 + 32 + 8 * slot(random), pivot);
            }
            7..=9 if reading::chain(&self.chain).is_ok_and(|chain| chain.rested) => {
                let rest = random.one_of(&[1.0, -1.0]) * MOST_REST.next_up();
                self.set_in_chain(8 + 72, rest);
            }
            _ => *self.some_number(3, random) = finite_oversized(random),
        }
    }

    fn set_in_chain(&mut self, at: usize, number: f64) {
        if let Some(field) = self.chain.get_mut(at..at + 8) {
            field.copy_from_slice(&number.to_le_bytes());
        }
    }

    /// The same as the content of a file, with gaps.
    pub fn content(&self) -> Content {
        Content {
            chain: self.chain.clone(),
            poses: self.poses.clone(),
            numbers: self.numbers,
        }
    }

    fn parts<'a>(&self, chain: &'a [u8], poses: &'a [f64]) -> Parts<'a> {
        Parts {
            chain,
            poses,
            numbers: self.numbers,
        }
    }

    /// Whether the two are written from the same bits.
    pub fn same_parts(&self, other: &Case) -> bool {
        let bits = |case: &Case| -> Vec<u64> {
            let all = case.poses.iter().chain(&case.numbers);
            all.map(|x| x.to_bits()).collect()
        };
        self.chain == other.chain && bits(self) == bits(other)
    }
}

/// So many poses fit with this chain.
pub fn most_poses(chain: &[u8]) -> usize {
    (MOST_BYTES - TRAILER - as_written(chain).len()) / (8 * POSE)
}

/// A chain's bytes as a job has them: without rest angles where every one is +0.0, by its bits.
fn as_written(bytes: &[u8]) -> Vec<u8> {
    match reading::chain(bytes) {
        Ok(chain) if (1..=2).contains(&chain.count) => written(chain).bytes(),
        _ => bytes.to_vec(),
    }
}

fn written(mut chain: Chain) -> Chain {
    let rested = chain.present().any(|rotary| rotary.rest.to_bits() != 0);
    chain.rested = rested;
    chain
}

/// The bytes of a chain that is served.
fn served_chain(random: &mut Random) -> Vec<u8> {
    loop {
        let bytes = sound(random).bytes();
        if checked(&bytes).is_ok_and(|chain| chain_fits(&chain)) {
            return bytes;
        }
    }
}

/// Of one that the writer refuses before the cone.
fn refused_chain(random: &mut Random) -> Vec<u8> {
    loop {
        let bytes = chain_bytes(random);
        if checked(&bytes).is_err() {
            return bytes;
        }
    }
}

fn count(chain: &[u8], random: &mut Random) -> usize {
    let most = match random.below(512) {
        0 => return most_poses(chain),
        1 => most_poses(chain) as u64,
        2..=60 => 1,
        61..=90 => 64,
        _ => 8,
    };
    random.below(most) as usize
}

/// Poses that are written: tips within their size, axes of any finite numbers, now and then all zero.
fn poses(count: usize, random: &mut Random) -> Vec<f64> {
    let mut all = Vec::with_capacity(POSE * count);
    for _ in 0..count {
        let no_axis = random.below(16) == 0;
        all.extend([(); 3].map(|()| served(MOST_TIP, 500.0, random)));
        all.extend([(); 3].map(|()| match no_axis {
            true => random.one_of(&[0.0, -0.0]),
            false => any_finite(random),
        }));
    }
    all
}

fn any_finite(random: &mut Random) -> f64 {
    loop {
        let x = match random.below(8) {
            0 => random.one_of(&[0.0, -0.0, f64::MAX, -f64::MAX]),
            1 => subnormal(random),
            _ => floats::any(random),
        };
        if x.is_finite() {
            return x;
        }
    }
}

fn positive(random: &mut Random) -> f64 {
    loop {
        let x = any_finite(random).abs();
        if x > 0.0 {
            return x;
        }
    }
}

fn cone(random: &mut Random) -> f64 {
    match random.below(4) {
        0 => random.one_of(&[MOST_CONE, MOST_CONE.next_down(), 1.0, f64::from_bits(1)]),
        1 => positive(random).min(MOST_CONE),
        _ => within(MOST_CONE, random).abs().max(f64::from_bits(1)),
    }
}

fn bad_cone(random: &mut Random) -> f64 {
    match random.below(4) {
        0 => MOST_CONE.next_up(),
        1 => positive(random).max(MOST_CONE.next_up()),
        _ => not_positive(random),
    }
}

/// Or not finite.
fn not_positive(random: &mut Random) -> f64 {
    match random.below(4) {
        0 => random.one_of(&[0.0, -0.0, -f64::from_bits(1)]),
        1 => -positive(random),
        _ => not_finite(random),
    }
}

fn finite_oversized(random: &mut Random) -> f64 {
    loop {
        let x = oversized(MOST_TIP, random);
        if x.is_finite() && exceeds(x, MOST_TIP) {
            return x;
        }
    }
}

/// The chain in the bytes, or what the bytes or the chain are refused with.
fn checked(bytes: &[u8]) -> Result<Chain, Refusal> {
    let chain = reading::chain(bytes).map_err(malformed)?;
    let machine = bare(&chain);
    ported::check(&ported::kinematics(&machine)).map_err(|words| refusal(&words, &machine))?;
    Ok(chain)
}

/// The job, or its first refusal.
pub fn expected(case: &Case) -> Result<Vec<u8>, Refusal> {
    if !case.poses.len().is_multiple_of(POSE) {
        return refused(LENGTHS_DIFFER);
    }
    let chain = checked(&case.chain)?;
    let [cone, chord, axis] = case.numbers;
    if !(cone > 0.0 && cone <= MOST_CONE) {
        return refused(CONE);
    }
    if ![chord, axis].iter().all(|x| x.is_finite() && *x > 0.0) {
        return refused(TOLERANCE);
    }
    if !finite(&case.poses) {
        return refused(NOT_FINITE);
    }
    let job = packed(&chain, &case.poses, case.numbers);
    let far = |pose: &[f64]| pose[..3].iter().any(|x| exceeds(*x, MOST_TIP));
    if !chain_fits(&chain) || case.poses.chunks(POSE).any(far) || job.len() > MOST_BYTES {
        return refused(TOO_LARGE);
    }
    if case.room < job.len() {
        return refused(NO_SPACE);
    }
    Ok(job)
}

/// A job from its fields.
pub fn packed(chain: &Chain, poses: &[f64], numbers: [f64; 3]) -> Vec<u8> {
    let chain = written(*chain);
    let mut bytes = chain.bytes();
    let word = usize::from(chain.rested);
    let words = [0, bytes.len(), poses.len() / POSE, word];
    push_numbers(&mut bytes, poses);
    for word in words {
        bytes.extend((word as u32).to_le_bytes());
    }
    push_numbers(&mut bytes, &numbers);
    bytes
}

/// What a call answered, and what stood afterwards in all that it was lent, the guards too.
#[derive(Clone, Debug, PartialEq)]
pub struct Wrote {
    pub number: u32,
    pub length: [u64; 3],
    pub at: [u64; 3],
    pub letter: [u8; 3],
    pub bytes: Vec<u8>,
}

impl Wrote {
    /// What was lent, without the guards.
    pub fn lent(&self) -> &[u8] {
        &self.bytes[GUARD..self.bytes.len() - GUARD]
    }
}

/// What stands in the lent bytes before a call, no two alike that are near.
fn before(room: usize) -> Vec<u8> {
    (0..GUARD + room + GUARD)
        .map(|i| (37 * i + 11) as u8)
        .collect()
}

/// Calls the export. Each input stands between guards too, and all must stand as it did afterwards.
pub fn ask(case: &Case) -> Wrote {
    let (chain, poses) = (Guarded::bytes(&case.chain), Guarded::numbers(&case.poses));
    let (mut length, mut at, mut letter) = ([LENT_AT; 3], [LENT_AT; 3], [LENT_LETTER; 3]);
    let mut bytes = before(case.room);
    let number = maztubel::write_job(
        case.parts(chain.inner(), poses.inner()),
        &mut bytes[GUARD..GUARD + case.room],
        &mut length[1],
        &mut at[1],
        &mut letter[1],
    );
    let kept = chain.kept() && poses.kept();
    assert!(kept, "an input was written to: {case}");
    Wrote {
        number,
        length,
        at,
        letter,
        bytes,
    }
}

/// What the call tells where it answers as it must.
pub fn telling(case: &Case, answer: &Result<Vec<u8>, Refusal>) -> Wrote {
    let mut bytes = before(case.room);
    let (number, at, length) = match answer {
        Ok(job) => {
            bytes[GUARD..GUARD + job.len()].copy_from_slice(job);
            (0, 0, job.len() as u64)
        }
        Err(refusal) => (refusal.number, refusal.at, 0),
    };
    Wrote {
        number,
        length: [LENT_AT, length, LENT_AT],
        at: [LENT_AT, at, LENT_AT],
        letter: [LENT_LETTER, 0, LENT_LETTER],
        bytes,
    }
}

/// What the port reads from a job, to be written again into as many bytes as it has; none where it is refused.
pub fn read(job: &[u8]) -> Option<Case> {
    let (mut places, mut numbers, mut at) = ([0; 4], [0.0; 3], 0);
    if maztubel::read_job(job, places.each_mut(), numbers.each_mut(), &mut at) != 0 {
        return None;
    }
    let [chain_at, length, _, count] = places.map(|place| place as usize);
    let mut poses = vec![0.0; POSE * count];
    if maztubel::job_poses(job, &mut poses, &mut at) != 0 {
        return None;
    }
    let mut case = Case {
        chain: job[chain_at..chain_at + length].to_vec(),
        poses,
        numbers,
        room: 0,
    };
    case.room = case.length();
    Some(case)
}

/// Every input as bits.
impl fmt::Display for Case {
    fn fmt(&self, f: &mut fmt::Formatter<'_>) -> fmt::Result {
        let chain: String = self
            .chain
            .iter()
            .map(|byte| format!("{byte:02X}"))
            .collect();
        let words = |numbers: &[f64]| {
            let words = numbers.iter().map(|x| format!("{:016X}", x.to_bits()));
            words.collect::<Vec<_>>().join(" ")
        };
        let (poses, numbers) = (words(&self.poses), words(&self.numbers));
        write!(f, "chain [{chain}] poses [{poses}] ")?;
        write!(f, "numbers [{numbers}] room {}", self.room)
    }
}

impl fmt::Display for Wrote {
    fn fmt(&self, f: &mut fmt::Formatter<'_>) -> fmt::Result {
        let bytes: String = self
            .bytes
            .iter()
            .map(|byte| format!("{byte:02X}"))
            .collect();
        let Wrote {
            number,
            length: [_, length, _],
            at: [_, at, _],
            letter,
            ..
        } = self;
        write!(f, "number {number}, length {length}, at {at}, ")?;
        write!(f, "letter {letter:X?}, bytes [{bytes}]")
    }
}
