//! The reader of a job: where its parts are, or the first breach. It judges the bytes alone, no number.

use std::fmt;
use std::ops::Range;

pub const MOST_BYTES: usize = 65_536;
pub const TRAILER: usize = 40;
pub const POSE: usize = 48;
/// A rotary's record, and one with a rest angle.
pub const ROTARY: usize = 72;
pub const RESTED: usize = 80;

#[derive(Clone, Debug, PartialEq)]
pub struct Job {
    pub chain: Range<usize>,
    pub poses: Range<usize>,
    pub cone: f64,
    pub chord: f64,
    pub axis: f64,
}

impl Job {
    /// The poses' numbers, six each.
    pub fn numbers(&self, bytes: &[u8]) -> Vec<f64> {
        bytes[self.poses.clone()]
            .chunks_exact(8)
            .map(number)
            .collect()
    }
}

/// 29 with the offset of the first bad field, 3 with 0, or 4 with the rotary.
#[derive(Clone, Copy, Debug, PartialEq, Eq)]
pub struct Breach {
    pub number: u32,
    pub at: usize,
}

impl fmt::Display for Breach {
    fn fmt(&self, f: &mut fmt::Formatter) -> fmt::Result {
        match self.number {
            29 => write!(f, "refused 29 at {}", self.at),
            4 => write!(f, "refused 4 rotary {}", self.at),
            number => write!(f, "refused {number}"),
        }
    }
}

/// What the trailer says, which starts at `at`. Offsets are as wide as their sums need.
pub struct Trailer {
    pub at: usize,
    pub chain: u64,
    pub poses: u64,
    pub count: u64,
    pub word: u64,
}

impl Trailer {
    pub fn of(bytes: &[u8]) -> Option<Trailer> {
        let at = bytes.len().checked_sub(TRAILER)?;
        let field = |i: usize| {
            let four = &bytes[at + 4 * i..at + 4 * i + 4];
            four.iter()
                .rev()
                .fold(0, |all, byte| all << 8 | u64::from(*byte))
        };
        Some(Trailer {
            at,
            chain: field(0),
            poses: field(1),
            count: field(2),
            word: field(3),
        })
    }

    pub fn number(&self, bytes: &[u8], i: usize) -> f64 {
        number(&bytes[self.at + 16 + 8 * i..][..8])
    }

    /// The chain's first byte, where it is before the trailer.
    pub fn rotaries(&self, bytes: &[u8]) -> Option<u8> {
        (self.chain < self.at as u64).then(|| bytes[self.chain as usize])
    }

    /// How long a rotary's record is: with a word that is refused, as with 0.
    pub fn rotary_length(&self) -> usize {
        if self.word == 1 { RESTED } else { ROTARY }
    }

    pub fn chain_length(&self, rotaries: u8) -> usize {
        8 + self.rotary_length() * usize::from(rotaries) + 24
    }

    pub fn poses_end(&self) -> u64 {
        self.poses + POSE as u64 * self.count
    }

    pub fn overlaps(&self, chain_end: u64) -> bool {
        self.count > 0 && self.poses < chain_end && self.chain < self.poses_end()
    }
}

pub fn number(eight: &[u8]) -> f64 {
    f64::from_le_bytes(eight.try_into().expect("eight bytes"))
}

pub fn read(bytes: &[u8]) -> Result<Job, Breach> {
    let trailer = Trailer::of(bytes).filter(|_| bytes.len() <= MOST_BYTES);
    let trailer = trailer.ok_or(malformed(0))?;
    let at = trailer.at;
    let rotaries = trailer.rotaries(bytes).ok_or(malformed(at))?;
    demand((1..=2).contains(&rotaries), Breach { number: 3, at: 0 })?;
    let chain_end = trailer.chain + trailer.chain_length(rotaries) as u64;
    demand(chain_end <= at as u64, malformed(at))?;
    demand(trailer.poses_end() <= at as u64, malformed(at + 4))?;
    demand(!trailer.overlaps(chain_end), malformed(at + 4))?;
    demand(trailer.word <= 1, malformed(at + 12))?;
    let chain = trailer.chain as usize..chain_end as usize;
    all_zero(bytes, chain.start + 1, 7)?;
    for i in 0..usize::from(rotaries) {
        judge_rotary(bytes, chain.start + 8 + trailer.rotary_length() * i, i)?;
    }
    Ok(Job {
        chain,
        poses: trailer.poses as usize..trailer.poses_end() as usize,
        cone: trailer.number(bytes, 0),
        chord: trailer.number(bytes, 1),
        axis: trailer.number(bytes, 2),
    })
}

fn judge_rotary(bytes: &[u8], at: usize, index: usize) -> Result<(), Breach> {
    let letter = matches!(bytes[at], b'A'..=b'C');
    demand(
        letter,
        Breach {
            number: 4,
            at: index,
        },
    )?;
    demand(bytes[at + 1] <= 1, malformed(at + 1))?;
    demand(bytes[at + 2] <= 1, malformed(at + 2))?;
    all_zero(bytes, at + 3, 5)?;
    let unlimited = bytes[at + 2] == 0;
    for limit in [at + 56, at + 64] {
        let zero = bytes[limit..limit + 8] == [0; 8];
        demand(zero || !unlimited, malformed(limit))?;
    }
    Ok(())
}

fn all_zero(bytes: &[u8], at: usize, count: usize) -> Result<(), Breach> {
    match bytes[at..at + count].iter().position(|byte| *byte != 0) {
        Some(first) => Err(malformed(at + first)),
        None => Ok(()),
    }
}

fn demand(holds: bool, breach: Breach) -> Result<(), Breach> {
    if holds { Ok(()) } else { Err(breach) }
}

fn malformed(at: usize) -> Breach {
    Breach { number: 29, at }
}
