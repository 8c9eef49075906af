//! Jobs drawn at random: what they say, and how it stands in bytes. Chain and poses come in either order, with bytes between them
//! that a reader ignores, from the shortest job to longer ones than any may be.

use crate::chains::{Chain, push_numbers, slot, sound};
use crate::divisions::{Division, From};
use crate::floats;
use crate::job_damages::{damage, resize};
use crate::numbers::{damages, not_finite};
use crate::paths::{POSE, Path};
use crate::random::Random;
use job::{MOST_BYTES, TRAILER};
use std::ops::Range;

/// As many poses fit in a job with one rotary.
const MOST_POSES: u64 = 1362;

/// The program has space for so many poses, which is fewer.
const SPACE: u64 = 700;

/// A chain of two rotaries, two poses and a trailer, and some bytes more.
const SHORT: usize = 346;

/// How long a chain with rest angles is, of one rotary and of two.
pub const RESTED_ONE: usize = 112;
pub const RESTED_TWO: usize = 192;

/// Quarter turns up to the largest angle that is served.
const QUARTERS: u64 = 400;

/// What a job says, before it is bytes. The numbers are the cone and the two tolerances.
pub struct Content {
    pub chain: Vec<u8>,
    pub poses: Vec<f64>,
    pub numbers: [f64; 3],
}

/// A job's bytes, and where its parts were put.
#[derive(Default)]
pub struct Written {
    pub bytes: Vec<u8>,
    pub chain: Range<usize>,
    pub poses: Range<usize>,
}

/// A job for a reader, which judges no number; half of the time nothing is damaged.
pub fn for_reader(random: &mut Random) -> Vec<u8> {
    let mut written = Content::any(random).written(random);
    for _ in 0..damages(random) {
        damage(&mut written, random);
    }
    if random.below(12) == 0 {
        resize(&mut written.bytes, random);
    }
    written.bytes
}

/// A short job that is read: a chain, at most two poses and few bytes beside them.
pub fn short(random: &mut Random) -> Vec<u8> {
    loop {
        let job = Content::any(random).written(random).bytes;
        if job.len() <= SHORT {
            return job;
        }
    }
}

/// A job whose path can be solved, or is refused on the way; its bytes are mostly sound.
pub fn for_program(random: &mut Random) -> Vec<u8> {
    if random.below(6) == 0 {
        return for_reader(random);
    }
    let mut written = Content::of_path(random).written(random);
    if random.below(16) == 0 {
        damage(&mut written, random);
    }
    written.bytes
}

impl Content {
    fn any(random: &mut Random) -> Self {
        let most = match random.below(128) {
            0..=15 => 1,
            16..=111 => 8,
            112..=126 => 64,
            _ => MOST_POSES,
        };
        let poses = random.below(most) as usize + usize::from(most == MOST_POSES);
        Content {
            chain: sound(random).bytes(),
            poses: (0..POSE * poses).map(|_| number(random)).collect(),
            numbers: [(); 3].map(|()| number(random)),
        }
    }

    fn of_path(random: &mut Random) -> Self {
        match random.below(48) {
            0 | 1 => Content::winding(random),
            2 => Content::many(random),
            _ => {
                let [both, _] = Division::drawn(random);
                Content::of_division(both)
            }
        }
    }

    /// The division without its start.
    fn of_division(division: Division) -> Self {
        let [chord, axis] = division.tolerances;
        let cone = match division.from {
            From::Start { cone, .. } => cone,
            From::Joints(_) => 1.0,
        };
        Content {
            chain: division.chain,
            poses: division.poses,
            numbers: [cone, chord, axis],
        }
    }

    /// A rotary that goes round by quarter turns, about as far as it may.
    fn winding(random: &mut Random) -> Self {
        let mut chain = Chain {
            count: 1,
            spindle: [1.0, 0.0, 0.0],
            ..Chain::default()
        };
        chain.rotaries[0].letter = random.one_of(b"ABC");
        chain.rotaries[0].carrier = random.one_of(&[0, 1]);
        chain.rotaries[0].axis = [0.0, 0.0, 1.0];
        let chain = chain.resting(random);
        let poses = match random.below(4) {
            0 => random.below(QUARTERS),
            _ => QUARTERS - 3 + random.below(8),
        };
        let around = [[1.0, 0.0], [0.0, 1.0], [-1.0, 0.0], [0.0, -1.0]];
        let turns = around.iter().cycle().take(poses as usize);
        Content {
            chain: chain.bytes(),
            poses: turns
                .flat_map(|[x, y]| [0.0, 0.0, 0.0, *x, *y, 0.0])
                .collect(),
            numbers: [1.0, 1.0, random.one_of(&[100.0, 100.0, 0.5])],
        }
    }

    /// More poses than the program has space for, or nearly as many.
    fn many(random: &mut Random) -> Self {
        let poses = match random.below(2) {
            0 => SPACE - 1 + random.below(3),
            _ => SPACE + random.below(MOST_POSES - SPACE - 1),
        };
        let path = Path::long(poses as usize, random);
        Content {
            chain: path.chain,
            poses: path.poses,
            numbers: [path.cone, 1e9, 180.0],
        }
    }

    pub fn written(&self, random: &mut Random) -> Written {
        let count = self.poses.len() / POSE;
        let used = self.chain.len() + 8 * self.poses.len() + TRAILER;
        let [before, between, behind] = gaps(used, random);
        let mut written = Written::default();
        written.ignored(before, random);
        if random.below(2) == 0 {
            written.put_chain(&self.chain);
            written.ignored(between, random);
            written.put_poses(&self.poses);
        } else {
            written.put_poses(&self.poses);
            written.ignored(between, random);
            written.put_chain(&self.chain);
        }
        written.ignored(behind, random);
        if count == 0 {
            written.move_no_poses(random);
        }
        let rested = [RESTED_ONE, RESTED_TWO].contains(&self.chain.len());
        written.put_trailer(count, rested, &self.numbers);
        written
    }
}

impl Written {
    pub fn trailer(&self) -> usize {
        self.bytes.len() - TRAILER
    }

    /// Bytes that no field stands for.
    fn ignored(&mut self, count: usize, random: &mut Random) {
        let end = self.bytes.len() + count;
        while self.bytes.len() < end {
            self.bytes.extend(random.bits().to_le_bytes());
        }
        self.bytes.truncate(end);
    }

    fn put_chain(&mut self, chain: &[u8]) {
        let start = self.bytes.len();
        self.bytes.extend(chain);
        self.chain = start..self.bytes.len();
    }

    fn put_poses(&mut self, poses: &[f64]) {
        let start = self.bytes.len();
        push_numbers(&mut self.bytes, poses);
        self.poses = start..self.bytes.len();
    }

    /// No poses may be anywhere up to the trailer, on the chain too.
    fn move_no_poses(&mut self, random: &mut Random) {
        let trailer = self.bytes.len();
        let anywhere = random.below(trailer as u64 + 1) as usize;
        let start = random.one_of(&[self.poses.start, 0, trailer, anywhere]);
        self.poses = start..start;
    }

    fn put_trailer(&mut self, count: usize, rested: bool, numbers: &[f64]) {
        let word = usize::from(rested);
        for word in [self.chain.start, self.poses.start, count, word] {
            self.bytes.extend((word as u32).to_le_bytes());
        }
        push_numbers(&mut self.bytes, numbers);
    }
}

/// How many bytes stand before the first part, between the two and behind the second: mostly none; seldom so many that the job has
/// some length.
fn gaps(used: usize, random: &mut Random) -> [usize; 3] {
    let mut gaps = [(); 3].map(|()| match random.below(8) {
        0 => random.below(100) as usize,
        1 => random.below(8) as usize,
        _ => 0,
    });
    let length = match random.below(512) {
        0 => MOST_BYTES - 1,
        1 | 2 => MOST_BYTES,
        3 => MOST_BYTES + 1,
        4 => MOST_BYTES + random.below(70_000) as usize,
        5..=8 => random.below(MOST_BYTES as u64) as usize,
        _ => 0,
    };
    gaps[slot(random)] += length.saturating_sub(used + gaps.iter().sum::<usize>());
    gaps
}

/// Any double, often a nan of any sign and digits, quiet or not, or an infinity.
pub fn number(random: &mut Random) -> f64 {
    match random.below(8) {
        0 => f64::from_bits(random.bits() | 0x7FF0_0000_0000_0001),
        1 => not_finite(random),
        2 => random.one_of(&[0.0, -0.0]),
        _ => floats::any(random),
    }
}
