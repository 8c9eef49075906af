//! A quotation, and what is expected of it. The Rust with a count of its calls of `forward` divides the path with no end to its space:
//! that is what is inserted, what comes out and what is evaluated. Its checks are division's; document 02's R-9 adds the scratch, in
//! which 10,000 joint sets and tips must have space (28), and what is left of it.

use crate::calls::{GUARD, Guarded, LENT, LENT_AT, LENT_LETTER};
use crate::divided::{MOST_INSERTED, Refusal, checked};
use crate::divisions::{Division, From};
use crate::inverse_calls::LENT_COUNT;
use crate::maztubel::{self, Scratch, Solved};
use crate::original::EVALUATED;
use crate::paths::JOINTS;
use crate::random::Random;
use crate::rust::counted;
use std::fmt;

/// A waiting tip has so many numbers.
pub const TIP: usize = 3;

/// How many numbers a quotation is lent for joint sets, and for tips.
pub type Scratches = [usize; 2];

/// Just enough.
pub const ENOUGH: Scratches = [JOINTS * MOST_INSERTED, TIP * MOST_INSERTED];

#[derive(Clone, Copy, Debug, Default, PartialEq)]
pub struct Figures {
    pub inserted: u64,
    pub poses: u64,
    pub evaluations: u64,
}

pub type Answer = Result<Figures, Refusal>;

/// What a call comes to with any scratch.
pub enum Verdict {
    /// By the checks before the scratch is looked at.
    Refused(Refusal),
    /// By the Rust, where there is scratch enough; with the divided path, if there is one.
    Judged(Answer, Vec<f64>, Vec<f64>),
}

impl Verdict {
    pub fn with(&self, [joints, tips]: Scratches) -> Answer {
        if !joints.is_multiple_of(JOINTS) || !tips.is_multiple_of(TIP) {
            return Err(Refusal::keeping(20, 0));
        }
        match self {
            Verdict::Refused(refusal) => Err(*refusal),
            Verdict::Judged(..) if joints < ENOUGH[0] || tips < ENOUGH[1] => Err(Refusal {
                short: true,
                ..Refusal::clearing(28, 0)
            }),
            Verdict::Judged(answer, ..) => *answer,
        }
    }
}

/// Of a division whose joints are given.
pub fn joints_of(division: &Division) -> &[f64] {
    match &division.from {
        From::Joints(joints) => joints,
        From::Start { .. } => panic!("a quotation is asked of given joints"),
    }
}

pub fn expected(division: &Division) -> Verdict {
    let joints = joints_of(division);
    let chain = match checked(division, joints) {
        Ok(chain) => chain,
        Err(refusal) => return Verdict::Refused(refusal),
    };
    EVALUATED.set(0);
    let setup = counted::setup(&chain);
    let divided = counted::subdivide_path(&setup, &division.poses, joints, division.tolerances);
    match divided {
        Ok([poses, divided]) => {
            let figures = Figures {
                inserted: ((divided.len() - joints.len()) / JOINTS) as u64,
                poses: (divided.len() / JOINTS) as u64,
                evaluations: EVALUATED.get(),
            };
            Verdict::Judged(Ok(figures), poses, divided)
        }
        Err(words) => {
            let many = "toolpath `p` inserts more than 10000 poses";
            assert_eq!(words, many, "the Rust refuses to divide");
            let refusal = Refusal::clearing(27, MOST_INSERTED);
            Verdict::Judged(Err(refusal), Vec::new(), Vec::new())
        }
    }
}

/// What is left of a scratch, its guards too.
#[derive(Clone, Copy, Debug, PartialEq)]
pub enum Left {
    Empty,
    Kept,
    Cleared,
    /// The first number that is neither as all before it nor, for a guard, as it was.
    Other(usize, u64),
}

#[derive(Clone, Debug, PartialEq)]
pub struct Told {
    pub number: u32,
    pub at: [u64; 3],
    pub letter: [u8; 3],
    pub inserted: [u64; 3],
    pub poses: [u64; 3],
    pub evaluations: [u64; 3],
    pub joints: Left,
    pub tips: Left,
}

impl fmt::Display for Told {
    fn fmt(&self, f: &mut fmt::Formatter<'_>) -> fmt::Result {
        write!(f, "{self:?}")
    }
}

/// A scratch between guards.
struct Room {
    all: Vec<f64>,
}

impl Room {
    fn new(length: usize) -> Self {
        Room {
            all: vec![f64::from_bits(LENT); GUARD + length + GUARD],
        }
    }

    fn inner(&mut self) -> &mut [f64] {
        let end = self.all.len() - GUARD;
        &mut self.all[GUARD..end]
    }

    fn left(&self) -> Left {
        let (inner, end) = (GUARD..self.all.len() - GUARD, self.all.len());
        let differs = |range: std::ops::Range<usize>, must: u64| {
            let numbers = &self.all[range.clone()];
            let place = numbers.iter().position(|x| x.to_bits() != must)?;
            Some(Left::Other(range.start + place, numbers[place].to_bits()))
        };
        let guard = differs(0..GUARD, LENT).or_else(|| differs(inner.end..end, LENT));
        if let Some(other) = guard {
            return other;
        }
        let (must, left) = match self.all[inner.clone()].first() {
            None => return Left::Empty,
            Some(first) if first.to_bits() == LENT => (LENT, Left::Kept),
            Some(_) => (0, Left::Cleared),
        };
        differs(inner, must).unwrap_or(left)
    }
}

/// Calls the export.
pub fn ask(division: &Division, scratches: Scratches) -> Told {
    ask_by(maztubel::quote, division, scratches)
}

/// An export that quotes.
pub type Quote = fn(Solved, [f64; 2], Scratch) -> u32;

/// The same by this export. Each input stands between guards too, and all must stand as it did afterwards.
pub fn ask_by(quote: Quote, division: &Division, [joints, tips]: Scratches) -> Told {
    let chain = Guarded::bytes(&division.chain);
    let [poses, solved] = [&division.poses[..], joints_of(division)].map(Guarded::numbers);
    let [mut joints, mut tips] = [joints, tips].map(Room::new);
    let (mut at, mut letter) = ([LENT_AT; 3], [LENT_LETTER; 3]);
    let [mut inserted, mut poses_out, mut evaluations] = [[LENT_COUNT; 3]; 3];
    let number = quote(
        Solved {
            chain: chain.inner(),
            poses: poses.inner(),
            joints: solved.inner(),
        },
        division.tolerances,
        Scratch {
            joints: joints.inner(),
            tips: tips.inner(),
            inserted: &mut inserted[1],
            poses: &mut poses_out[1],
            evaluations: &mut evaluations[1],
            at: &mut at[1],
            letter: &mut letter[1],
        },
    );
    let kept = chain.kept() && poses.kept() && solved.kept();
    assert!(kept, "an input was written to: {division}");
    Told {
        number,
        at,
        letter,
        inserted,
        poses: poses_out,
        evaluations,
        joints: joints.left(),
        tips: tips.left(),
    }
}

/// What the call tells where it answers as it must.
pub fn telling(answer: Answer, [joints, tips]: Scratches) -> Told {
    let kept = answer.is_err_and(|refusal| !refusal.clears);
    let left = |room: usize| match (room, kept) {
        (0, _) => Left::Empty,
        (_, true) => Left::Kept,
        (_, false) => Left::Cleared,
    };
    let (number, at, letter, figures) = match answer {
        Ok(figures) => (0, 0, 0, figures),
        Err(refusal) => {
            let figures = Figures {
                inserted: refusal.inserted as u64,
                ..Figures::default()
            };
            (refusal.number, refusal.at, refusal.letter, figures)
        }
    };
    let between = |count: u64| [LENT_COUNT, count, LENT_COUNT];
    Told {
        number,
        at: [LENT_AT, at, LENT_AT],
        letter: [LENT_LETTER, letter, LENT_LETTER],
        inserted: between(figures.inserted),
        poses: between(figures.poses),
        evaluations: between(figures.evaluations),
        joints: left(joints),
        tips: left(tips),
    }
}

/// Mostly just enough; a record too few in one of the two, or many; more; and broken records.
pub fn scratches(random: &mut Random) -> Scratches {
    let [joints, tips] = ENOUGH;
    let few = random.below(4) as usize;
    match random.below(24) {
        0 => [joints - JOINTS, tips + TIP * few],
        1 => [joints + JOINTS * few, tips - TIP],
        2 => [JOINTS * few, TIP * few],
        3 => [joints + JOINTS * few, tips + TIP * (few + 1)],
        4 => [JOINTS * few + 1 + few, TIP * few],
        5 => [joints, tips + 1 + random.below(2) as usize],
        _ => ENOUGH,
    }
}

#[cfg(test)]
mod tests {
    use super::*;
    use crate::paths::{POSE, Path};
    use crate::solved;

    /// A path of two poses that is served with its joints.
    fn sound() -> Division {
        let mut path = Path::long(2, &mut Random::new(1));
        path.start = vec![0.0; JOINTS];
        let joints = solved::expected(&path).expect("a path that is served");
        Division {
            chain: path.chain,
            poses: path.poses,
            from: From::Joints(joints),
            tolerances: [1.0, 1.0],
        }
    }

    fn joints(division: &mut Division) -> &mut Vec<f64> {
        match &mut division.from {
            From::Joints(joints) => joints,
            From::Start { start, .. } => start,
        }
    }

    type Change = fn(&mut Division, &mut Scratches);

    /// Document 02's order, with the number and whether the scratch is cleared.
    const CHANGES: [(u32, bool, Change); 11] = [
        (20, false, |_, rooms| rooms[1] += 1),
        (29, false, |division, _| division.chain[1] = 1),
        (19, false, |division, _| division.tolerances[0] = 0.0),
        (19, false, |division, _| division.tolerances[1] = f64::NAN),
        (20, false, |division, _| {
            joints(division).extend([0.0; JOINTS]);
        }),
        (4, false, |division, _| division.chain[8] = b'D'),
        (30, false, |division, _| {
            division.chain.copy_within(16..40, 88);
        }),
        (16, false, |division, _| {
            division.poses[POSE + 5] = f64::NAN;
        }),
        (17, false, |division, _| joints(division)[0] = 2e7),
        (28, true, |_, rooms| rooms[1] -= TIP),
        (27, true, |division, _| {
            joints(division)[2 * JOINTS - 1] += 90.0;
            division.tolerances[0] = division.tolerances[0].min(1e-9);
        }),
    ];

    fn refused(changes: &[Change]) -> (u32, bool) {
        let (mut division, mut rooms) = (sound(), ENOUGH);
        for change in changes {
            change(&mut division, &mut rooms);
        }
        let refusal = expected(&division).with(rooms).err();
        refusal.map_or((0, false), |refusal| (refusal.number, refusal.clears))
    }

    /// Each change brings a refusal of its own, and with all those behind it the same.
    #[test]
    fn checks_stand_in_order() {
        assert_eq!(refused(&[]), (0, false));
        for (first, &(number, clears, change)) in CHANGES.iter().enumerate() {
            assert_eq!(refused(&[change]), (number, clears));
            let behind = CHANGES[first..].iter().rev();
            let all: Vec<_> = behind.map(|&(_, _, change)| change).collect();
            assert_eq!(refused(&all), (number, clears));
        }
    }
}
