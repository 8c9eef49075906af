//! A call that divides a path, its joints given or solved first, and what is expected of it. The Rust is asked once for a division,
//! with no end to its space; what a call must tell with the space that it is lent follows from that by counting. Document 01 decides
//! what the Rust has not: the lengths (20), the bytes (29), numbers that the Rust does not read (16), the sizes (17) and the
//! space (28), each in its place; and document 02's R-3 parallel rotaries (30), which the Rust serves.

use crate::calls::{self, GUARD, Guarded, LENT, LENT_AT, LENT_LETTER};
use crate::chains::Chain;
use crate::divisions::{Division, From, Rooms};
use crate::inverse_calls::LENT_COUNT;
use crate::maztubel::{self, Course, Lent, Solved};
use crate::original::ported::kinematics::FiveAxisSetup;
use crate::paths::{JOINTS, POSE, Path};
use crate::reading;
use crate::reference::{bare, chain_fits, finite, joints_fit, refusal};
use crate::rust::ported;
use crate::solved::{self, MOST_POSES, far};
use std::fmt;

/// So many poses may be inserted.
pub const MOST_INSERTED: usize = 10_000;

/// A refusal's number with what goes with it, else 0, and whether it clears what is lent.
#[derive(Clone, Copy, Debug, PartialEq)]
pub struct Refusal {
    pub number: u32,
    pub at: u64,
    pub letter: u8,
    pub inserted: usize,
    pub clears: bool,
    /// There is space for fewer poses than given.
    pub short: bool,
}

#[derive(Clone, Debug, PartialEq)]
pub struct Divided {
    pub poses: Vec<f64>,
    pub joints: Vec<f64>,
    pub inserted: usize,
}

impl Divided {
    pub fn numbers(&self) -> impl Iterator<Item = f64> {
        self.poses.iter().chain(&self.joints).copied()
    }
}

pub type Answer<'a> = Result<&'a Divided, Refusal>;

/// What a call comes to with any space.
pub enum Verdict {
    /// Refused before the space is looked at.
    Refused(Refusal),
    /// `short` where there is space for fewer poses than given, else `then` as far as the space goes.
    Judged {
        given: usize,
        short: Refusal,
        then: Result<Divided, Refusal>,
    },
}

impl Refusal {
    pub fn keeping(number: u32, at: u64) -> Self {
        Refusal {
            number,
            at,
            letter: 0,
            inserted: 0,
            clears: false,
            short: false,
        }
    }

    pub fn clearing(number: u32, inserted: usize) -> Self {
        Refusal {
            inserted,
            clears: true,
            ..Refusal::keeping(number, 0)
        }
    }
}

impl Verdict {
    pub fn with(&self, [poses, joints]: Rooms) -> Answer<'_> {
        if !poses.is_multiple_of(POSE) || !joints.is_multiple_of(JOINTS) {
            return Err(Refusal::keeping(20, 0));
        }
        let (given, short, then) = match self {
            Verdict::Refused(refusal) => return Err(*refusal),
            Verdict::Judged { given, short, then } => (given, short, then),
        };
        let space = (poses / POSE).min(joints / JOINTS);
        let Some(more) = space.checked_sub(*given) else {
            return Err(Refusal {
                short: true,
                ..*short
            });
        };
        match then {
            Ok(divided) if divided.inserted <= more => Ok(divided),
            Err(refusal) if refusal.number != 27 || more >= MOST_INSERTED => Err(*refusal),
            _ => Err(Refusal::clearing(28, more)),
        }
    }
}

pub fn expected(division: &Division) -> Verdict {
    let verdict = match &division.from {
        From::Joints(joints) => of_joints(division, joints),
        From::Start { start, cone } => of_start(division, start, *cone),
    };
    verdict.unwrap_or_else(Verdict::Refused)
}

/// Division alone.
fn of_joints(division: &Division, joints: &[f64]) -> Result<Verdict, Refusal> {
    let chain = checked(division, joints)?;
    Ok(Verdict::Judged {
        given: division.given(),
        short: Refusal::clearing(28, 0),
        then: halved(&ported::setup(&chain), division, joints),
    })
}

/// The chain of a division of given joints that passes every check before its space.
pub fn checked(division: &Division, joints: &[f64]) -> Result<Chain, Refusal> {
    let poses = &division.poses;
    if !poses.len().is_multiple_of(POSE) || !joints.len().is_multiple_of(JOINTS) {
        return Err(Refusal::keeping(20, 0));
    }
    let chain = reading::chain(&division.chain);
    let chain = chain.map_err(|offset| Refusal::keeping(29, offset as u64))?;
    let setup = ported::setup(&chain);
    let (given, sets) = (poses.len() / POSE, joints.len() / JOINTS);
    let extra = [
        POSE * usize::from(given > sets),
        JOINTS * usize::from(given < sets),
    ];
    let [pose, set] = extra.map(|length| vec![0.0; length]);
    if let Err(words) = ported::subdivide_path(&setup, &pose, &set, division.tolerances) {
        return Err(match words.as_str() {
            "chord_tol_mm must be positive" | "axis_tol_deg must be positive" => {
                Refusal::keeping(19, 0)
            }
            "toolpath `p` poses and joints differ in length" => Refusal::keeping(20, 0),
            words => {
                let refusal = refusal(words, &bare(&chain));
                Refusal::keeping(refusal.number, refusal.at)
            }
        });
    }
    if setup.kinematics.parallel() {
        return Err(Refusal::keeping(30, 0));
    }
    if !finite(poses) || !finite(joints) {
        return Err(Refusal::keeping(16, 0));
    }
    let far = poses.chunks(POSE).any(|pose| far(&pose[..3]));
    if far || !chain_fits(&chain) || !joints.chunks(JOINTS).all(joints_fit) || given > MOST_POSES {
        return Err(Refusal::keeping(17, 0));
    }
    Ok(chain)
}

/// Both. What solve_path refuses and keeps comes before its own space, and so before that of both.
fn of_start(division: &Division, start: &[f64], cone: f64) -> Result<Verdict, Refusal> {
    let given = division.poses.len() / POSE;
    let path = Path {
        chain: division.chain.clone(),
        poses: division.poses.clone(),
        start: start.to_vec(),
        cone,
        room: JOINTS * given,
    };
    let then = match solved::expected(&path) {
        Ok(joints) => {
            let chain = reading::chain(&division.chain).expect("a chain that is served");
            halved(&ported::setup(&chain), division, &joints)
        }
        Err(refusal) => {
            let solved::Refusal {
                number,
                at,
                letter,
                clears,
            } = refusal;
            let refusal = Refusal {
                letter,
                clears,
                ..Refusal::keeping(number, at)
            };
            if !clears {
                return Err(refusal);
            }
            Err(refusal)
        }
    };
    Ok(Verdict::Judged {
        given,
        short: Refusal::keeping(28, 0),
        then,
    })
}

/// The Rust's answer. Its refusal of a tolerance can be met here by the call of both alone.
fn halved(setup: &FiveAxisSetup, division: &Division, joints: &[f64]) -> Result<Divided, Refusal> {
    let given = joints.len() / JOINTS;
    let divided = ported::subdivide_path(setup, &division.poses, joints, division.tolerances);
    match divided {
        Ok([poses, joints]) => Ok(Divided {
            inserted: joints.len() / JOINTS - given,
            poses,
            joints,
        }),
        Err(words) => match words.as_str() {
            "toolpath `p` inserts more than 10000 poses" => {
                Err(Refusal::clearing(27, MOST_INSERTED))
            }
            "chord_tol_mm must be positive" | "axis_tol_deg must be positive" => {
                Err(Refusal::clearing(19, 0))
            }
            words => panic!("the Rust refuses to divide with '{words}'"),
        },
    }
}

/// What a call answered, and what stood afterwards in all that it was lent: first the poses, then the joints.
#[derive(Clone, Debug, PartialEq)]
pub struct Told {
    pub told: calls::Told,
    pub inserted: [u64; 3],
}

impl fmt::Display for Told {
    fn fmt(&self, f: &mut fmt::Formatter<'_>) -> fmt::Result {
        write!(f, "inserted {:?}, {}", self.inserted, self.told)
    }
}

/// Calls the export.
pub fn ask(division: &Division, rooms: Rooms) -> Told {
    ask_by(maztubel::subdivide_path, division, rooms)
}

/// An export that divides given poses with their joints.
pub type Divide = fn(Solved, [f64; 2], Lent) -> u32;

/// The same, where joints are given by this export.
pub fn ask_by(divide: Divide, division: &Division, rooms: Rooms) -> Told {
    lending(rooms, |lent| call(divide, division, lent))
}

/// What a call tells that is lent such rooms, between guards.
pub fn lending(rooms: Rooms, call: impl FnOnce(Lent) -> u32) -> Told {
    let lengths = rooms.map(|room| GUARD + room + GUARD);
    let mut numbers = vec![f64::from_bits(LENT); lengths[0] + lengths[1]];
    let (poses, joints) = numbers.split_at_mut(lengths[0]);
    let (mut inserted, mut at, mut letter) = ([LENT_COUNT; 3], [LENT_AT; 3], [LENT_LETTER; 3]);
    let lent = Lent {
        poses: &mut poses[GUARD..GUARD + rooms[0]],
        joints: &mut joints[GUARD..GUARD + rooms[1]],
        inserted: &mut inserted[1],
        at: &mut at[1],
        letter: &mut letter[1],
    };
    let number = call(lent);
    let told = calls::Told {
        number,
        at,
        letter,
        numbers: numbers.iter().map(|x| x.to_bits()).collect(),
    };
    Told { told, inserted }
}

/// Each input stands between guards too, and all must stand as it did afterwards.
fn call(divide: Divide, division: &Division, lent: Lent) -> u32 {
    let chain = Guarded::bytes(&division.chain);
    let poses = Guarded::numbers(&division.poses);
    let others = Guarded::numbers(match &division.from {
        From::Joints(joints) => joints,
        From::Start { start, .. } => start,
    });
    let (chain_lent, poses_lent) = (chain.inner(), poses.inner());
    let number = match division.from {
        From::Joints(_) => {
            let solved = Solved {
                chain: chain_lent,
                poses: poses_lent,
                joints: others.inner(),
            };
            divide(solved, division.tolerances, lent)
        }
        From::Start { cone, .. } => {
            let course = Course {
                chain: chain_lent,
                poses: poses_lent,
                start: others.inner(),
                cone,
            };
            maztubel::solve_and_divide(course, division.tolerances, lent)
        }
    };
    let kept = chain.kept() && poses.kept() && others.kept();
    assert!(kept, "an input was written to: {division}");
    number
}

/// What the call tells where it answers as it must.
pub fn telling(answer: Answer, rooms: Rooms) -> Told {
    let mut numbers = Vec::with_capacity(4 * GUARD + rooms[0] + rooms[1]);
    let records: [&[f64]; 2] = match answer {
        Ok(divided) => [&divided.poses, &divided.joints],
        Err(_) => [&[]; 2],
    };
    let kept = answer.is_err_and(|refusal| !refusal.clears);
    for (room, records) in rooms.into_iter().zip(records) {
        let end = numbers.len() + GUARD + room;
        numbers.extend([LENT; GUARD]);
        numbers.extend(records.iter().map(|x| x.to_bits()));
        numbers.resize(end, if kept { LENT } else { 0 });
        numbers.extend([LENT; GUARD]);
    }
    let (number, at, letter, inserted) = match answer {
        Ok(divided) => (0, 0, 0, divided.inserted),
        Err(refusal) => (refusal.number, refusal.at, refusal.letter, refusal.inserted),
    };
    let told = calls::Told {
        number,
        at: [LENT_AT, at, LENT_AT],
        letter: [LENT_LETTER, letter, LENT_LETTER],
        numbers,
    };
    Told {
        told,
        inserted: [LENT_COUNT, inserted as u64, LENT_COUNT],
    }
}

#[cfg(test)]
mod tests {
    use super::*;
    use crate::random::Random;

    /// A path of two poses that is served with its joints, or solved from a start.
    fn sound(solved: bool) -> Division {
        let mut path = Path::long(2, &mut Random::new(1));
        path.start = vec![0.0; JOINTS];
        let joints = solved::expected(&path).expect("a path that is served");
        let from = match solved {
            true => From::Start {
                start: path.start,
                cone: 1.0,
            },
            false => From::Joints(joints),
        };
        Division {
            chain: path.chain,
            poses: path.poses,
            from,
            tolerances: [1.0, 1.0],
        }
    }

    type Change = fn(&mut Division, &mut Rooms);

    /// The number, and whether what is lent is cleared.
    fn refused(solved: bool, changes: &[Change]) -> (u32, bool) {
        let (mut division, mut rooms) = (sound(solved), [2 * POSE, 2 * JOINTS]);
        for change in changes {
            change(&mut division, &mut rooms);
        }
        let verdict = expected(&division);
        let refusal = verdict.with(rooms).err();
        refusal.map_or((0, false), |refusal| (refusal.number, refusal.clears))
    }

    /// Each change brings a refusal of its own, and with all those behind it the same.
    fn stand_in_order(solved: bool, changes: &[(u32, bool, Change)]) {
        assert_eq!(refused(solved, &[]), (0, false));
        for (first, &(number, clears, change)) in changes.iter().enumerate() {
            assert_eq!(refused(solved, &[change]), (number, clears));
            let behind = changes[first..].iter().rev();
            let all: Vec<_> = behind.map(|&(_, _, change)| change).collect();
            assert_eq!(refused(solved, &all), (number, clears));
        }
    }

    fn joints(division: &mut Division) -> &mut Vec<f64> {
        match &mut division.from {
            From::Joints(numbers) | From::Start { start: numbers, .. } => numbers,
        }
    }

    const BROKEN: Change = |_, rooms| rooms[1] += 1;
    const MALFORMED: Change = |division, _| division.chain[1] = 1;
    const TOLERANCE: Change = |division, _| division.tolerances[1] = f64::NAN;
    const LETTER: Change = |division, _| division.chain[8] = b'D';
    /// The second rotary, behind the first, gets its axis.
    const PARALLEL: Change = |division, _| division.chain.copy_within(16..40, 88);
    const SPACE: Change = |_, rooms| rooms[0] = POSE;

    #[test]
    fn checks_of_division_stand_in_order() {
        stand_in_order(
            false,
            &[
                (20, false, BROKEN),
                (29, false, MALFORMED),
                (19, false, TOLERANCE),
                (20, false, |division, _| {
                    joints(division).extend([0.0; JOINTS]);
                }),
                (4, false, LETTER),
                (30, false, PARALLEL),
                (16, false, |division, _| {
                    division.poses[POSE + 5] = f64::NAN;
                }),
                (17, false, |division, _| joints(division)[0] = 2e7),
                (28, true, SPACE),
            ],
        );
    }

    #[test]
    fn checks_of_both_stand_in_order() {
        stand_in_order(
            true,
            &[
                (20, false, BROKEN),
                (29, false, MALFORMED),
                (18, false, |division, _| {
                    if let From::Start { cone, .. } = &mut division.from {
                        *cone = 0.0;
                    }
                }),
                (4, false, LETTER),
                (30, false, PARALLEL),
                (16, false, |division, _| joints(division)[4] = f64::NAN),
                (17, false, |division, _| joints(division)[0] = 2e7),
                (28, false, SPACE),
                (25, true, |division, _| division.poses[3..6].fill(0.0)),
                (16, true, |division, _| division.poses[0] = f64::NAN),
                (19, true, TOLERANCE),
            ],
        );
    }

    /// Of a division that inserts three, and of one that would insert too many.
    #[test]
    fn a_space_is_counted() {
        let divided = Divided {
            poses: vec![0.0; 5 * POSE],
            joints: vec![0.0; 5 * JOINTS],
            inserted: 3,
        };
        let judged = |then| Verdict::Judged {
            given: 2,
            short: Refusal::clearing(28, 0),
            then,
        };
        let told = |verdict: &Verdict, space: usize| {
            let answer = verdict.with([POSE * space, JOINTS * (space + 1)]);
            answer.map_or_else(|refusal| (refusal.number, refusal.inserted), |_| (0, 3))
        };
        let three = judged(Ok(divided));
        let expected = [(28, 0), (28, 0), (28, 0), (28, 1), (28, 2), (0, 3), (0, 3)];
        for (space, expected) in expected.into_iter().enumerate() {
            assert_eq!(told(&three, space), expected);
        }
        let many = judged(Err(Refusal::clearing(27, MOST_INSERTED)));
        assert_eq!(told(&many, 10_001), (28, 9_999));
        assert_eq!(told(&many, 10_002), (27, MOST_INSERTED));
    }
}
