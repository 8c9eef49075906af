//! The strict division (R-14) and its quotation, and what is expected of them. The reference repeats "the first two
//! neighbours that divide get their midpoint between them" on a list. It is built of the Rust's own functions: its
//! test, its lerp, slerp and gaps at one quarter and three quarters, its midpoint and its comparison of joints. The
//! checks before it are division's, and document 02's R-9 has the scratch; R-14 says what a test counts.

use crate::divided::{self, Divided, MOST_INSERTED, Refusal, checked};
use crate::divisions::{Division, Rooms};
use crate::maztubel;
use crate::original::ported::kinematics::{Joints, Kinematics, ToolPose};
use crate::paths::{JOINTS, POSE};
use crate::quotes::{self, Figures, Scratches, joints_of};
use crate::rust::ported;

/// A pose with its joints.
pub type Item = (ToolPose, Joints);

/// Where the strict test asks for the gaps, beside the middle.
pub const QUARTERS: [f64; 2] = [0.25, 0.75];

/// What a test counts, unless the joints do not differ.
const PER_TEST: u64 = 5;

/// What the two calls come to, with any space and any scratch.
pub struct Expected {
    pub division: divided::Verdict,
    pub quotation: quotes::Verdict,
}

/// What the reference comes to: none where more are inserted than may be.
pub type Halved = Option<(Divided, u64)>;

/// The items of a list with the place of the one behind each, and what the tests so far count.
struct List<'a> {
    rust: &'a Kinematics,
    tolerances: [f64; 2],
    quarters: [f64; 2],
    items: Vec<Item>,
    behind: Vec<usize>,
    evaluations: u64,
}

impl List<'_> {
    /// The midpoint of the first two neighbours that divide, and the place of the left one. No two before that place
    /// do.
    fn first(&mut self, mut at: usize) -> Option<(usize, Item)> {
        while let Some(&right) = self.items.get(*self.behind.get(at)?) {
            let left = self.items[at];
            let passes = strictly_tested(self.rust, left, right, self.tolerances, self.quarters);
            self.evaluations += if passes.is_some() { PER_TEST } else { 0 };
            if passes == Some(false)
                && let Some(middle) = self.rust.midpoint(left.1, right.1)
            {
                return Some((at, middle));
            }
            at = self.behind[at];
        }
        None
    }

    fn insert(&mut self, at: usize, middle: Item) {
        self.behind.push(self.behind[at]);
        self.behind[at] = self.items.len();
        self.items.push(middle);
        self.evaluations += 1;
    }

    fn in_order(&self) -> impl Iterator<Item = Item> {
        let first = (!self.items.is_empty()).then_some(0);
        let places = std::iter::successors(first, |&at| {
            Some(self.behind[at]).filter(|&behind| behind < self.items.len())
        });
        places.map(|at| self.items[at])
    }
}

/// Whether the Rust's own test passes and both gaps are within at both quarters too. None where the joints do not
/// differ.
pub fn strictly_tested(
    rust: &Kinematics,
    left: Item,
    right: Item,
    tolerances: [f64; 2],
    quarters: [f64; 2],
) -> Option<bool> {
    let old = rust.tested(left, right, tolerances)?;
    let [chord, axis] = tolerances;
    let within = |[tip, turned]: [f64; 2]| tip <= chord && turned <= axis;
    let at_quarters = || {
        let gaps = rust.gaps_at(left, right, quarters);
        gaps.expect("poses that are reached")
            .into_iter()
            .all(within)
    };
    Some(old && at_quarters())
}

pub fn items(poses: &[f64], joints: &[f64]) -> Vec<Item> {
    let poses = poses.chunks(POSE).map(ported::tool_pose);
    let joints = joints.chunks(JOINTS).map(ported::joint_set);
    poses.zip(joints).collect()
}

fn numbers(items: impl Iterator<Item = Item>) -> [Vec<f64>; 2] {
    let (poses, joints): (Vec<_>, Vec<_>) = items.unzip();
    [
        poses.into_iter().flat_map(ported::pose_numbers).collect(),
        joints.into_iter().flat_map(ported::set_numbers).collect(),
    ]
}

impl<'a> List<'a> {
    fn new(
        rust: &'a Kinematics,
        items: Vec<Item>,
        tolerances: [f64; 2],
        quarters: [f64; 2],
    ) -> Self {
        let last = items.len().saturating_sub(1);
        let behind = (0..items.len()).map(|at| if at < last { at + 1 } else { usize::MAX });
        List {
            rust,
            tolerances,
            quarters,
            behind: behind.collect(),
            items,
            evaluations: 0,
        }
    }
}

/// The list halved until no two neighbours divide. None where more than `most` would be inserted.
fn halved(mut list: List, most: usize) -> Halved {
    let (mut at, mut inserted) = (0, 0);
    while let Some((left, middle)) = list.first(at) {
        if inserted == most {
            return None;
        }
        list.insert(left, middle);
        (at, inserted) = (left, inserted + 1);
    }
    let [poses, joints] = numbers(list.in_order());
    let divided = Divided {
        poses,
        joints,
        inserted,
    };
    Some((divided, list.evaluations))
}

/// How many poses the strict division of poses with their joints inserts.
pub fn inserted(
    rust: &Kinematics,
    poses: &[f64],
    joints: &[f64],
    tolerances: [f64; 2],
) -> Option<usize> {
    let list = List::new(rust, items(poses, joints), tolerances, QUARTERS);
    let (divided, _) = halved(list, MOST_INSERTED)?;
    Some(divided.inserted)
}

pub fn expected(division: &Division) -> Expected {
    let expected = expected_within(division, QUARTERS, MOST_INSERTED);
    expected.expect("27 is an answer")
}

/// None where more than `most` are inserted, unless that is 27.
pub fn expected_within(division: &Division, quarters: [f64; 2], most: usize) -> Option<Expected> {
    let joints = joints_of(division);
    let chain = match checked(division, joints) {
        Ok(chain) => chain,
        Err(refusal) => {
            return Some(Expected {
                division: divided::Verdict::Refused(refusal),
                quotation: quotes::Verdict::Refused(refusal),
            });
        }
    };
    let rust = ported::setup(&chain).kinematics;
    let given = items(&division.poses, joints);
    let halved = halved(List::new(&rust, given, division.tolerances, quarters), most);
    let known = halved.is_some() || most == MOST_INSERTED;
    known.then(|| judged(division.given(), halved))
}

/// What the reference's answer makes of the two calls.
fn judged(given: usize, halved: Halved) -> Expected {
    let too_many = Refusal::clearing(27, MOST_INSERTED);
    let (then, quoted) = match halved {
        Some((divided, evaluations)) => {
            let figures = Figures {
                inserted: divided.inserted as u64,
                poses: (given + divided.inserted) as u64,
                evaluations,
            };
            (Ok(divided), Ok(figures))
        }
        None => (Err(too_many), Err(too_many)),
    };
    Expected {
        division: divided::Verdict::Judged {
            given,
            short: Refusal::clearing(28, 0),
            then,
        },
        quotation: quotes::Verdict::Judged(quoted, Vec::new(), Vec::new()),
    }
}

/// Calls the export that divides.
pub fn ask(division: &Division, rooms: Rooms) -> divided::Told {
    divided::ask_by(maztubel::subdivide_strict, division, rooms)
}

/// Calls the export that quotes.
pub fn ask_quote(division: &Division, scratches: Scratches) -> quotes::Told {
    quotes::ask_by(maztubel::quote_strict, division, scratches)
}

#[cfg(test)]
mod tests {
    use super::*;
    use crate::random::Random;
    use crate::reading;
    use crate::strict_cases::drawn;

    fn expected_at(division: &Division, quarters: [f64; 2]) -> Expected {
        let expected = expected_within(division, quarters, MOST_INSERTED);
        expected.expect("27 is an answer")
    }

    /// The sentence word for word: a search from the front for each insertion.
    fn literally(rust: &Kinematics, mut items: Vec<Item>, tolerances: [f64; 2]) -> Vec<Item> {
        let divides = |pair: &[Item]| {
            let passes = strictly_tested(rust, pair[0], pair[1], tolerances, QUARTERS);
            let middle = rust.midpoint(pair[0].1, pair[1].1);
            middle.filter(|_| passes == Some(false))
        };
        loop {
            let mut pairs = items.windows(2).enumerate();
            let Some((at, middle)) = pairs.find_map(|(at, pair)| Some((at, divides(pair)?))) else {
                return items;
            };
            items.insert(at + 1, middle);
        }
    }

    #[test]
    fn the_list_is_searched_from_its_front() {
        let mut random = Random::new(5);
        let mut compared = 0;
        while compared < 300 {
            let (division, expected) = drawn(&mut random);
            let divided::Verdict::Judged {
                then: Ok(divided), ..
            } = expected.division
            else {
                continue;
            };
            if divided.inserted > 60 {
                continue;
            }
            let chain = reading::chain(&division.chain).expect("a chain that is served");
            let rust = ported::setup(&chain).kinematics;
            let given = items(&division.poses, joints_of(&division));
            let again = numbers(literally(&rust, given, division.tolerances).into_iter());
            let bits = |numbers: &[f64]| numbers.iter().map(|x| x.to_bits()).collect::<Vec<_>>();
            assert_eq!(bits(&again[0]), bits(&divided.poses), "{division}");
            assert_eq!(bits(&again[1]), bits(&divided.joints), "{division}");
            compared += 1;
        }
    }

    /// With the middle alone the reference is the Rust's own division.
    #[test]
    fn without_quarters_it_is_the_rust_s() {
        let mut random = Random::new(6);
        for _ in 0..2000 {
            let (division, _) = drawn(&mut random);
            let [one, other] = [
                expected_at(&division, [0.5; 2]).division,
                divided::expected(&division),
            ]
            .map(|verdict| match verdict {
                divided::Verdict::Judged { then, .. } => then,
                divided::Verdict::Refused(refusal) => Err(refusal),
            });
            assert_eq!(one, other, "{division}");
        }
    }

    /// Other places than the quarters show.
    #[test]
    fn other_quarters_are_others() {
        for quarters in [[0.25; 2], [0.75; 2], [0.25, 0.5], [0.5, 0.75], [0.2, 0.8]] {
            let mut random = Random::new(7);
            let differs = (0..2000).any(|_| {
                let (division, _) = drawn(&mut random);
                let [one, other] = [quarters, QUARTERS].map(|quarters| {
                    let figures = expected_at(&division, quarters).quotation;
                    figures.with(quotes::ENOUGH)
                });
                one != other
            });
            assert!(differs, "{quarters:?}");
        }
    }
}
