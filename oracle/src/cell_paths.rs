//! A path of a cell: what it must come to alone, by the Rust's division, and what it must have come to after every
//! turn, by a machine of single tests. The machine asks the Rust for one test after another, and notes where each pose
//! that it places or inserts stands in the outputs: what is placed at the front, what waits at the end of the space.

use crate::chains::Chain;
use crate::divided::{Answer, MOST_INSERTED, Verdict, expected};
use crate::divisions::{Division, From, Rooms, spaces};
use crate::original::ported::kinematics::{Joints, Kinematics, ToolPose};
use crate::paths::{JOINTS, POSE};
use crate::random::Random;
use crate::reading;
use crate::rust::ported;
use crate::zigzags::needing;

/// So many tests a turn gives.
pub const TESTS: usize = 64;

/// Where a path stands: how many poses are placed, the index of the first that waits, how many given ones wait, how
/// many were inserted, and the axes that the last placed joint set and the first given one that waits reach.
#[derive(Clone, Copy, Debug, Default, PartialEq)]
pub struct Standing {
    pub placed: usize,
    pub waiting: usize,
    pub given: usize,
    pub inserted: usize,
    pub axes: [u64; 6],
}

/// A pose with its joints, written at an index of the outputs.
pub struct Write {
    pub slot: usize,
    pub pose: [u64; POSE],
    pub joints: [u64; JOINTS],
}

/// The end of a path: nothing waits, or a refusal.
#[derive(Clone, Copy, Debug, PartialEq)]
pub enum End {
    Done,
    TooMany,
    NoSpace,
}

/// A turn: what it writes before the path goes on or ends, how many tests it has, and where the path then stands.
pub struct Slice {
    pub writes: Vec<Write>,
    pub tests: usize,
    pub after: Standing,
    pub end: Option<End>,
}

/// What an entry holds as long as its path waits, in bits: both mounts, and the numbers of the chain and both
/// tolerances.
pub struct Fixed {
    pub mounts: [u64; 2],
    pub chain: [u64; 15],
    pub tolerances: [u64; 2],
}

/// A path that is admitted, turn by turn.
pub struct Course {
    pub fixed: Fixed,
    pub first: Standing,
    pub slices: Vec<Slice>,
}

/// A division with given joints, what the Rust says of it, what it is lent, and its turns where it is admitted.
pub struct Work {
    pub division: Division,
    pub verdict: Verdict,
    pub rooms: Rooms,
    pub course: Option<Course>,
}

type Item = (ToolPose, Joints);

/// The machine of single tests. The pose that waits first stands last, each with whether it was given.
struct Tested<'a> {
    rust: &'a Kinematics,
    tolerances: [f64; 2],
    space: usize,
    last: Item,
    placed: usize,
    waiting: Vec<(Item, bool)>,
    inserted: usize,
}

fn bits<const N: usize>(numbers: [f64; N]) -> [u64; N] {
    numbers.map(f64::to_bits)
}

impl Tested<'_> {
    fn write(item: Item, slot: usize) -> Write {
        let (pose, joints) = ported::item_numbers(item);
        Write {
            slot,
            pose: bits(pose),
            joints: bits(joints),
        }
    }

    /// One test of two neighbours, with what it places or inserts.
    fn step(&mut self) -> Result<Write, End> {
        let &(right, _) = self.waiting.last().ok_or(End::Done)?;
        let tested = self.rust.one_test(self.last, right, self.tolerances);
        let Some(middle) = tested.expect("a pair that the Rust tests") else {
            self.waiting.pop();
            self.last = right;
            self.placed += 1;
            return Ok(Self::write(right, self.placed - 1));
        };
        if self.inserted == MOST_INSERTED {
            return Err(End::TooMany);
        }
        if self.placed + self.waiting.len() == self.space {
            return Err(End::NoSpace);
        }
        self.inserted += 1;
        self.waiting.push((middle, false));
        Ok(Self::write(middle, self.space - self.waiting.len()))
    }

    /// At most as many tests as a turn gives.
    fn slice(&mut self) -> Slice {
        let (mut writes, mut tests, mut end) = (Vec::new(), 0, None);
        while tests < TESTS && !self.waiting.is_empty() && end.is_none() {
            tests += 1;
            match self.step() {
                Ok(write) => writes.push(write),
                Err(refused) => end = Some(refused),
            }
        }
        if end.is_none() && self.waiting.is_empty() {
            end = Some(End::Done);
        }
        Slice {
            writes,
            tests,
            after: self.standing(),
            end,
        }
    }

    fn axis(&self, item: Item) -> [f64; 3] {
        let (_, joints) = ported::item_numbers(item);
        let pose = ported::forward(self.rust, &joints, 0.0).expect("joints that are served");
        [pose[3], pose[4], pose[5]]
    }

    /// With nothing given left the last axis stands for the next.
    fn standing(&self) -> Standing {
        let given = self.waiting.iter().filter(|(_, given)| *given).count();
        let next = self.waiting.iter().rev().find(|(_, given)| *given);
        let (left, end) = (self.last, next.map_or(self.last, |(item, _)| *item));
        let [[a, b, c], [d, e, f]] = [left, end].map(|item| self.axis(item));
        Standing {
            placed: self.placed,
            waiting: self.space - self.waiting.len(),
            given,
            inserted: self.inserted,
            axes: bits([a, b, c, d, e, f]),
        }
    }
}

impl Course {
    /// Of a division whose checks pass, in so much space.
    fn new(division: &Division, space: usize) -> Self {
        let chain = reading::chain(&division.chain).expect("a chain that is served");
        let rust = ported::setup(&chain).kinematics;
        let poses = division.poses.chunks(POSE).map(ported::tool_pose);
        let sets = given_joints(division).chunks(JOINTS).map(ported::joint_set);
        let mut items: Vec<(Item, bool)> = poses.zip(sets).map(|item| (item, true)).collect();
        items.reverse();
        let fixed = Fixed::new(&chain, division.tolerances);
        let Some((last, _)) = items.pop() else {
            return Course::idle(fixed, space);
        };
        let mut tested = Tested {
            rust: &rust,
            tolerances: division.tolerances,
            space,
            last,
            placed: 1,
            waiting: items,
            inserted: 0,
        };
        let first = tested.standing();
        let mut slices = Vec::new();
        while slices
            .last()
            .is_none_or(|slice: &Slice| slice.end.is_none())
        {
            slices.push(tested.slice());
        }
        Course {
            fixed,
            first,
            slices,
        }
    }

    /// Of no pose.
    fn idle(fixed: Fixed, space: usize) -> Self {
        let first = Standing {
            waiting: space,
            ..Standing::default()
        };
        let slice = Slice {
            writes: Vec::new(),
            tests: 0,
            after: first,
            end: Some(End::Done),
        };
        Course {
            fixed,
            first,
            slices: vec![slice],
        }
    }

    pub fn tests(&self) -> usize {
        self.slices.iter().map(|slice| slice.tests).sum()
    }

    pub fn end(&self) -> Option<End> {
        self.slices.last().and_then(|slice| slice.end)
    }
}

impl Fixed {
    /// A rotary that the chain has not is absent, and its numbers are zero.
    fn new(chain: &Chain, tolerances: [f64; 2]) -> Self {
        let count = usize::from(chain.count);
        let mut numbers = [0.0; 15];
        let mut mounts = [2; 2];
        for (i, rotary) in chain.rotaries.iter().take(count).enumerate() {
            mounts[i] = u64::from(rotary.carrier);
            numbers[6 * i..6 * i + 3].copy_from_slice(&ported::unit(&rotary.axis));
            numbers[6 * i + 3..6 * i + 6].copy_from_slice(&rotary.pivot);
        }
        numbers[12..].copy_from_slice(&ported::unit(&chain.spindle));
        Fixed {
            mounts,
            chain: bits(numbers),
            tolerances: bits(tolerances),
        }
    }
}

pub fn given_joints(division: &Division) -> &[f64] {
    match &division.from {
        From::Joints(joints) => joints,
        From::Start { .. } => panic!("a path of a cell has its joints given"),
    }
}

/// How many poses have space in both.
pub fn space([poses, joints]: Rooms) -> usize {
    (poses / POSE).min(joints / JOINTS)
}

impl Work {
    pub fn new(division: Division, rooms: Rooms) -> Self {
        let verdict = expected(&division);
        Work::judged(division, verdict, rooms)
    }

    fn judged(division: Division, verdict: Verdict, rooms: Rooms) -> Self {
        let admitted = match verdict.with(rooms) {
            Ok(_) => true,
            Err(refusal) => refusal.clears && !refusal.short,
        };
        let course = admitted.then(|| Course::new(&division, space(rooms)));
        Work {
            division,
            verdict,
            rooms,
            course,
        }
    }

    /// Mostly with space enough.
    pub fn drawn(random: &mut Random) -> Self {
        let [_, division] = Division::drawn(random);
        let verdict = expected(&division);
        let spaces = spaces(&verdict, random);
        let rooms = match random.below(4) {
            0 => spaces[random.below(spaces.len() as u64) as usize],
            _ => spaces[0],
        };
        Work::judged(division, verdict, rooms)
    }

    /// With space for as many insertions as may be.
    pub fn roomy(division: Division) -> Self {
        let records = division.given() + MOST_INSERTED;
        Work::new(division, [POSE * records, JOINTS * records])
    }

    /// With so many tests just: some insertions, and then the last pose again and again.
    pub fn of_tests(tests: usize, inserted: usize, random: &mut Random) -> Self {
        let mut division = needing(inserted, false, random);
        let From::Joints(joints) = &mut division.from else {
            panic!("joints that are given");
        };
        let wanted = tests + 1 - 2 * inserted;
        let given = division.poses.len() / POSE;
        assert!(given <= wanted, "{given} poses for {tests} tests");
        let last = [given * POSE - POSE, given * JOINTS - JOINTS];
        for _ in given..wanted {
            division.poses.extend_from_within(last[0]..last[0] + POSE);
            joints.extend_from_within(last[1]..last[1] + JOINTS);
        }
        let records = wanted + inserted + random.below(3) as usize;
        Work::new(division, [POSE * records, JOINTS * records])
    }

    /// What it comes to alone.
    pub fn answer(&self) -> Answer<'_> {
        self.verdict.with(self.rooms)
    }

    /// Whether the machine of single tests ends as the Rust's division does.
    pub fn agrees(&self) -> bool {
        let Some(course) = &self.course else {
            return true;
        };
        let Some(last) = course.slices.last() else {
            return false;
        };
        match (self.answer(), course.end()) {
            (Ok(divided), Some(End::Done)) => divided.inserted == last.after.inserted,
            (Err(refusal), Some(End::TooMany)) => {
                (refusal.number, refusal.inserted) == (27, last.after.inserted)
            }
            (Err(refusal), Some(End::NoSpace)) => {
                (refusal.number, refusal.inserted) == (28, last.after.inserted)
            }
            _ => false,
        }
    }
}

#[cfg(test)]
mod tests {
    use super::*;

    /// 64 tests are one turn, 65 are two, and the machine of single tests has the Rust's insertions.
    #[test]
    fn tests_are_counted() {
        let mut random = Random::new(1);
        for (tests, turns) in [(64, 1), (65, 2), (128, 2), (129, 3)] {
            let work = Work::of_tests(tests, 7, &mut random);
            let course = work.course.as_ref().expect("a path that is admitted");
            assert_eq!((course.tests(), course.slices.len()), (tests, turns));
            assert!(work.agrees());
        }
    }

    #[test]
    fn single_tests_end_as_the_rust_does() {
        let mut random = Random::new(2);
        for _ in 0..2000 {
            assert!(Work::drawn(&mut random).agrees());
        }
    }
}
