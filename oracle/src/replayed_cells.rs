//! Rows of a dispatcher's calls: the state of a case is the one that the case before it leaves, and so are the outputs
//! of each path. A queue in Rust says which path is served, the Rust's division what it ends with, and single tests
//! where it stands.

use crate::calls::LENT;
use crate::cell_calls::{
    NUMBERS, Outputs, PATHS, State, Turned, WAITING, WORDS, admission, admitted_outputs, count_in,
    first_entry, next_in, taken,
};
use crate::cell_paths::{Work, given_joints};
use crate::cell_rows::Path;
use crate::divided::MOST_INSERTED;
use crate::divisions::Rooms;
use crate::paths::{JOINTS, POSE};
use crate::random::Random;
use crate::replayed::{FILLED, Given, Line, Replayed};
use std::collections::{BTreeMap, VecDeque};

/// So many poses have space in the outputs of a short path.
const MOST_POSES: usize = 6;

/// How many short paths a row has beside one that takes several turns, which has so much space.
const PATHS_OF_A_ROW: usize = 4;
const LONGER: usize = 50;

/// So many admissions are refused with each number, and numbers of a part are given at most.
const OF_EACH: usize = 2;
const MOST_NUMBERS: usize = 100;
const REFUSED: [u32; 13] = [3, 4, 5, 6, 7, 8, 9, 16, 17, 19, 20, 29, 30];

#[derive(Default)]
struct Cases(Vec<Replayed>);

fn filled(numbers: &[f64]) -> Vec<f64> {
    let number = |x: &f64| if x.to_bits() == LENT { FILLED } else { *x };
    numbers.iter().map(number).collect()
}

fn bytes(state: &State) -> [Vec<u8>; 2] {
    let words = state.words().iter().flat_map(|word| word.to_le_bytes());
    let numbers = state.numbers().iter().flat_map(|x| x.to_le_bytes());
    [words.collect(), numbers.collect()]
}

impl Cases {
    fn push(&mut self, line: Line, given: &Given) {
        self.0
            .push(Replayed::new(line, given).expect("a short case"));
    }

    /// The number, and the state that is left.
    fn admit(&mut self, state: &State, work: &Work) -> (Option<u64>, State) {
        let answer = admission(taken(state).as_deref(), work);
        let outputs = admitted_outputs(&answer, work);
        let after = match (&answer, &work.course) {
            (Ok(number), Some(course)) => state.joined(&first_entry(*number, work, course)),
            _ => state.clone(),
        };
        let (number, at) = match &answer {
            Ok(_) => (0, 0),
            Err(refusal) => (refusal.number, refusal.at),
        };
        let path = answer.ok();
        let [poses, joints] = outputs.numbers();
        let line = Line::new("admit", number, at, 0)
            .count(path.unwrap_or(PATHS as u64))
            .whole_numbers(after.words())
            .numbers(after.numbers())
            .numbers(&filled(poses))
            .numbers(&filled(joints));
        let (division, [words, numbers]) = (&work.division, bytes(state));
        let given = Given {
            bytes: &division.chain,
            texts: [&words, &numbers, &[]],
            numbers: [
                &division.poses,
                given_joints(division),
                &division.tolerances,
            ],
            rooms: work.rooms,
            ..Given::default()
        };
        self.push(line, &given);
        (path, after)
    }

    fn next(&mut self, state: &State) {
        let answer = next_in(state.words());
        let number = answer.err().unwrap_or(0);
        let line = Line::new("next", number, 0, 0).count(answer.unwrap_or(PATHS as u64));
        let [words, _] = bytes(state);
        let given = Given {
            texts: [&words, &[], &[]],
            ..Given::default()
        };
        self.push(line, &given);
    }

    fn count(&mut self, state: &State, path: u16) {
        let answer = count_in(state.words(), u64::from(path));
        let number = answer.err().unwrap_or(0);
        let line = Line::new("count", number, 0, 0).count(answer.unwrap_or(0));
        let [words, _] = bytes(state);
        let given = Given {
            which: path,
            texts: [&words, &[], &[]],
            ..Given::default()
        };
        self.push(line, &given);
    }

    /// In these outputs before and afterwards.
    fn turn(&mut self, told: Turned, [before, after]: [&State; 2], outputs: [&Outputs; 2]) {
        let [left, lent] = [outputs[1], outputs[0]].map(|all| all.numbers().map(filled));
        let line = Line::new("turn", told.number, 0, 0)
            .count(told.path[1])
            .count(u64::from(told.ended[1]))
            .count(told.inserted[1])
            .whole_numbers(after.words())
            .numbers(after.numbers())
            .numbers(&left[0])
            .numbers(&left[1]);
        let [words, numbers] = bytes(before);
        let given = Given {
            texts: [&words, &numbers, &[]],
            numbers: [&lent[0], &lent[1], &[]],
            rooms: outputs[0].rooms(),
            ..Given::default()
        };
        self.push(line, &given);
    }

    /// A turn that is refused, or that finds no path.
    fn kept(&mut self, told: Turned, state: &State, rooms: Rooms) {
        let outputs = Outputs::filled(rooms);
        self.turn(told, [state; 2], [&outputs; 2]);
    }

    /// A turn of the first path of the queue, which waits again or leaves.
    fn served(&mut self, state: &mut State, queue: &mut VecDeque<Path>) {
        let mut path = queue.pop_front().expect("a path that waits");
        let outputs = path.image.clone();
        let (told, ended) = path.advance();
        let entry = path.entry();
        let after = state.served((!ended).then_some(&entry));
        self.turn(told, [state, &after], [&outputs, &path.image]);
        *state = after;
        if !ended {
            queue.push_back(path);
        }
    }

    /// Admits each, and then takes turns until none waits, with questions and a turn in other lengths among them.
    fn row(&mut self, works: &[Work]) {
        let (mut state, mut queue) = (State::empty(), VecDeque::new());
        self.next(&state);
        self.kept(Turned::nobody(), &state, [POSE, JOINTS]);
        for work in works {
            let (number, after) = self.admit(&state, work);
            state = after;
            if let (Some(number), Some(course)) = (number, &work.course) {
                queue.push_back(Path::new(number, work, course));
            }
        }
        let mut turns = 0;
        while let Some(first) = queue.front() {
            let (number, [poses, joints]) = (first.number as u16, first.work.rooms);
            if turns % 3 == 1 {
                self.kept(Turned::refused(), &state, [poses + POSE, joints]);
                self.next(&state);
            }
            self.served(&mut state, &mut queue);
            self.count(&state, number);
            turns += 1;
        }
        self.count(&state, 0);
    }

    /// 16 paths, a 17th, numbers that none has, and some turns.
    fn full(&mut self, works: &[Work], broken: &Work) {
        let (mut state, mut queue) = (State::empty(), VecDeque::new());
        for work in works.iter().cycle().take(PATHS) {
            let (number, after) = self.admit(&state, work);
            let course = work.course.as_ref().expect("a path that is admitted");
            queue.push_back(Path::new(number.expect("a number"), work, course));
            state = after;
        }
        self.admit(&state, &works[0]);
        self.admit(&state, broken);
        for path in [15, 16, u16::MAX] {
            self.count(&state, path);
        }
        for _ in 0..3 {
            self.next(&state);
            self.served(&mut state, &mut queue);
        }
        self.admit(&state, &works[0]);
    }

    /// States of another length, that say more than 16, and of another entry.
    fn forged(&mut self, work: &Work) {
        let (_, sound) = self.admit(&State::empty(), work);
        let (words, numbers) = (sound.words(), sound.numbers());
        let changed = |place: usize, word: u64| {
            let mut words = words.to_vec();
            words[place] = word;
            State::new(&words, numbers)
        };
        let states = [
            State::new(&[], &[]),
            State::new(&words[..WORDS - 1], numbers),
            State::new(words, &numbers[..NUMBERS - 1]),
            State::new(&[words, &[0]].concat(), &[numbers, &[0.0]].concat()),
            changed(WAITING, 17),
            changed(WAITING, u64::MAX),
            changed(3, u64::MAX),
            changed(6, MOST_INSERTED as u64 + 1),
        ];
        for state in states {
            self.admit(&state, work);
            self.next(&state);
            self.count(&state, 0);
            self.kept(Turned::refused(), &state, work.rooms);
        }
        self.many(work, &changed(6, MOST_INSERTED as u64));
    }

    /// One more insertion is 27.
    fn many(&mut self, work: &Work, state: &State) {
        let course = work.course.as_ref().expect("a path that is admitted");
        let before = Path::new(0, work, course).image;
        let mut after = before.clone();
        after.close([&[], &[]]);
        let told = Turned::telling(27, 0, 1, MOST_INSERTED as u64);
        self.turn(told, [state, &state.served(None)], [&before, &after]);
    }

    /// So many admissions for each number.
    fn refused(&mut self, random: &mut Random) {
        let mut left: BTreeMap<u32, usize> = REFUSED.map(|number| (number, OF_EACH)).into();
        left.insert(28, OF_EACH);
        while left.values().any(|left| *left > 0) {
            let work = Work::drawn(random);
            let Err(refusal) = work.answer() else {
                continue;
            };
            let wanted = left.get_mut(&refusal.number).filter(|left| **left > 0);
            if let (true, None, Some(left)) = (is_short(&work), &work.course, wanted) {
                *left -= 1;
                self.admit(&State::empty(), &work);
            }
        }
    }
}

fn is_short(work: &Work) -> bool {
    let given = [&work.division.poses[..], given_joints(&work.division)];
    given.iter().all(|numbers| numbers.len() <= MOST_NUMBERS)
        && work.rooms[0] <= MOST_POSES * POSE
        && work.rooms[1] <= MOST_POSES * JOINTS
}

/// A short path that is admitted, and mostly inserts something.
fn short(random: &mut Random) -> Work {
    loop {
        let work = Work::drawn(random);
        let inserts = match work.answer() {
            Ok(divided) => divided.inserted > 0,
            Err(refusal) => refusal.inserted > 0,
        };
        if work.course.is_some() && is_short(&work) && (inserts || random.below(8) == 0) {
            return work;
        }
    }
}

/// Of several turns.
fn long(random: &mut Random) -> Work {
    loop {
        let work = Work::drawn(random);
        let turns = work.course.as_ref().map_or(0, |course| course.slices.len());
        let few = work.division.poses.len() <= MOST_NUMBERS;
        let lent = work.rooms[0] <= LONGER * POSE && work.rooms[1] <= LONGER * JOINTS;
        if turns > 1 && few && lent && work.answer().is_ok() {
            return work;
        }
    }
}

/// Rows; a row of 16 paths and a 17th; forged states; and admissions that are refused.
pub fn rows(count: usize, random: &mut Random) -> Vec<Replayed> {
    let mut cases = Cases::default();
    for _ in 0..count {
        let mut works: Vec<Work> = (0..PATHS_OF_A_ROW).map(|_| short(random)).collect();
        works.insert(1, long(random));
        cases.row(&works);
    }
    let works: Vec<Work> = (0..5).map(|_| short(random)).collect();
    let broken = works[0].rooms.map(|room| room + 1);
    cases.full(&works, &Work::new(works[0].division.clone(), broken));
    let inserts = std::iter::repeat_with(|| short(random));
    let mut inserts =
        inserts.filter(|work| work.answer().is_ok_and(|divided| divided.inserted > 0));
    cases.forged(&inserts.next().expect("a path that inserts"));
    cases.refused(random);
    cases.0
}
