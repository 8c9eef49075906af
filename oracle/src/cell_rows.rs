//! A row of calls from an empty dispatcher, beside a queue of the paths that wait: each path with its own outputs, what
//! they must hold, and how long it has waited. A path that was lent other contents is judged by what is fixed all the
//! same.

use crate::calls::LENT;
use crate::cell_calls::{
    Admission, Asked, Calls, Entry, Outputs, PATHS, State, Turned, admission, admitted_outputs,
    first_entry, harmless, telling_count, telling_next,
};
use crate::cell_paths::{Course, End, Standing, Work};
use crate::divisions::Rooms;
use crate::floats;
use crate::paths::{JOINTS, POSE};
use crate::random::Random;
use std::collections::VecDeque;

/// An admitted path.
pub struct Path<'a> {
    pub number: u64,
    pub work: &'a Work,
    course: &'a Course,
    turns: usize,
    /// What is lent, and what it must hold.
    outputs: Outputs,
    pub image: Outputs,
    standing: Standing,
    /// Whether it was lent other contents than its last turn left.
    foreign: bool,
    /// How many other paths were served since it was.
    since: usize,
}

/// What a call came to: the number that it must answer, which way it went, and what differs.
#[derive(Default)]
pub struct Seen {
    pub number: u32,
    pub ways: Vec<&'static str>,
    pub differs: Option<String>,
}

impl Seen {
    fn new(number: u32, differs: Option<String>) -> Self {
        Seen {
            number,
            ways: Vec::new(),
            differs,
        }
    }

    fn way(&mut self, way: &'static str, met: bool) {
        if met {
            self.ways.push(way);
        }
    }
}

pub struct Row<'a> {
    calls: Calls,
    pub state: State,
    queue: VecDeque<Path<'a>>,
    /// How often each number was given.
    given: [u32; PATHS],
    /// Whether some path of the row has had other contents.
    foreign: bool,
    /// Whether a call has differed: the row is then left.
    pub differs: bool,
}

pub const ADMITTED: [&str; 8] = [
    "admit, a number again while others wait",
    "admit, the 16th path",
    "admit, 32 with buffers that are 20",
    "admit, 28 clears and takes no number",
    "admit, no pose",
    "admit, one pose",
    "admit, outputs of different spaces",
    "admit, space for the given poses alone",
];

pub const TURNED: [&str; 17] = [
    "turn, no path",
    "turn, 20 with the lengths of another path",
    "turn, 20 with broken records",
    "turn, ended without a pair",
    "turn, ended with one insertion or more",
    "turn, ended with just 64 tests",
    "turn, 65 tests ended in the second turn",
    "turn, ended in the fifth turn or later",
    "turn, of one path alone, which goes on",
    "turn, served again after 15 others",
    "turn, a number of which another path had been",
    "turn, other contents, which goes on",
    "turn, other contents, ended",
    "turn, other contents, 28",
    "turn, ended as alone beside other contents",
    "turn, 28 at the first insertion",
    "turn, 28 at a later one",
];

impl<'a> Row<'a> {
    pub fn new(calls: Calls) -> Self {
        Row {
            calls,
            state: State::empty(),
            queue: VecDeque::new(),
            given: [0; PATHS],
            foreign: false,
            differs: false,
        }
    }

    /// Whether a path waits that can be served.
    pub fn goes_on(&self) -> bool {
        !self.queue.is_empty() && !self.differs
    }

    pub fn admit(&mut self, work: &'a Work) -> Seen {
        let taken: Vec<u64> = self.queue.iter().map(|path| path.number).collect();
        let answer = admission(Some(&taken), work);
        let image = admitted_outputs(&answer, work);
        let (must, mut after) = (Admission::telling(&answer), self.state.clone());
        let entered = answer.as_ref().ok().zip(work.course.as_ref());
        if let Some((number, course)) = entered {
            after = self.state.joined(&first_entry(*number, work, course));
        }
        let mut outputs = Outputs::filled(work.rooms);
        let told = self.calls.ask_admit(&mut self.state, work, &mut outputs);
        let right = told == must && self.state.is_as(&after) && outputs.is_as(&image);
        let differs = (!right).then(|| {
            let Work {
                division, rooms, ..
            } = work;
            format!(
                "admit beside {taken:?} with {rooms:?}: {told:?}, expected {must:?}: {division}"
            )
        });
        let mut seen = Seen::new(must.number, differs);
        self.admission_ways(work, &taken, &mut seen);
        let Some((number, course)) = entered else {
            return seen;
        };
        self.given[*number as usize] += 1;
        self.queue.push_back(Path {
            outputs,
            ..Path::new(*number, work, course)
        });
        seen
    }

    fn admission_ways(&self, work: &Work, taken: &[u64], seen: &mut Seen) {
        let [poses, joints] = [work.rooms[0] / POSE, work.rooms[1] / JOINTS];
        let given = work.division.given();
        let free = (0..PATHS as u64).find(|number| !taken.contains(number));
        let again = free.is_some_and(|free| self.given[free as usize] > 0);
        let served = seen.number == 0;
        let broken = work.answer().is_err_and(|refusal| refusal.number == 20);
        let met = [
            served && again && !taken.is_empty(),
            served && taken.len() == PATHS - 1,
            seen.number == 32 && broken,
            seen.number == 28,
            served && given == 0,
            served && given == 1,
            served && poses != joints,
            served && given > 1 && poses.min(joints) == given,
        ];
        for (way, met) in ADMITTED.into_iter().zip(met) {
            seen.way(way, met);
        }
    }

    /// In what the path's admission or last turn left.
    pub fn turn(&mut self) -> Seen {
        match self.queue.pop_front() {
            None => self.nobody([0, 0]),
            Some(path) => self.served(path),
        }
    }

    /// With other contents: a way to fill each number.
    pub fn turn_on(&mut self, random: &mut Random) -> Seen {
        let Some(mut path) = self.queue.pop_front() else {
            return self.nobody([POSE, JOINTS]);
        };
        let kind = random.below(6);
        let other = self.queue.back().map(|other| other.outputs.clone());
        for (which, lent) in path.outputs.lent().into_iter().enumerate() {
            let other = other
                .clone()
                .map(|mut outputs| outputs.lent()[which].to_vec());
            for (i, number) in lent.iter_mut().enumerate() {
                let copied = other.as_ref().and_then(|numbers| numbers.get(i));
                *number = match kind {
                    0 => f64::NAN,
                    1 => f64::from_bits(random.bits()),
                    2 => floats::any(random),
                    3 => copied.copied().unwrap_or(1.0),
                    4 if random.below(8) == 0 => random.one_of(&[0.0, 1e300, -1e5, 720.0]),
                    4 => *number,
                    _ => 100.0 * (random.below(2000) as f64 / 1000.0 - 1.0),
                };
            }
        }
        (path.foreign, self.foreign) = (true, true);
        self.served(path)
    }

    fn nobody(&mut self, rooms: Rooms) -> Seen {
        let (before, mut outputs) = (self.state.clone(), Outputs::filled(rooms));
        let told = self.calls.ask_turn(&mut self.state, &mut outputs);
        let kept = self.state.is_as(&before) && outputs.is_as(&Outputs::filled(rooms));
        let right = told == Turned::nobody() && kept;
        let mut seen = Seen::new(0, (!right).then(|| format!("no path: {told:?}")));
        seen.way("turn, no path", true);
        seen
    }

    /// Outputs of other lengths than admitted.
    pub fn turn_elsewhere(&mut self, random: &mut Random) -> Seen {
        let Some(path) = self.queue.front() else {
            return self.nobody([random.below(40) as usize, random.below(40) as usize]);
        };
        let [poses, joints] = path.work.rooms;
        let other = self.queue.back().map_or([0, 0], |other| other.work.rooms);
        let rooms = random.one_of(&[
            other,
            [poses + 1, joints],
            [poses, joints + 1],
            [poses + POSE, joints + JOINTS],
            [poses.saturating_sub(POSE), joints],
            [poses, joints.saturating_sub(1)],
            [joints, poses],
            [0, 0],
        ]);
        if rooms == path.work.rooms {
            return self.turn();
        }
        let (before, mut outputs) = (self.state.clone(), Outputs::filled(rooms));
        let told = self.calls.ask_turn(&mut self.state, &mut outputs);
        let kept = self.state.is_as(&before) && outputs.is_as(&Outputs::filled(rooms));
        let right = told == Turned::refused() && kept;
        let differs = (!right).then(|| format!("turn with {rooms:?}: {told:?}, expected 20"));
        let mut seen = Seen::new(20, differs);
        let whole = rooms[0].is_multiple_of(POSE) && rooms[1].is_multiple_of(JOINTS);
        seen.way(TURNED[1], rooms == other && other != [0, 0]);
        seen.way(TURNED[2], !whole);
        seen
    }

    /// Serves the path that was taken from the front.
    fn served(&mut self, mut path: Path<'a>) -> Seen {
        let before = self.state.clone();
        let told = self.calls.ask_turn(&mut self.state, &mut path.outputs);
        let (waited, alone) = (path.since, self.queue.is_empty());
        let judged = match path.foreign {
            true => self.judge_other(&mut path, &before, &told),
            false => self.judge(&mut path, &before, &told),
        };
        let (number, ended, differs) = match judged {
            Ok((number, ended)) => (number, ended, None),
            Err(words) => (told.number, true, Some(words)),
        };
        let differs =
            differs.or_else(|| (waited > PATHS - 1).then(|| "served too late".to_owned()));
        let differs = differs.map(|words| {
            let Work {
                division, rooms, ..
            } = path.work;
            let turn = path.turns;
            format!("turn {turn} with {rooms:?}: {told:?}, {words}: {division}")
        });
        let mut seen = Seen::new(number, differs);
        self.turn_ways(&path, &mut seen, ended, waited, alone);
        for other in &mut self.queue {
            other.since += 1;
        }
        if !ended {
            path.since = 0;
            self.queue.push_back(path);
        }
        seen
    }

    /// The number, and whether the path has ended.
    fn judge(&self, path: &mut Path, before: &State, told: &Turned) -> Result<(u32, bool), String> {
        let (must, ended) = path.advance();
        let number = must.number;
        if *told != must {
            return Err(format!("expected {must:?}"));
        }
        if !path.outputs.is_as(&path.image) {
            return Err("other outputs".to_owned());
        }
        match self.state_is(before, path, ended) {
            true => Ok((number, ended)),
            false => Err("another state".to_owned()),
        }
    }

    /// Whether the state is the one before, served, and its entries are those of the queue.
    fn state_is(&self, before: &State, path: &Path, ended: bool) -> bool {
        let still = (!ended).then(|| path.entry());
        let mut entries: Vec<Entry> = self.queue.iter().map(Path::entry).collect();
        entries.extend(still);
        self.state.holds(&entries) && self.state.is_as(&before.served(still.as_ref()))
    }

    /// The same of a path that was lent other contents. Where it stands is read from its entry.
    fn judge_other(
        &self,
        path: &mut Path,
        before: &State,
        told: &Turned,
    ) -> Result<(u32, bool), String> {
        path.turns += 1;
        harmless(before, told, &self.state, &path.outputs)?;
        let ended = told.ended[1] != 0;
        if !ended {
            let last = self.state.entry(self.queue.len());
            let [_, _, _, placed, waiting, given, inserted, ..] = last.words.map(|n| n as usize);
            path.standing = Standing {
                placed,
                waiting,
                given,
                inserted,
                axes: std::array::from_fn(|i| last.numbers[15 + i]),
            };
        }
        match self.state_is(before, path, ended) {
            true => Ok((told.number, ended)),
            false => Err("another state beside other contents".to_owned()),
        }
    }

    fn turn_ways(&self, path: &Path, seen: &mut Seen, ended: bool, waited: usize, alone: bool) {
        let (course, other) = (path.course, path.foreign);
        let (tests, own) = (course.tests(), ended && !other);
        let done = own && course.end() == Some(End::Done);
        let full = own && course.end() == Some(End::NoSpace);
        let inserted = path.standing.inserted;
        let met = [
            false,
            false,
            false,
            done && path.work.division.given() < 2,
            done && inserted > 0,
            done && tests == 64 && path.turns == 1,
            done && tests == 65 && path.turns == 2,
            done && path.turns >= 5,
            !ended && alone,
            waited == PATHS - 1,
            self.given[path.number as usize] > 1,
            other && !ended,
            other && ended,
            other && seen.number == 28,
            own && self.foreign,
            full && inserted == 0,
            full && inserted > 0,
        ];
        for (way, met) in TURNED.into_iter().zip(met) {
            seen.way(way, met);
        }
    }

    pub fn next(&self) -> Seen {
        let first = self.queue.front().map_or(PATHS as u64, |path| path.number);
        let (told, must) = (self.calls.ask_next(&self.state), telling_next(Ok(first)));
        Seen::new(
            0,
            (told != must).then(|| format!("next: {told:?}, expected {must:?}")),
        )
    }

    pub fn count(&self, number: u64) -> Seen {
        let path = self.queue.iter().find(|path| path.number == number);
        let must: Asked = telling_count(path.map(|path| path.standing.inserted as u64).ok_or(33));
        let told = self.calls.ask_count(&self.state, number);
        let mut seen = Seen::new(
            must.0,
            (told != must).then(|| format!("count of {number}: {told:?}, expected {must:?}")),
        );
        let past = self
            .given
            .get(number as usize)
            .is_some_and(|given| *given > 0);
        seen.way("count, 33 of a path that has ended", path.is_none() && past);
        seen.way("count, 33 of a number above 15", number >= PATHS as u64);
        seen.way(
            "count, of a path after an insertion",
            must.0 == 0 && must.1[1] > 0,
        );
        seen
    }

    /// The outputs of the path that is served next, or some.
    pub fn some_outputs(&self) -> Outputs {
        match self.queue.front() {
            Some(path) => path.outputs.clone(),
            None => Outputs::filled([POSE, JOINTS]),
        }
    }
}

impl<'a> Path<'a> {
    /// As it is admitted.
    pub fn new(number: u64, work: &'a Work, course: &'a Course) -> Self {
        let image = admitted_outputs(&Ok(number), work);
        Path {
            number,
            work,
            course,
            turns: 0,
            outputs: image.clone(),
            image,
            standing: course.first,
            foreign: false,
            since: 0,
        }
    }

    /// What its next turn must tell, and whether it ends; the outputs then hold `image`.
    pub fn advance(&mut self) -> (Turned, bool) {
        let slice = &self.course.slices[self.turns];
        self.turns += 1;
        self.standing = slice.after;
        for write in &slice.writes {
            self.image.put(write.slot, &write.pose, &write.joints);
        }
        let ended = slice.end.is_some();
        let (number, inserted) = match (ended, self.work.answer()) {
            (false, _) => (0, slice.after.inserted),
            (true, Ok(divided)) => {
                self.image.close([&divided.poses, &divided.joints]);
                (0, divided.inserted)
            }
            (true, Err(refusal)) => {
                self.image.close([&[], &[]]);
                (refusal.number, refusal.inserted)
            }
        };
        let must = Turned::telling(number, self.number, u8::from(ended), inserted as u64);
        (must, ended)
    }

    pub fn entry(&self) -> Entry {
        Entry::new(
            self.number,
            self.work.rooms,
            &self.course.fixed,
            &self.standing,
        )
    }
}

pub const COUNTED: [&str; 3] = [
    "count, 33 of a path that has ended",
    "count, 33 of a number above 15",
    "count, of a path after an insertion",
];

/// What stands in outputs that are lent to a forged state.
pub fn any_contents(outputs: &mut Outputs, random: &mut Random) {
    let kind = random.below(3);
    for number in outputs.lent().into_iter().flatten() {
        *number = match kind {
            0 => f64::from_bits(LENT),
            1 => f64::from_bits(random.bits()),
            _ => *number,
        };
    }
}
