//! What comes of rows of a dispatcher's calls: how often each answer and each way was met, and the differences from
//! what is expected. Beside the calls of a row stand calls on copies of its state that are forged.

use crate::cell_calls::{
    Admission, Calls, NUMBERS, Outputs, PATHS, PORT, State, Turned, WAITING, WORDS, admission,
    admitted_outputs, count_in, first_entry, harmless, next_in, taken, telling_count, telling_next,
};
use crate::cell_paths::Work;
use crate::cell_rows::{ADMITTED, COUNTED, Row, Seen, TURNED, any_contents};
use crate::divided::MOST_INSERTED;
use crate::floats;
use crate::met::{Account, Differences, Met};
use crate::parts::Outcome;
use crate::random::Random;
use crate::remarkable::too_many;
use crate::zigzags::needing;
use std::process::ExitCode;

const ENTRIES: [&str; 4] = ["admit", "next", "turn", "count"];

/// How many paths are planned in a row at most, and how many calls a row has before it is only served to its end.
const PLANNED: u64 = 20;
const CALLS: u64 = 200;

/// How many paths a pool has that are admitted, and that are refused; so many rows draw from it.
const SERVED: usize = 16;
const REFUSED: usize = 8;
const ROWS: u64 = 50;

/// A forged entry's outputs are lent up to so many numbers.
const MOST_LENT: u64 = 20_000;

pub struct Cells {
    calls: Calls,
    made: [u64; 4],
    rows: u64,
    met: Met,
    differences: Differences,
}

impl Default for Cells {
    fn default() -> Self {
        Cells::of(PORT)
    }
}

impl Outcome for Cells {
    fn add(&mut self, more: Cells) {
        for (made, more) in self.made.iter_mut().zip(more.made) {
            *made += more;
        }
        self.rows += more.rows;
        self.met.add(more.met);
        self.differences.add(more.differences);
    }
}

/// Mostly of drawn paths, of which most are served; some of just so many tests, and one of some hundred.
fn pool(random: &mut Random) -> [Vec<Work>; 2] {
    let (mut served, mut refused) = (Vec::new(), Vec::new());
    while served.len() < SERVED || refused.len() < REFUSED {
        let work = Work::drawn(random);
        match (&work.course, served.len(), refused.len()) {
            (Some(_), ..SERVED, _) => served.push(work),
            (None, _, ..REFUSED) => refused.push(work),
            _ => {}
        }
    }
    let inserted = 1 + random.below(12) as usize;
    for tests in [64, 65, random.one_of(&[63, 66, 127, 128, 129])] {
        served.push(Work::of_tests(tests, inserted, random));
    }
    let few = 40 + random.below(160) as usize;
    let division = needing(few, false, random);
    let records = division.given() + few;
    served.push(Work::new(division, [6 * records, 5 * records]));
    [served, refused]
}

fn any<'a>(works: &'a [Work], random: &mut Random) -> &'a Work {
    &works[random.below(works.len() as u64) as usize]
}

impl Cells {
    /// Of the exports, or of others in their place.
    pub fn of(calls: Calls) -> Self {
        Cells {
            calls,
            made: [0; 4],
            rows: 0,
            met: Met::default(),
            differences: Differences::default(),
        }
    }

    /// So many rows from a pool of their own.
    pub fn compare_drawn(&mut self, rows: u64, random: &mut Random) {
        for first in (0..rows).step_by(ROWS as usize) {
            let pool = pool(random);
            for work in pool.iter().flatten() {
                self.differ(
                    (!work.agrees())
                        .then(|| format!("the machine of single tests: {}", work.division)),
                );
            }
            for _ in first..rows.min(first + ROWS) {
                self.row(&pool, random);
            }
        }
    }

    /// A row of paths that need more insertions than may be, as many, and one less, one of them with other contents.
    pub fn compare_many(&mut self, random: &mut Random) {
        let [_, many] = too_many();
        let mut works = vec![Work::roomy(many.clone()), Work::roomy(many)];
        let counts = [MOST_INSERTED - 1, MOST_INSERTED];
        works.extend(counts.map(|count| Work::roomy(needing(count, false, random))));
        let few = Work::of_tests(64, 3, random);
        let mut row = Row::new(self.calls);
        for work in works.iter().chain([&few]) {
            self.admitted(&mut row, work);
        }
        self.turned(&mut row, |row| row.turn());
        self.turned(&mut row, |row| row.turn_on(random));
        while row.goes_on() {
            self.turned(&mut row, |row| row.turn());
        }
        self.rows += 1;
    }

    /// From an empty dispatcher until every path has ended, and a few calls more.
    fn row(&mut self, [served, refused]: &[Vec<Work>; 2], random: &mut Random) {
        let mut row = Row::new(self.calls);
        let mut planned = 1 + random.below(PLANNED);
        let eager = random.below(2) == 0;
        for _ in 0..CALLS {
            if planned > 0 && (eager || random.below(3) == 0) {
                planned -= 1;
                let works = if random.below(8) == 0 {
                    refused
                } else {
                    served
                };
                self.admitted(&mut row, any(works, random));
                continue;
            }
            if row.differs {
                break;
            }
            match random.below(32) {
                0 | 1 => self.turned(&mut row, |row| row.turn_elsewhere(random)),
                2 => self.turned(&mut row, |row| row.turn_on(random)),
                3 => self.forged(&row, any(served, random), random),
                _ => self.turned(&mut row, |row| row.turn()),
            }
            if planned == 0 && !row.goes_on() {
                break;
            }
        }
        while row.goes_on() {
            self.turned(&mut row, |row| row.turn());
        }
        self.turned(&mut row, |row| row.turn_elsewhere(random));
        self.rows += 1;
    }

    fn admitted<'a>(&mut self, row: &mut Row<'a>, work: &'a Work) {
        if row.differs {
            return;
        }
        let seen = row.admit(work);
        row.differs |= seen.differs.is_some();
        self.note(0, seen);
    }

    /// A turn; and after it which path is next, and the count of every number.
    fn turned<'a>(&mut self, row: &mut Row<'a>, turn: impl FnOnce(&mut Row<'a>) -> Seen) {
        if row.differs {
            return;
        }
        let seen = turn(row);
        row.differs |= seen.differs.is_some();
        self.note(2, seen);
        self.note(1, row.next());
        let dead = [PATHS as u64, u64::MAX, 1 << 32];
        for number in (0..PATHS as u64).chain(dead) {
            self.note(3, row.count(number));
        }
    }

    fn note(&mut self, entry: usize, seen: Seen) {
        self.made[entry] += 1;
        self.met.count(answered(ENTRIES[entry], seen.number));
        for way in seen.ways {
            self.met.count(way);
        }
        self.differ(seen.differs);
    }

    fn differ(&mut self, words: Option<String>) {
        if let Some(words) = words {
            self.differences.note(|| words);
        }
    }

    /// The four calls on forged copies of a row's state.
    fn forged(&mut self, row: &Row, work: &Work, random: &mut Random) {
        let mut state = row.state.clone();
        for _ in 0..1 + random.below(3) {
            state = forge(&state, random);
        }
        self.forged_admission(&state, work);
        self.forged_questions(&state, random);
        let mut outputs = row.some_outputs();
        if let Some(1..) = state.waiting() {
            let [_, poses, joints, ..] = state.entry(0).words;
            if poses.max(joints) <= MOST_LENT && random.below(4) > 0 {
                outputs = Outputs::filled([poses as usize, joints as usize]);
            }
        }
        any_contents(&mut outputs, random);
        self.forged_turn(&state, outputs);
    }

    fn forged_admission(&mut self, state: &State, work: &Work) {
        let taken = taken(state);
        let answer = admission(taken.as_deref(), work);
        let (must, image) = (Admission::telling(&answer), admitted_outputs(&answer, work));
        let after = match (&answer, &work.course) {
            (Ok(number), Some(course)) => state.joined(&first_entry(*number, work, course)),
            _ => state.clone(),
        };
        let (mut lent, mut outputs) = (state.clone(), Outputs::filled(work.rooms));
        let told = self.calls.ask_admit(&mut lent, work, &mut outputs);
        let right = told == must && lent.is_as(&after) && outputs.is_as(&image);
        let words = (!right).then(|| {
            let words = state.words();
            format!("admit to a forged state: {told:?}, expected {must:?}: {words:?}")
        });
        let mut seen = Seen {
            number: must.number,
            differs: words,
            ..Seen::default()
        };
        let waiting = state.words().get(WAITING).copied().unwrap_or(0);
        let ways = [
            must.number == 20 && taken.is_none(),
            must.number == 32 && waiting > PATHS as u64,
            must.number == 0 && waiting > 0,
        ];
        let all = FORGED_ADMITTED.into_iter().zip(ways);
        seen.ways = all.filter_map(|(way, met)| met.then_some(way)).collect();
        self.note(0, seen);
    }

    fn forged_questions(&mut self, state: &State, random: &mut Random) {
        let words = state.words();
        let must = telling_next(next_in(words));
        let told = self.calls.ask_next(state);
        let differs = (told != must)
            .then(|| format!("next of a forged state: {told:?}, expected {must:?}: {words:?}"));
        self.note(
            1,
            Seen {
                number: must.0,
                differs,
                ..Seen::default()
            },
        );
        let first = words.first().copied().unwrap_or(0);
        for path in [first, random.below(18), random.bits()] {
            let must = telling_count(count_in(words, path));
            let told = self.calls.ask_count(state, path);
            let differs = (told != must).then(|| {
                format!("count of {path} in a forged state: {told:?}, expected {must:?}: {words:?}")
            });
            let long = words.len() == WORDS;
            let ways = if long { vec![] } else { vec![FORGED_COUNT] };
            self.note(
                3,
                Seen {
                    number: must.0,
                    ways,
                    differs,
                },
            );
        }
    }

    fn forged_turn(&mut self, state: &State, mut outputs: Outputs) {
        let (mut lent, before) = (state.clone(), outputs.clone());
        let told = self.calls.ask_turn(&mut lent, &mut outputs);
        let waiting = state.waiting();
        let fits = waiting.is_some_and(|n| n > 0 && state.entry(0).fits(before.rooms()));
        let kept = lent.is_as(state) && outputs.is_as(&before);
        let (judged, ways) = match (waiting, fits) {
            (None, _) => (told == Turned::refused() && kept, [true, false, false]),
            (Some(0), _) => (told == Turned::nobody() && kept, [false; 3]),
            (_, false) => (told == Turned::refused() && kept, [false, true, false]),
            _ => {
                let judged = harmless(state, &told, &lent, &outputs);
                (judged.is_ok(), [false, false, true])
            }
        };
        let number = match waiting {
            Some(0) => 0,
            _ if !fits => 20,
            _ => told.number,
        };
        let all = FORGED_TURNED.into_iter().zip(ways);
        let differs = (!judged).then(|| {
            let words = state.words();
            format!("turn of a forged state: {told:?}: {words:?}")
        });
        self.note(
            2,
            Seen {
                number,
                ways: all.filter_map(|(way, met)| met.then_some(way)).collect(),
                differs,
            },
        );
    }

    /// Status 1 where there is a difference, or something was met less often than `fewest` times.
    pub fn print(&self, fewest: u64) -> ExitCode {
        let rare = self.met.print(ways().into_iter().map(|way| (way, fewest)));
        let [admissions, nexts, turns, counts] = self.made;
        println!(
            "{} rows, {admissions} admissions, {nexts} nexts, {turns} turns and {counts} counts, {} calls",
            self.rows,
            self.made.iter().sum::<u64>()
        );
        let differs = self.differences.print("cells");
        ExitCode::from(u8::from(rare || differs))
    }
}

impl Account for Cells {
    fn calls(&self) -> Vec<(&'static str, u64)> {
        ENTRIES.into_iter().zip(self.made).collect()
    }

    fn noted(&self) -> Vec<&Differences> {
        vec![&self.differences]
    }

    fn unmet(&self) -> Vec<String> {
        self.met.unmet(ways())
    }
}

/// Another length, another number of paths, or another word or number of an entry, mostly of the first.
fn forge(state: &State, random: &mut Random) -> State {
    let (mut words, mut numbers) = (state.words().to_vec(), state.numbers().to_vec());
    let entry = match random.below(4) {
        0 => random.below(PATHS as u64) as usize,
        _ => 0,
    };
    match random.below(12) {
        0 => words.resize(random.one_of(&[0, 1, 9, 144, 146, 290]), 0),
        1 => numbers.resize(random.one_of(&[0, 23, 367, 369]), 0.0),
        2 if words.len() == WORDS => {
            words[WAITING] = random.one_of(&[16, 17, 255, 1 << 32, u64::MAX]);
        }
        3 if words.len() == WORDS => words[WAITING] = random.below(PATHS as u64 + 1),
        4..=8 if words.len() == WORDS => {
            let place = entry * 9 + random.below(9) as usize;
            let most = MOST_INSERTED as u64;
            words[place] = match random.below(8) {
                0 => words[place].wrapping_add(1),
                1 => words[place].wrapping_sub(1),
                2 => random.bits() >> random.below(64),
                3 => random.one_of(&[0, 1, 2, most - 1, most, most + 1, u64::MAX]),
                _ => random.below(30),
            };
        }
        _ if numbers.len() == NUMBERS => {
            let place = entry * 23 + random.below(23) as usize;
            let any = floats::any(random);
            numbers[place] = random.one_of(&[f64::NAN, f64::INFINITY, 0.0, -1.0, 1e300, any]);
        }
        _ => {}
    }
    State::new(&words, &numbers)
}

fn answered(entry: &str, number: u32) -> String {
    match number {
        0 => format!("{entry}, served"),
        _ => format!("{entry}, {number}"),
    }
}

const FORGED_ADMITTED: [&str; 3] = [
    "admit, 20 of a state of another length",
    "admit, 32 of a state that says more than 16",
    "admit, served by a forged state",
];
const FORGED_TURNED: [&str; 3] = [
    "turn, 20 of a state of another length or of more than 16",
    "turn, 20 of a forged entry or of other lengths",
    "turn, a forged entry served",
];
const FORGED_COUNT: &str = "count, 33 without 145 words";

/// All that can be met.
fn ways() -> Vec<String> {
    let admitted = [0, 3, 4, 5, 6, 7, 8, 9, 16, 17, 19, 20, 28, 29, 30, 32];
    let numbers: [&[u32]; 4] = [&admitted, &[0, 20], &[0, 20, 27, 28], &[0, 33]];
    let answers = ENTRIES.into_iter().zip(numbers);
    let answers = answers.flat_map(|(entry, numbers)| {
        let each = numbers.iter().map(|number| answered(entry, *number));
        each.collect::<Vec<_>>()
    });
    let words = ADMITTED.into_iter().chain(TURNED).chain(COUNTED);
    let forged = FORGED_ADMITTED.into_iter().chain(FORGED_TURNED);
    let words = words.chain(forged).chain([FORGED_COUNT]);
    answers.chain(words.map(String::from)).collect()
}
