//! The four calls of a dispatcher with all that they are lent between guards, and what document 02 says of them on any
//! state, a forged one too. The state is read here as docs/landings/R-10.md describes it.

use crate::calls::{GUARD, Guarded, LENT, LENT_AT, LENT_LETTER};
use crate::cell_paths::{Course, Fixed, Standing, Work, given_joints, space};
use crate::divided::{MOST_INSERTED, Refusal};
use crate::divisions::Rooms;
use crate::inverse_calls::LENT_COUNT;
use crate::maztubel::{self, Dispatcher, Solved};
use crate::paths::{JOINTS, POSE};

/// So many paths are admitted at most, and so many words and numbers a state has, of which an entry has so many.
pub const PATHS: usize = 16;
pub const WORDS: usize = 145;
pub const NUMBERS: usize = 368;
const ENTRY_WORDS: usize = 9;
const ENTRY_NUMBERS: usize = 23;

/// The word that says how many paths wait.
pub const WAITING: usize = 144;

/// What stands beside words that are lent.
const BESIDE: u64 = 0xDEAD_BEEF_0BAD_CAFE;

/// The exports, or others that are to be tried in their place.
#[derive(Clone, Copy)]
pub struct Calls {
    pub admit:
        fn(Dispatcher, Solved, [f64; 2], [&mut [f64]; 2], &mut u64, (&mut u64, &mut u8)) -> u32,
    pub next: fn(&[u64], &mut u64) -> u32,
    pub turn: fn(Dispatcher, [&mut [f64]; 2], (&mut u64, &mut u8, &mut u64)) -> u32,
    pub count: fn(&[u64], u64, &mut u64) -> u32,
}

pub const PORT: Calls = Calls {
    admit: maztubel::admit,
    next: maztubel::next,
    turn: maztubel::turn,
    count: maztubel::count,
};

fn same(x: f64, y: f64) -> bool {
    x.to_bits() == y.to_bits() || x.is_nan() && y.is_nan()
}

fn inner<T>(all: &[T]) -> &[T] {
    &all[GUARD..all.len() - GUARD]
}

fn inner_mut<T>(all: &mut [T]) -> &mut [T] {
    let end = all.len() - GUARD;
    &mut all[GUARD..end]
}

fn guarded<T: Copy>(inner: &[T], guard: T) -> Vec<T> {
    [&[guard; GUARD], inner, &[guard; GUARD]].concat()
}

/// Between guards.
#[derive(Clone)]
pub struct State {
    words: Vec<u64>,
    numbers: Vec<f64>,
}

/// An entry of a state: its words, and the bits of its numbers.
#[derive(Clone, Copy, PartialEq)]
pub struct Entry {
    pub words: [u64; ENTRY_WORDS],
    pub numbers: [u64; ENTRY_NUMBERS],
}

impl Entry {
    pub fn new(number: u64, rooms: Rooms, fixed: &Fixed, at: &Standing) -> Self {
        let [poses, joints] = rooms.map(|room| room as u64);
        let counts = [at.placed, at.waiting, at.given, at.inserted];
        let [placed, waiting, given, inserted] = counts.map(|count| count as u64);
        let [first, second] = fixed.mounts;
        let numbers = [&fixed.chain[..], &at.axes, &fixed.tolerances].concat();
        Entry {
            words: [
                number, poses, joints, placed, waiting, given, inserted, first, second,
            ],
            numbers: std::array::from_fn(|i| numbers[i]),
        }
    }

    /// A path that waits in just these rooms, by its numbers.
    pub fn fits(&self, rooms: Rooms) -> bool {
        let [_, poses, joints, placed, waiting, given, inserted, ..] = self.words;
        let space = space(rooms) as u64;
        [poses, joints] == rooms.map(|room| room as u64)
            && placed <= waiting
            && waiting <= space
            && given <= space - waiting
            && inserted <= MOST_INSERTED as u64
            && (placed > 0 || waiting == space)
    }

    fn done(&self) -> u64 {
        self.words[3] + self.words[6]
    }

    /// Every nan counts as one.
    fn is_as(&self, other: &Entry) -> bool {
        let numbers = |entry: &Entry| entry.numbers.map(f64::from_bits);
        let pairs = numbers(self).into_iter().zip(numbers(other));
        self.words == other.words && pairs.into_iter().all(|(x, y)| same(x, y))
    }
}

impl State {
    pub fn new(words: &[u64], numbers: &[f64]) -> Self {
        State {
            words: guarded(words, BESIDE),
            numbers: guarded(numbers, f64::from_bits(LENT)),
        }
    }

    pub fn empty() -> Self {
        State::new(&[0; WORDS], &[0.0; NUMBERS])
    }

    pub fn words(&self) -> &[u64] {
        inner(&self.words)
    }

    pub fn numbers(&self) -> &[f64] {
        inner(&self.numbers)
    }

    pub fn words_mut(&mut self) -> &mut [u64] {
        inner_mut(&mut self.words)
    }

    pub fn numbers_mut(&mut self) -> &mut [f64] {
        inner_mut(&mut self.numbers)
    }

    fn lent(&mut self) -> Dispatcher<'_> {
        Dispatcher {
            words: inner_mut(&mut self.words),
            numbers: inner_mut(&mut self.numbers),
        }
    }

    /// The guards too.
    pub fn is_as(&self, other: &State) -> bool {
        let pairs = self.numbers.iter().zip(&other.numbers);
        self.words == other.words
            && self.numbers.len() == other.numbers.len()
            && pairs.into_iter().all(|(x, y)| same(*x, *y))
    }

    /// Whether nothing beside it was written.
    fn is_fenced(&self) -> bool {
        let words = [
            &self.words[..GUARD],
            &self.words[self.words.len() - GUARD..],
        ]
        .concat();
        let numbers = [
            &self.numbers[..GUARD],
            &self.numbers[self.numbers.len() - GUARD..],
        ];
        words.iter().all(|word| *word == BESIDE)
            && numbers.concat().iter().all(|x| x.to_bits() == LENT)
    }

    /// How many wait, if it has its lengths and says no more than 16.
    pub fn waiting(&self) -> Option<usize> {
        let long = self.words().len() == WORDS && self.numbers().len() == NUMBERS;
        waiting(self.words()).filter(|_| long)
    }

    pub fn entry(&self, index: usize) -> Entry {
        let words = &self.words()[index * ENTRY_WORDS..];
        let numbers = &self.numbers()[index * ENTRY_NUMBERS..];
        Entry {
            words: std::array::from_fn(|i| words[i]),
            numbers: std::array::from_fn(|i| numbers[i].to_bits()),
        }
    }

    /// With one more path, behind the others.
    pub fn joined(&self, entry: &Entry) -> State {
        let mut after = self.clone();
        let count = self.words()[WAITING] as usize;
        after.words_mut()[WAITING] += 1;
        after.words_mut()[count * ENTRY_WORDS..][..ENTRY_WORDS].copy_from_slice(&entry.words);
        let numbers = entry.numbers.map(f64::from_bits);
        after.numbers_mut()[count * ENTRY_NUMBERS..][..ENTRY_NUMBERS].copy_from_slice(&numbers);
        after
    }

    /// After a turn of the first: the others move forward, and it waits last; or it leaves, and behind them all is
    /// zero.
    pub fn served(&self, still: Option<&Entry>) -> State {
        let mut after = self.clone();
        let count = self.words()[WAITING] as usize;
        let [words, numbers] = [ENTRY_WORDS, ENTRY_NUMBERS].map(|length| length * (count - 1));
        after
            .words_mut()
            .copy_within(ENTRY_WORDS..ENTRY_WORDS + words, 0);
        after
            .numbers_mut()
            .copy_within(ENTRY_NUMBERS..ENTRY_NUMBERS + numbers, 0);
        after.words_mut()[WAITING] -= 1;
        if let Some(entry) = still {
            return after.joined(entry);
        }
        after.words_mut()[words..WAITING].fill(0);
        after.numbers_mut()[numbers..].fill(0.0);
        after
    }

    /// Whether just these wait, whatever stands behind them.
    pub fn holds(&self, entries: &[Entry]) -> bool {
        self.is_fenced()
            && self.waiting() == Some(entries.len())
            && entries
                .iter()
                .enumerate()
                .all(|(i, entry)| self.entry(i).is_as(entry))
    }
}

/// Words alone say how many wait.
fn waiting(words: &[u64]) -> Option<usize> {
    let count = *words.get(WAITING)?;
    (words.len() == WORDS && count <= PATHS as u64).then_some(count as usize)
}

/// Poses and joints, each between guards.
#[derive(Clone)]
pub struct Outputs([Vec<f64>; 2]);

impl Outputs {
    pub fn filled(rooms: Rooms) -> Self {
        let lent = f64::from_bits(LENT);
        Outputs(rooms.map(|room| vec![lent; GUARD + room + GUARD]))
    }

    pub fn rooms(&self) -> Rooms {
        self.numbers().map(<[f64]>::len)
    }

    pub fn lent(&mut self) -> [&mut [f64]; 2] {
        self.0.each_mut().map(|all| inner_mut(all))
    }

    pub fn numbers(&self) -> [&[f64]; 2] {
        self.0.each_ref().map(|all| inner(all))
    }

    pub fn put(&mut self, slot: usize, pose: &[u64; POSE], joints: &[u64; JOINTS]) {
        let [poses, sets] = self.lent();
        let numbers = |bits: &[u64]| bits.iter().map(|x| f64::from_bits(*x)).collect::<Vec<_>>();
        poses[slot * POSE..][..POSE].copy_from_slice(&numbers(pose));
        sets[slot * JOINTS..][..JOINTS].copy_from_slice(&numbers(joints));
    }

    /// A path at the front, and +0.0 behind it.
    pub fn close(&mut self, records: [&[f64]; 2]) {
        for (lent, numbers) in self.lent().into_iter().zip(records) {
            lent.fill(0.0);
            lent[..numbers.len()].copy_from_slice(numbers);
        }
    }

    /// Bit for bit, the guards too.
    pub fn is_as(&self, other: &Outputs) -> bool {
        let bits = |outputs: &Outputs| outputs.0.each_ref().map(|all| all.len());
        let pairs = self.0.iter().flatten().zip(other.0.iter().flatten());
        bits(self) == bits(other) && pairs.into_iter().all(|(x, y)| x.to_bits() == y.to_bits())
    }

    /// Whether the guards stand, and all is +0.0 behind so many records.
    fn is_cleared_behind(&self, records: usize) -> bool {
        let lengths = [POSE, JOINTS].map(|numbers| records * numbers);
        let rests = self.0.iter().zip(lengths);
        let mut cleared = rests.flat_map(|(all, from)| inner(all).iter().skip(from));
        cleared.all(|x| x.to_bits() == 0)
    }

    fn is_fenced(&self) -> bool {
        let ends = |all: &Vec<f64>| [&all[..GUARD], &all[all.len() - GUARD..]].concat();
        let mut guards = self.0.iter().flat_map(ends);
        guards.all(|x| x.to_bits() == LENT)
    }
}

/// What an admission tells: the number, the path, the place and the letter, the last three between guards.
#[derive(Clone, Copy, Debug, PartialEq)]
pub struct Admission {
    pub number: u32,
    pub path: [u64; 3],
    pub at: [u64; 3],
    pub letter: [u8; 3],
}

/// What a turn tells, in the same way.
#[derive(Clone, Copy, Debug, PartialEq)]
pub struct Turned {
    pub number: u32,
    pub path: [u64; 3],
    pub ended: [u8; 3],
    pub inserted: [u64; 3],
}

/// The number, and the lent number between guards.
pub type Asked = (u32, [u64; 3]);

impl Admission {
    /// 16 stands for no path.
    pub fn telling(answer: &Result<u64, Refusal>) -> Self {
        let (number, path, at, letter) = match answer {
            Ok(path) => (0, *path, 0, 0),
            Err(refusal) => (refusal.number, PATHS as u64, refusal.at, refusal.letter),
        };
        Admission {
            number,
            path: [LENT_COUNT, path, LENT_COUNT],
            at: [LENT_AT, at, LENT_AT],
            letter: [LENT_LETTER, letter, LENT_LETTER],
        }
    }
}

impl Turned {
    pub fn telling(number: u32, path: u64, ended: u8, inserted: u64) -> Self {
        Turned {
            number,
            path: [LENT_COUNT, path, LENT_COUNT],
            ended: [LENT_LETTER, ended, LENT_LETTER],
            inserted: [LENT_COUNT, inserted, LENT_COUNT],
        }
    }

    /// 20 tells no path, as a turn without one.
    pub fn refused() -> Self {
        Turned {
            number: 20,
            ..Turned::nobody()
        }
    }

    pub fn nobody() -> Self {
        Turned::telling(0, PATHS as u64, 0, 0)
    }
}

impl Calls {
    /// Each input stands between guards too, and all must stand as it did afterwards.
    pub fn ask_admit(&self, state: &mut State, work: &Work, outputs: &mut Outputs) -> Admission {
        let division = &work.division;
        let chain = Guarded::bytes(&division.chain);
        let poses = Guarded::numbers(&division.poses);
        let joints = Guarded::numbers(given_joints(division));
        let (mut path, mut at, mut letter) = ([LENT_COUNT; 3], [LENT_AT; 3], [LENT_LETTER; 3]);
        let solved = Solved {
            chain: chain.inner(),
            poses: poses.inner(),
            joints: joints.inner(),
        };
        let number = (self.admit)(
            state.lent(),
            solved,
            division.tolerances,
            outputs.lent(),
            &mut path[1],
            (&mut at[1], &mut letter[1]),
        );
        let kept = chain.kept() && poses.kept() && joints.kept();
        assert!(kept, "an input was written to: {division}");
        Admission {
            number,
            path,
            at,
            letter,
        }
    }

    pub fn ask_next(&self, state: &State) -> Asked {
        let mut path = [LENT_COUNT; 3];
        let number = (self.next)(state.words(), &mut path[1]);
        (number, path)
    }

    pub fn ask_turn(&self, state: &mut State, outputs: &mut Outputs) -> Turned {
        let (mut path, mut inserted) = ([LENT_COUNT; 3], [LENT_COUNT; 3]);
        let mut ended = [LENT_LETTER; 3];
        let lent = (&mut path[1], &mut ended[1], &mut inserted[1]);
        let number = (self.turn)(state.lent(), outputs.lent(), lent);
        Turned {
            number,
            path,
            ended,
            inserted,
        }
    }

    pub fn ask_count(&self, state: &State, path: u64) -> Asked {
        let mut inserted = [LENT_COUNT; 3];
        let number = (self.count)(state.words(), path, &mut inserted[1]);
        (number, inserted)
    }
}

/// What a question tells; with a refusal `none`.
fn telling(answer: Result<u64, u32>, none: u64) -> Asked {
    let (number, lent) = match answer {
        Ok(lent) => (0, lent),
        Err(number) => (number, none),
    };
    (number, [LENT_COUNT, lent, LENT_COUNT])
}

/// 16 stands for no path.
pub fn telling_next(answer: Result<u64, u32>) -> Asked {
    telling(answer, PATHS as u64)
}

pub fn telling_count(answer: Result<u64, u32>) -> Asked {
    telling(answer, 0)
}

/// What an admission must answer where these numbers are taken; none is a state of another length. 32 before all that
/// the path has.
pub fn admission(taken: Option<&[u64]>, work: &Work) -> Result<u64, Refusal> {
    let taken = taken.ok_or(Refusal::keeping(20, 0))?;
    if taken.len() >= PATHS {
        return Err(Refusal::keeping(32, 0));
    }
    match work.answer() {
        Err(refusal) if !refusal.clears || refusal.short => Err(refusal),
        _ => {
            let free = (0..PATHS as u64).find(|number| !taken.contains(number));
            Ok(free.expect("fewer than 16 are taken"))
        }
    }
}

/// What the outputs of an admission hold afterwards.
pub fn admitted_outputs(answer: &Result<u64, Refusal>, work: &Work) -> Outputs {
    let mut outputs = Outputs::filled(work.rooms);
    match answer {
        Err(refusal) if refusal.clears => outputs.close([&[], &[]]),
        Err(_) => {}
        Ok(_) => {
            let given = work.division.given();
            let joints = given_joints(&work.division);
            let sets = work.division.poses.chunks(POSE).zip(joints.chunks(JOINTS));
            for (i, (pose, set)) in sets.enumerate() {
                let slot = if i == 0 {
                    0
                } else {
                    space(work.rooms) - given + i
                };
                let bits = |numbers: &[f64], i: usize| numbers[i].to_bits();
                let pose = std::array::from_fn(|i| bits(pose, i));
                outputs.put(slot, &pose, &std::array::from_fn(|i| bits(set, i)));
            }
        }
    }
    outputs
}

/// The numbers in the entries of any state, forged ones too; at least 16 where it says so many wait.
pub fn taken(state: &State) -> Option<Vec<u64>> {
    if state.words().len() != WORDS || state.numbers().len() != NUMBERS {
        return None;
    }
    let count = state.words()[WAITING].min(PATHS as u64) as usize;
    Some((0..count).map(|i| state.words()[i * ENTRY_WORDS]).collect())
}

/// What the two questions must answer on any words.
pub fn next_in(words: &[u64]) -> Result<u64, u32> {
    match waiting(words) {
        None => Err(20),
        Some(0) => Ok(PATHS as u64),
        Some(_) => Ok(words[0]),
    }
}

pub fn count_in(words: &[u64], path: u64) -> Result<u64, u32> {
    let count = waiting(words).ok_or(33u32)?;
    let entry = (0..count).find(|i| words[i * ENTRY_WORDS] == path);
    entry.map(|i| words[i * ENTRY_WORDS + 6]).ok_or(33)
}

/// The entry that a path begins with.
pub fn first_entry(number: u64, work: &Work, course: &Course) -> Entry {
    Entry::new(number, work.rooms, &course.fixed, &course.first)
}

/// A turn of a path of which the outputs or the entry may hold anything, by what is fixed all the same: that the turn
/// changes no other path, gives 64 tests unless the path ends, says what the state says, and clears what it must. The
/// words are for a difference.
pub fn harmless(
    before: &State,
    told: &Turned,
    after: &State,
    outputs: &Outputs,
) -> Result<(), String> {
    let first = before.entry(0);
    let count = before.waiting().filter(|count| *count > 0);
    let count = count.ok_or("no path")?;
    let [number, _, _, placed, waiting, _, inserted, ..] = first.words;
    let [path, ended, now] = [told.path[1], u64::from(told.ended[1]), told.inserted[1]];
    let right = Turned::telling(told.number, number, told.ended[1], now);
    if path != number || *told != right || !outputs.is_fenced() {
        return Err(format!("of path {number}"));
    }
    let space = space(outputs.rooms()) as u64;
    let left = match (told.number, ended) {
        (0, 0) => {
            let last = after.entry(count - 1);
            let kept = last.words[..3] == first.words[..3]
                && last.done() == first.done() + 64
                && last.words[6] == now
                && last.fits(outputs.rooms());
            if !kept {
                return Err(format!("{:?} after {:?}", last.words, first.words));
            }
            return as_it_must(after, &before.served(Some(&last)));
        }
        (0, 1) => placed + (space - waiting) + now.saturating_sub(inserted),
        (27, 1) if now == MOST_INSERTED as u64 => 0,
        (28, 1) => 0,
        _ => return Err("another number".to_owned()),
    };
    let counted = inserted <= now && now - inserted <= 64;
    if !counted || !outputs.is_cleared_behind(left as usize) {
        return Err(format!("{now} after {inserted}, {left} left"));
    }
    as_it_must(after, &before.served(None))
}

fn as_it_must(after: &State, must: &State) -> Result<(), String> {
    match after.is_as(must) {
        true => Ok(()),
        false => Err("another state".to_owned()),
    }
}
