//! A call of an export, and what is expected of it: the number, what a refusal names, and every number that was lent, between
//! guards that no call may write to.

use crate::cases::{Case, Entry};
use crate::maztubel::{self, Machine};
use crate::reference::Answer;
use std::fmt;

/// How many numbers stand before and behind what is lent.
pub const GUARD: usize = 4;

/// What stands in each lent number before a call: a nan with digits of its own.
pub const LENT: u64 = 0x7FF8_0123_4567_89AB;
/// The same in the slots for an index or an offset, and for a letter.
pub const LENT_AT: u64 = 0x0123_4567_89AB_CDEF;
pub const LENT_LETTER: u8 = 0xA5;

/// What a call is lent to read, between guards. All must stand as it did afterwards.
pub struct Guarded<'a, T> {
    given: &'a [T],
    guard: T,
    all: Vec<T>,
}

impl<'a> Guarded<'a, u8> {
    pub fn bytes(given: &'a [u8]) -> Self {
        Guarded::new(given, LENT_LETTER)
    }

    pub fn kept(&self) -> bool {
        self.is_kept_by(|x, y| x == y)
    }
}

impl<'a> Guarded<'a, f64> {
    pub fn numbers(given: &'a [f64]) -> Self {
        Guarded::new(given, f64::from_bits(LENT))
    }

    pub fn kept(&self) -> bool {
        self.is_kept_by(|x, y| x.to_bits() == y.to_bits())
    }
}

impl<'a, T: Copy> Guarded<'a, T> {
    fn new(given: &'a [T], guard: T) -> Self {
        let all = [&[guard; GUARD], given, &[guard; GUARD]].concat();
        Guarded { given, guard, all }
    }

    pub fn inner(&self) -> &[T] {
        &self.all[GUARD..self.all.len() - GUARD]
    }

    fn is_kept_by(&self, same: impl Fn(T, T) -> bool) -> bool {
        let (before, rest) = self.all.split_at(GUARD);
        let (inner, behind) = rest.split_at(self.given.len());
        let guards = before.iter().chain(behind);
        let given = inner.iter().zip(self.given);
        guards.into_iter().all(|&x| same(x, self.guard))
            && given.into_iter().all(|(&x, &y)| same(x, y))
    }
}

/// What a call answered, and what stood afterwards in all that it was lent, the guards too.
#[derive(Clone, Debug, PartialEq)]
pub struct Told {
    pub number: u32,
    pub at: [u64; 3],
    pub letter: [u8; 3],
    pub numbers: Vec<u64>,
}

/// Bits, but for the number and the index or offset.
impl fmt::Display for Told {
    fn fmt(&self, f: &mut fmt::Formatter<'_>) -> fmt::Result {
        let Told {
            number,
            at: [before, at, behind],
            letter,
            numbers,
        } = self;
        let numbers: Vec<String> = numbers.iter().map(|bits| format!("{bits:016X}")).collect();
        write!(f, "number {number}, at {before:X} {at} {behind:X}, ")?;
        write!(f, "letter {letter:X?}, lent [{}]", numbers.join(" "))
    }
}

/// Calls the export.
pub fn ask(entry: Entry, case: &Case) -> Told {
    let mut at = [LENT_AT; 3];
    let mut letter = [LENT_LETTER; 3];
    let mut numbers = vec![f64::from_bits(LENT); room(entry, case)];
    let end = numbers.len() - GUARD;
    let lent = &mut numbers[GUARD..end];
    let number = call(entry, case, lent, &mut at[1], &mut letter[1]);
    Told {
        number,
        at,
        letter,
        numbers: numbers.iter().map(|x| x.to_bits()).collect(),
    }
}

/// Each input stands between guards too, and all must stand as it did afterwards.
fn call(entry: Entry, case: &Case, lent: &mut [f64], at: &mut u64, letter: &mut u8) -> u32 {
    let bytes = [&case.name, &case.chain, &case.model, &case.carrier];
    let bytes = bytes.map(|bytes| Guarded::bytes(bytes));
    let joints = Guarded::numbers(&case.joints);
    let [name, chain, model, carrier] = bytes.each_ref().map(Guarded::inner);
    let machine = Machine { name, chain, model };
    let number = match entry {
        Entry::CheckChain => maztubel::check_chain(chain, at, letter),
        Entry::CheckModel => maztubel::check_model(machine, at, letter),
        Entry::Forward => {
            let tool_length = case.tool_length;
            maztubel::forward(chain, joints.inner(), tool_length, lent, at, letter)
        }
        Entry::LinkWorld => {
            maztubel::link_world(machine, joints.inner(), carrier, lent, at, letter)
        }
        Entry::LinkInPart => {
            maztubel::link_in_part(machine, joints.inner(), carrier, lent, at, letter)
        }
    };
    let kept = joints.kept() && bytes.iter().all(Guarded::<u8>::kept);
    assert!(kept, "an input was written to: {case}");
    number
}

/// What the call tells where it answers as it must.
pub fn telling(entry: Entry, case: &Case, answer: &Answer) -> Told {
    let mut numbers = vec![LENT; room(entry, case)];
    let (number, at) = match answer {
        Ok(answers) => {
            let bits = answers.iter().map(|x| x.to_bits());
            numbers.splice(GUARD..numbers.len() - GUARD, bits);
            (0, 0)
        }
        Err(refusal) => (refusal.number, refusal.at),
    };
    Told {
        number,
        at: [LENT_AT, at, LENT_AT],
        letter: [LENT_LETTER, 0, LENT_LETTER],
        numbers,
    }
}

/// The lent numbers with their guards. A check is lent none.
fn room(entry: Entry, case: &Case) -> usize {
    match entry {
        Entry::CheckChain | Entry::CheckModel => 2 * GUARD,
        _ => GUARD + case.room + GUARD,
    }
}
