//! A call of inverse or choose, and what is expected of it: the number, what a refusal names, the count, and every number that was
//! lent, between guards that no call may write to.

use crate::calls::{GUARD, Guarded, LENT, LENT_AT, LENT_LETTER};
use crate::inverse_cases::{Case, Entry};
use crate::inverse_reference::Answer;
use crate::maztubel::{self, Asked};
use std::fmt;

/// What stands in the slot for a count before a call.
pub const LENT_COUNT: u64 = 0xFEDC_BA98_7654_3210;

/// What a call answered, and what stood afterwards in all that it was lent, the guards too. Choose is lent no count.
#[derive(Clone, Debug, PartialEq)]
pub struct Told {
    pub number: u32,
    pub at: [u64; 3],
    pub letter: [u8; 3],
    pub count: [u64; 3],
    pub numbers: Vec<u64>,
}

/// Bits, but for the number, the index or offset and the count. Of the lent numbers those that are not +0.0.
impl fmt::Display for Told {
    fn fmt(&self, f: &mut fmt::Formatter<'_>) -> fmt::Result {
        let Told {
            number,
            at,
            letter,
            count,
            numbers,
        } = self;
        let end = numbers.iter().rposition(|&bits| bits != 0 && bits != LENT);
        let shown = &numbers[..end.map_or(0, |end| end + 1)];
        let shown: Vec<String> = shown.iter().map(|bits| format!("{bits:016X}")).collect();
        write!(f, "number {number}, at {at:?}, letter {letter:X?}, ")?;
        write!(f, "count {count:?}, lent [{}]", shown.join(" "))
    }
}

/// Calls the export. Each input stands between guards too, and all must stand as it did afterwards.
pub fn ask(entry: Entry, case: &Case) -> Told {
    let (mut at, mut letter) = ([LENT_AT; 3], [LENT_LETTER; 3]);
    let mut count = [LENT_COUNT; 3];
    let room = case.room(entry);
    let mut numbers = vec![f64::from_bits(LENT); GUARD + room + GUARD];
    let lent = &mut numbers[GUARD..GUARD + room];
    let chain = Guarded::bytes(&case.chain);
    let [pose, hint] = [&case.pose, &case.hint].map(|numbers| Guarded::numbers(numbers));
    let asked = Asked {
        chain: chain.inner(),
        pose: pose.inner(),
        tool_length: case.tool_length,
        hint: hint.inner(),
    };
    let number = match entry {
        Entry::Inverse => maztubel::inverse(asked, lent, &mut count[1], &mut at[1], &mut letter[1]),
        Entry::Choose => maztubel::choose(asked, case.choice, lent, &mut at[1], &mut letter[1]),
    };
    let kept = chain.kept() && pose.kept() && hint.kept();
    assert!(kept, "an input was written to: {case}");
    Told {
        number,
        at,
        letter,
        count,
        numbers: numbers.iter().map(|x| x.to_bits()).collect(),
    }
}

/// What the call tells where it answers as it must.
pub fn telling(entry: Entry, case: &Case, answer: &Answer) -> Told {
    let room = case.room(entry);
    let mut numbers = vec![LENT; GUARD + room + GUARD];
    let lent = &mut numbers[GUARD..GUARD + room];
    let mut count = LENT_COUNT;
    let (number, at) = match answer {
        Ok(sets) => {
            lent.fill(0);
            for (slot, x) in lent.iter_mut().zip(sets.as_flattened()) {
                *slot = x.to_bits();
            }
            count = sets.len() as u64;
            (0, 0)
        }
        Err(refusal) => {
            if matches!(refusal.number, 21 | 22) {
                lent.fill(0);
                count = 0;
            }
            (refusal.number, refusal.at)
        }
    };
    if entry == Entry::Choose {
        count = LENT_COUNT;
    }
    Told {
        number,
        at: [LENT_AT, at, LENT_AT],
        letter: [LENT_LETTER, 0, LENT_LETTER],
        count: [LENT_COUNT, count, LENT_COUNT],
        numbers,
    }
}
