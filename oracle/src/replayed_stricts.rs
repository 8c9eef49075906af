//! Cases of the strict division and of its quotation. The reference built of the Rust's own steps has their answers.

use crate::divisions::{Division, spaces};
use crate::quotes::Verdict;
use crate::random::Random;
use crate::remarkable::too_many;
use crate::replayed::Replayed;
use crate::replayed_calls::{of_rooms, roomy};
use crate::replayed_quotes;
use crate::strict_cases::drawn;
use crate::stricts::expected;

/// So many poses are given at most, that lines stay short.
const MOST_POSES: usize = 5;

/// With one of the spaces that it is to be tried with. Mostly something is inserted; 27 has a case of its own.
pub fn of_division(random: &mut Random) -> Option<Replayed> {
    let (division, expected) = drawn(random);
    if division.given() > MOST_POSES {
        return None;
    }
    let verdict = expected.division;
    let spaces = spaces(&verdict, random);
    let rooms = spaces[random.below(spaces.len() as u64) as usize];
    let answer = verdict.with(rooms);
    if answer.is_ok_and(|divided| divided.inserted == 0) && random.below(16) > 0 {
        return None;
    }
    if answer.is_err_and(|refusal| refusal.number == 27) {
        return None;
    }
    of_rooms("subdivide_strict", &division, answer, rooms)
}

pub fn of_quote(random: &mut Random) -> Option<Replayed> {
    let (division, _) = drawn(random);
    replayed_quotes::of_short("quote_strict", &division, quotation, random)
}

/// One that needs more insertions than may be, with space for as many as may be, and its quotation.
pub fn of_too_many(entry: &str) -> Option<Replayed> {
    if entry == "quote_strict" {
        return replayed_quotes::of_too_many(entry, quotation);
    }
    let [_, division] = too_many();
    let (verdict, rooms) = (expected(&division).division, roomy(&division));
    of_rooms(entry, &division, verdict.with(rooms), rooms)
}

fn quotation(division: &Division) -> Verdict {
    expected(division).quotation
}
