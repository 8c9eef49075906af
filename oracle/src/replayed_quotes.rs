//! Cases of quotations. The Rust, with a count of its calls of `forward`, has their figures; document 02 says what is left of the
//! scratch.

use crate::divisions::Division;
use crate::quotes::{ENOUGH, Left, Scratches, Verdict, expected, joints_of, scratches, telling};
use crate::random::Random;
use crate::remarkable::too_many;
use crate::replayed::{FILLED, Given, Line, Replayed};

/// So many poses are given at most, that cases stay short.
const MOST_POSES: usize = 5;

pub fn of_quote(random: &mut Random) -> Option<Replayed> {
    let [_, division] = Division::drawn(random);
    of_short("quote", &division, expected, random)
}

/// None where the path is long, and mostly where nothing is inserted; 27 has a case of its own.
pub fn of_short(
    entry: &str,
    division: &Division,
    expected: fn(&Division) -> Verdict,
    random: &mut Random,
) -> Option<Replayed> {
    if division.given() > MOST_POSES {
        return None;
    }
    let (verdict, rooms) = (expected(division), scratches(random));
    let answer = verdict.with(rooms);
    let idle = answer.is_ok_and(|figures| figures.inserted == 0);
    let many = answer.is_err_and(|refusal| refusal.number == 27);
    if many || idle && random.below(8) > 0 {
        return None;
    }
    of_scratches(entry, division, &verdict, rooms)
}

/// One that needs more insertions than may be.
pub fn of_too_many(entry: &str, expected: fn(&Division) -> Verdict) -> Option<Replayed> {
    let [_, division] = too_many();
    of_scratches(entry, &division, &expected(&division), ENOUGH)
}

fn of_scratches(
    entry: &str,
    division: &Division,
    verdict: &Verdict,
    rooms: Scratches,
) -> Option<Replayed> {
    let told = telling(verdict.with(rooms), rooms);
    let left = |left: Left, length: usize| match left {
        Left::Kept => vec![FILLED; length],
        _ => vec![0.0; length],
    };
    let line = Line::new(entry, told.number, told.at[1], told.letter[1])
        .count(told.inserted[1])
        .count(told.poses[1])
        .count(told.evaluations[1])
        .numbers(&left(told.joints, rooms[0]))
        .numbers(&left(told.tips, rooms[1]));
    let given = Given {
        bytes: &division.chain,
        numbers: [&division.poses, joints_of(division), &division.tolerances],
        rooms,
        ..Given::default()
    };
    Replayed::new(line, &given)
}
