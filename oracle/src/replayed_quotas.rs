//! Rows of grants and charged divisions: the balances of a case are those that the case before it leaves. Document 02 has the answers,
//! beside the Rust's division; `quotas` reads it.

use crate::divided::{Verdict, expected, telling};
use crate::divisions::{Division, From, Rooms, spaces};
use crate::quotas::{MOST_BALANCE, SHOPS, amount, charged, granted, shop};
use crate::random::Random;
use crate::remarkable::too_many;
use crate::replayed::{Given, Line, Replayed};
use crate::replayed_calls::{lent_twice, roomy};

/// How many calls a row has, and how many divisions it chooses from.
const CALLS: u64 = 24;
const WORKS: usize = 4;

/// A divided path has so many poses at most, that lines stay short.
const MOST_POSES: usize = 9;

/// So many numbers of a part are given at most.
const MOST_NUMBERS: usize = 60;

struct Work {
    division: Division,
    verdict: Verdict,
    rooms: Rooms,
}

impl Work {
    /// Short, and mostly one that inserts something.
    fn drawn(random: &mut Random) -> Self {
        loop {
            let [_, division] = Division::drawn(random);
            let verdict = expected(&division);
            let spaces = spaces(&verdict, random);
            let rooms = spaces[random.below(spaces.len() as u64) as usize];
            let work = Work {
                division,
                verdict,
                rooms,
            };
            if work.is_short() && (work.inserts() || random.below(8) == 0) {
                return work;
            }
        }
    }

    fn is_short(&self) -> bool {
        let From::Joints(joints) = &self.division.from else {
            return false;
        };
        let given = [&self.division.poses, joints];
        given.iter().all(|numbers| numbers.len() <= MOST_NUMBERS)
            && self.rooms[0] <= 6 * MOST_POSES
            && self.rooms[1] <= 5 * MOST_POSES
    }

    fn inserts(&self) -> bool {
        let answer = self.verdict.with(self.rooms);
        answer.is_ok_and(|divided| divided.inserted > 0)
    }
}

fn bytes(numbers: &[u64]) -> Vec<u8> {
    numbers.iter().flat_map(|n| n.to_le_bytes()).collect()
}

fn of_grant(balances: &mut Vec<u64>, shop: u64, amount: u64) -> Option<Replayed> {
    let before = bytes(balances);
    let number = match granted(balances, shop, amount) {
        Ok(after) => {
            *balances = after;
            0
        }
        Err(number) => number,
    };
    let line = Line::new("grant", number, 0, 0).whole_numbers(balances);
    let given = Given {
        texts: [&before, &bytes(&[shop, amount]), &[]],
        ..Given::default()
    };
    Replayed::new(line, &given)
}

fn of_division(balances: &mut Vec<u64>, shop: u64, work: &Work) -> Option<Replayed> {
    let Work {
        division,
        verdict,
        rooms,
    } = work;
    let From::Joints(joints) = &division.from else {
        return None;
    };
    let before = bytes(balances);
    let (answer, after) = charged(balances, shop, verdict.with(*rooms));
    *balances = after;
    let told = telling(answer, *rooms);
    let [out_poses, out_joints] = lent_twice(&told.told.numbers, *rooms);
    let (at, letter) = (told.told.at[1], told.told.letter[1]);
    let line = Line::new("divide_for", told.told.number, at, letter)
        .count(told.inserted[1])
        .whole_numbers(balances)
        .numbers(&out_poses)
        .numbers(&out_joints);
    let given = Given {
        bytes: &division.chain,
        texts: [&before, &bytes(&[shop]), &[]],
        numbers: [&division.poses, joints, &division.tolerances],
        rooms: *rooms,
        ..Given::default()
    };
    Replayed::new(line, &given)
}

/// So many rows from empty balances; then calls on balances of another number and above the limit; and last a division that needs more
/// insertions than may be.
pub fn rows(count: usize, random: &mut Random) -> Vec<Replayed> {
    let mut cases = Vec::new();
    for _ in 0..count {
        row(&mut cases, random);
    }
    let work = Work::drawn(random);
    for (length, balance) in [
        (0, 0),
        (31, 5),
        (33, 5),
        (SHOPS, MOST_BALANCE + 1),
        (SHOPS, u64::MAX),
    ] {
        for shop in [0, 31, 32, u64::MAX] {
            let mut balances = vec![balance; length];
            cases.extend(of_grant(&mut balances, shop, 1));
            cases.extend(of_division(&mut balances, shop, &work));
        }
    }
    let [_, many] = too_many();
    let rooms = roomy(&many);
    let work = Work {
        verdict: expected(&many),
        division: many,
        rooms,
    };
    let mut balances = vec![MOST_BALANCE; SHOPS];
    let case = of_division(&mut balances, 31, &work).expect("a short case");
    assert_eq!(case.number, 27);
    cases.push(case);
    cases
}

fn row(cases: &mut Vec<Replayed>, random: &mut Random) {
    let works: Vec<Work> = (0..WORKS).map(|_| Work::drawn(random)).collect();
    let served = works
        .iter()
        .filter_map(|work| work.verdict.with(work.rooms).ok());
    let counts: Vec<u64> = served.map(|divided| divided.inserted as u64).collect();
    let about = [(); 3].map(|()| random.below(SHOPS as u64));
    let mut balances = vec![0; SHOPS];
    for _ in 0..CALLS {
        let shop = shop(&about, random);
        let case = match random.below(2) {
            0 => {
                let balance = balances.get(shop as usize).copied().unwrap_or(0);
                let amount = amount(balance, &counts, random);
                of_grant(&mut balances, shop, amount)
            }
            _ => {
                let work = &works[random.below(WORKS as u64) as usize];
                of_division(&mut balances, shop, work)
            }
        };
        cases.push(case.expect("a short case"));
    }
}
