//! What comes of rows of grants and charged divisions: how often each answer was met, the differences from what is expected, and
//! whether every row's sums agree with the balances that it leaves.

use crate::divided::{Answer, MOST_INSERTED, Verdict, expected, telling};
use crate::divisions::{Division, Rooms, spaces};
use crate::met::{Account, Differences, Met};
use crate::parts::Outcome;
use crate::paths::{JOINTS, POSE};
use crate::quotas::{MOST_BALANCE, SHOPS, amount, ask_division, ask_grant, charged, granted, shop};
use crate::random::Random;
use crate::remarkable::too_many;
use crate::zigzags::needing;
use std::process::ExitCode;

const ENTRIES: [&str; 2] = ["grant", "divide_for"];

/// How many calls a row has, and how many divisions it chooses from.
const CALLS: u64 = 50;
const WORKS: usize = 6;

/// A division with given joints, what the Rust says of it, and what it is lent.
struct Work {
    division: Division,
    verdict: Verdict,
    rooms: Rooms,
}

impl Work {
    /// Mostly with space enough.
    fn drawn(random: &mut Random) -> Self {
        let [_, division] = Division::drawn(random);
        let verdict = expected(&division);
        let spaces = spaces(&verdict, random);
        let rooms = match random.below(4) {
            0 => spaces[random.below(spaces.len() as u64) as usize],
            _ => spaces[0],
        };
        Work {
            division,
            verdict,
            rooms,
        }
    }

    /// With space for as many insertions as may be.
    fn roomy(division: Division) -> Self {
        let records = division.given() + MOST_INSERTED;
        Work {
            verdict: expected(&division),
            rooms: [POSE * records, JOINTS * records],
            division,
        }
    }

    fn answer(&self) -> Answer<'_> {
        self.verdict.with(self.rooms)
    }

    /// How many are inserted where it is served.
    fn count(&self) -> Option<u64> {
        self.answer().ok().map(|divided| divided.inserted as u64)
    }
}

/// Balances, and what the calls themselves said: how much was granted and charged, of each shop.
#[derive(Default)]
struct Ledger {
    balances: [u64; SHOPS],
    granted: [u128; SHOPS],
    charged: [u128; SHOPS],
}

impl Ledger {
    /// What was granted is what was charged and what is left, of each shop and of all, and no balance is above the limit.
    fn holds(&self) -> bool {
        let left = self.balances.map(u128::from);
        let each = (0..SHOPS).all(|i| self.granted[i] == self.charged[i] + left[i]);
        let sum = |numbers: &[u128]| numbers.iter().sum::<u128>();
        let all = sum(&self.granted) == sum(&self.charged) + sum(&left);
        each && all && self.balances.iter().all(|&left| left <= MOST_BALANCE)
    }
}

#[derive(Default)]
pub struct Quotas {
    calls: [u64; 2],
    rows: u64,
    met: Met,
    differences: Differences,
}

impl Outcome for Quotas {
    fn add(&mut self, more: Quotas) {
        for (calls, more) in self.calls.iter_mut().zip(more.calls) {
            *calls += more;
        }
        self.rows += more.rows;
        self.met.add(more.met);
        self.differences.add(more.differences);
    }
}

impl Quotas {
    /// So many rows, each followed by a few calls on forged balances.
    pub fn compare_drawn(&mut self, rows: u64, random: &mut Random) {
        for _ in 0..rows {
            let works: Vec<Work> = (0..WORKS).map(|_| Work::drawn(random)).collect();
            self.row(&works, CALLS, random);
            self.forged(&works, random);
        }
    }

    /// A row of divisions that need as many insertions as may be, one less, and more.
    pub fn compare_many(&mut self, random: &mut Random) {
        let [_, many] = too_many();
        let counts = [MOST_INSERTED - 1, MOST_INSERTED];
        let mut works: Vec<Work> = counts
            .iter()
            .map(|&count| Work::roomy(needing(count, false, random)))
            .collect();
        works.push(Work::roomy(many));
        self.row(&works, CALLS, random);
    }

    /// From empty balances, over a few shops above all.
    fn row(&mut self, works: &[Work], calls: u64, random: &mut Random) {
        let counts: Vec<u64> = works.iter().filter_map(Work::count).collect();
        let about = [(); 4].map(|()| random.below(SHOPS as u64));
        let mut ledger = Ledger::default();
        for _ in 0..calls {
            let shop = shop(&about, random);
            let place = (shop as usize).min(SHOPS - 1);
            if random.below(2) == 0 {
                let amount = amount(ledger.balances[place], &counts, random);
                let (number, after) = self.grant(&ledger.balances, shop, amount);
                ledger.balances.copy_from_slice(&after);
                if number == 0 {
                    ledger.granted[place] += u128::from(amount);
                }
            } else {
                let work = &works[random.below(works.len() as u64) as usize];
                let (number, count, after) = self.divide(&ledger.balances, shop, work);
                ledger.balances.copy_from_slice(&after);
                if number == 0 {
                    ledger.charged[place] += u128::from(count);
                }
            }
            let balances = ledger.balances;
            self.differ(!ledger.holds(), || {
                format!("the sums of a row are not kept: {balances:?}")
            });
        }
        self.rows += 1;
    }

    /// Balances of any size, and of another number.
    fn forged(&mut self, works: &[Work], random: &mut Random) {
        for _ in 0..4 {
            let length = match random.below(2) {
                0 => SHOPS,
                _ => random.one_of(&[0, 1, 31, 33, 64]),
            };
            let any = |_| match random.below(3) {
                0 => MOST_BALANCE + random.below(4),
                1 => u64::MAX - random.below(4),
                _ => random.bits() >> random.below(64),
            };
            let balances: Vec<u64> = (0..length).map(any).collect();
            let shop = shop(&[0, 31], random);
            let balance = balances.get(shop as usize).copied().unwrap_or(0);
            let amount = amount(balance, &[1, 7], random);
            self.grant(&balances, shop, amount);
            let work = &works[random.below(works.len() as u64) as usize];
            self.divide(&balances, shop, work);
        }
    }

    /// What the call said, and the balances that it must leave.
    fn grant(&mut self, balances: &[u64], shop: u64, amount: u64) -> (u32, Vec<u64>) {
        let answer = granted(balances, shop, amount);
        let must = answer.as_ref().err().copied().unwrap_or(0);
        let after = answer.unwrap_or_else(|_| balances.to_vec());
        let (number, held) = ask_grant(balances, shop, amount, &after);
        self.calls[0] += 1;
        self.met.count(format!("grant, {}", answered(must)));
        for way in grant_ways(balances, shop, amount, must) {
            self.met.count(way);
        }
        self.differ(number != must || !held, || {
            format!("grant of {amount} to shop {shop} of {balances:?}: {number}, expected {must}")
        });
        (number, after)
    }

    /// The same, with the count that the call said.
    fn divide(&mut self, balances: &[u64], shop: u64, work: &Work) -> (u32, u64, Vec<u64>) {
        let (answer, after) = charged(balances, shop, work.answer());
        let must = telling(answer, work.rooms);
        let (told, held) = ask_division(balances, shop, (&work.division, work.rooms), &after);
        let number = must.told.number;
        self.calls[1] += 1;
        self.met.count(format!("divide_for, {}", answered(number)));
        for way in divide_ways(balances, shop, work, number) {
            self.met.count(way);
        }
        self.differ(told != must || !held, || {
            let Work {
                division, rooms, ..
            } = work;
            format!(
                "divide_for shop {shop} of {balances:?} with {rooms:?}: {division}\n    told {told}"
            )
        });
        (told.told.number, told.inserted[1], after)
    }

    fn differ(&mut self, is: bool, words: impl FnOnce() -> String) {
        if is {
            self.differences.note(words);
        }
    }

    /// Status 1 where there is a difference, or something was met less often than `fewest` times.
    pub fn print(&self, fewest: u64) -> ExitCode {
        let rare = self.met.print(ways().into_iter().map(|way| (way, fewest)));
        let [grants, divisions] = self.calls;
        println!(
            "{} rows, {grants} grants and {divisions} divisions, {} calls",
            self.rows,
            grants + divisions
        );
        let differs = self.differences.print("quotas");
        ExitCode::from(u8::from(rare || differs))
    }
}

impl Account for Quotas {
    fn calls(&self) -> Vec<(&'static str, u64)> {
        ENTRIES.into_iter().zip(self.calls).collect()
    }

    fn noted(&self) -> Vec<&Differences> {
        vec![&self.differences]
    }

    fn unmet(&self) -> Vec<String> {
        self.met.unmet(ways())
    }
}

fn answered(number: u32) -> String {
    match number {
        0 => "served".to_owned(),
        _ => number.to_string(),
    }
}

const GRANTS: [&str; 7] = [
    "grant, of nothing",
    "grant, to just the limit",
    "grant, 17 by one",
    "grant, 17 where the sum overflows",
    "grant, 17 on a balance above the limit",
    "grant, 34 without 32 balances",
    "grant, served on the last shop",
];

fn grant_ways(balances: &[u64], shop: u64, amount: u64, must: u32) -> Vec<&'static str> {
    let balance = balances.get(shop as usize).copied().unwrap_or(0);
    let sum = u128::from(balance) + u128::from(amount);
    let most = u128::from(MOST_BALANCE);
    let met = [
        must == 0 && amount == 0,
        must == 0 && sum == most && amount > 0,
        must == 17 && sum == most + 1,
        must == 17 && sum > u128::from(u64::MAX),
        must == 17 && balance > MOST_BALANCE,
        must == 34 && balances.len() != SHOPS,
        must == 0 && shop == 31,
    ];
    let all = GRANTS.into_iter().zip(met);
    all.filter_map(|(way, met)| met.then_some(way)).collect()
}

const DIVISIONS: [&str; 6] = [
    "divide_for, just the balance",
    "divide_for, nothing inserted and nothing left",
    "divide_for, 35 by one",
    "divide_for, 35 with nothing left",
    "divide_for, 34 without 32 balances",
    "divide_for, 20 of the balances alone",
];

fn divide_ways(balances: &[u64], shop: u64, work: &Work, must: u32) -> Vec<&'static str> {
    let balance = balances.get(shop as usize).copied().unwrap_or(0);
    let count = work.count();
    let met = [
        must == 0 && count == Some(balance) && balance > 0,
        must == 0 && count == Some(0) && balance == 0,
        must == 35 && count == Some(balance + 1),
        must == 35 && balance == 0,
        must == 34 && balances.len() != SHOPS,
        must == 20 && count.is_some(),
    ];
    let all = DIVISIONS.into_iter().zip(met);
    all.filter_map(|(way, met)| met.then_some(way)).collect()
}

/// All that can be met.
fn ways() -> Vec<String> {
    let granted = [0, 17, 20, 34].map(|number| format!("grant, {}", answered(number)));
    let numbers = [
        0, 3, 4, 5, 6, 7, 8, 9, 16, 17, 19, 20, 27, 28, 29, 30, 34, 35,
    ];
    let divided = numbers.map(|number| format!("divide_for, {}", answered(number)));
    let words = GRANTS.into_iter().chain(DIVISIONS).map(String::from);
    granted.into_iter().chain(divided).chain(words).collect()
}
