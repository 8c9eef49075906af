//! What comes of strict divisions and their quotations: how often each answer and each way was met, and the differences
//! from what is expected. Every division that is served is also held to the old one, divided with looser tolerances,
//! and its result once more.

use crate::divided::{self, Divided, MOST_INSERTED, Verdict, telling};
use crate::divisions::{Division, Rooms, spaces};
use crate::insertions::{answered, first_differences};
use crate::loosened::{self, HOW, WHICH};
use crate::met::{Account, Differences, Met};
use crate::parts::Outcome;
use crate::paths::{JOINTS, POSE};
use crate::quote_tally;
use crate::quotes::{self, ENOUGH, Figures, Scratches, joints_of, scratches};
use crate::random::Random;
use crate::reading;
use crate::remarkable::{long, remarkable};
use crate::rust::ported;
use crate::strict_cases::{drawn, with_two_turns};
use crate::stricts::{Expected, Item, QUARTERS, ask, ask_quote, expected, items};
use crate::zigzags::{needing, needing_strictly};
use std::process::ExitCode;

const DIVIDE: &str = "subdivide_strict";
const QUOTE: &str = "quote_strict";

/// Of a path so many pairs of given neighbours are looked at.
const LOOKED_AT: usize = 3;

/// What the two can answer.
const DIVIDED: [&str; 18] = [
    "served",
    "3",
    "4",
    "5",
    "6",
    "7",
    "8",
    "9",
    "16",
    "17",
    "19",
    "20",
    "27",
    "28 before the halving",
    "28 at the first insertion",
    "28 at a later one",
    "29",
    "30",
];
const QUOTED: [&str; 16] = [
    "served", "3", "4", "5", "6", "7", "8", "9", "16", "17", "19", "20", "27", "28", "29", "30",
];

/// How many poses are inserted where nothing is refused.
const INSERTED: [&str; 5] = [
    "none inserted",
    "1 inserted",
    "2 to 9 inserted",
    "10 to 99 inserted",
    "100 or more inserted",
];

/// Beside the old division of the same arguments, which has just the space that the strict one needed.
const BESIDE: [&str; 3] = [
    "the old one inserts none",
    "the old one inserts fewer",
    "the old one inserts as many",
];

/// Once and more: looser, divided again, and what is refused where the old one serves.
const LATER: [&str; 4] = [
    "looser, fewer inserted",
    "divided again",
    "27 where the old one serves",
    "28 where the old one serves",
];

/// What two given neighbours are: waists, by what is off and where.
const WAISTS: [&str; 6] = [
    "a waist, the tip off",
    "a waist, the axis off",
    "a waist, both off",
    "a waist, one quarter off",
    "a waist, three quarters off",
    "a waist, both quarters off",
];

/// A gap at a quarter that is the tolerance to the last bit, and one that misses by the last place alone.
const BORDERS: [&str; 8] = [
    "the tip met exactly at one quarter",
    "the tip met exactly at three quarters",
    "the axis met exactly at one quarter",
    "the axis met exactly at three quarters",
    "the tip missed by one place at one quarter",
    "the tip missed by one place at three quarters",
    "the axis missed by one place at one quarter",
    "the axis missed by one place at three quarters",
];

/// Whole turns, and others.
const OTHERS: [&str; 6] = [
    "720 degrees: the old test passes, the strict one fails",
    "1,440 degrees: both pass",
    "joints that do not differ, tips apart",
    "the old test fails",
    "a waist that stays, its midpoint near an end",
    "counted less than five for every test",
];

/// Each once at least.
const ONCE: [&str; 4] = [
    "needs 9999",
    "needs 10000",
    "needs 10001",
    "100000 poses, thousands inserted",
];

#[derive(Default)]
pub struct Stricts {
    met: Met,
    /// Of the two entries.
    calls: [u64; 2],
    paths: u64,
    /// How many looser divisions there were: each way to loosen comes in turn.
    loosened: usize,
    differences: Differences,
}

impl Outcome for Stricts {
    fn add(&mut self, more: Stricts) {
        self.met.add(more.met);
        for (calls, more) in self.calls.iter_mut().zip(more.calls) {
            *calls += more;
        }
        self.paths += more.paths;
        self.loosened += more.loosened;
        self.differences.add(more.differences);
    }
}

impl Stricts {
    pub fn compare_drawn(&mut self, paths: u64, random: &mut Random) {
        for _ in 0..paths {
            let (division, expected) = drawn(random);
            self.compare(&division, &expected, random);
        }
    }

    /// Paths that need as many insertions as may be, or one less, or one more; and one that only the
    /// old division serves.
    pub fn compare_exact(&mut self, random: &mut Random) {
        for count in MOST_INSERTED - 1..=MOST_INSERTED + 1 {
            let division = needing_strictly(count, random);
            let expected = expected(&division);
            let holds = match expected.quotation.with(ENOUGH) {
                Ok(figures) => figures.inserted == count as u64,
                Err(refusal) => refusal.number == 27 && count > MOST_INSERTED,
            };
            self.met.count_if(&format!("needs {count}"), holds);
            self.compare(&division, &expected, random);
        }
        let turned = with_two_turns(needing(MOST_INSERTED, false, random));
        self.compare(&turned, &expected(&turned), random);
    }

    /// Remarkable paths, and long ones.
    pub fn compare_others(&mut self, random: &mut Random) {
        let others = remarkable().into_iter().chain(long(random));
        for division in others.filter(Division::is_given) {
            self.compare(&division, &expected(&division), random);
        }
    }

    fn compare(&mut self, division: &Division, expected: &Expected, random: &mut Random) {
        self.paths += 1;
        for rooms in spaces(&expected.division, random) {
            let told = ask(division, rooms);
            self.hold(division, &expected.division, rooms, &told);
        }
        let scratches = scratches(random);
        let told = ask_quote(division, scratches);
        self.hold_quote(division, &expected.quotation, scratches, &told);
        self.look(division, expected);
    }

    pub fn hold(
        &mut self,
        division: &Division,
        verdict: &Verdict,
        rooms: Rooms,
        told: &divided::Told,
    ) {
        let answer = verdict.with(rooms);
        self.calls[0] += 1;
        self.met.count(format!("{DIVIDE}, {}", answered(answer)));
        let must = telling(answer, rooms);
        if *told != must {
            let rest = || first_differences(told, &must);
            let words = || format!("{DIVIDE}: {division} rooms {rooms:?}\n{}", rest());
            self.differences.note(words);
        }
        if let (28, Verdict::Judged { then: Ok(_), .. }) = (told.told.number, verdict) {
            let serves = divided::ask(division, rooms).told.number == 0;
            self.met.count_if(LATER[3], serves);
        }
    }

    pub fn hold_quote(
        &mut self,
        division: &Division,
        verdict: &quotes::Verdict,
        scratches: Scratches,
        told: &quotes::Told,
    ) {
        let answer = verdict.with(scratches);
        self.calls[1] += 1;
        let what = quote_tally::answered(answer);
        self.met.count(format!("{QUOTE}, {what}"));
        let must = quotes::telling(answer, scratches);
        if *told != must {
            let input = || format!("{QUOTE}: {division} scratches {scratches:?}");
            let words = || format!("{}\n    told {told}\n    must {must}", input());
            self.differences.note(words);
        }
    }

    /// At what is not refused by a check.
    fn look(&mut self, division: &Division, expected: &Expected) {
        let Verdict::Judged { given, then, .. } = &expected.division else {
            return;
        };
        self.look_at_pairs(division);
        let divided = match then {
            Ok(divided) => divided,
            Err(_) => {
                let records = given + MOST_INSERTED;
                let old = divided::ask(division, [POSE * records, JOINTS * records]);
                self.met.count_if(LATER[2], old.told.number == 0);
                return;
            }
        };
        let figures = expected.quotation.with(ENOUGH);
        self.look_at_figures(*given, figures.expect("a path that is served"));
        self.hold_old(division, divided);
        self.hold_later(division, divided);
    }

    fn look_at_figures(&mut self, given: usize, figures: Figures) {
        let inserted = figures.inserted;
        self.met.count(match inserted {
            0 => INSERTED[0],
            1 => INSERTED[1],
            2..=9 => INSERTED[2],
            10..=99 => INSERTED[3],
            _ => INSERTED[4],
        });
        let tests = (given as u64).saturating_sub(1) + 2 * inserted;
        let fewer = figures.evaluations < 5 * tests + inserted;
        self.met.count_if(OTHERS[5], fewer);
        self.met
            .count_if(ONCE[3], given == 100_000 && inserted > 1000);
    }

    /// The old division with the same space is served, and inserts part of what the strict one does, in the same order.
    fn hold_old(&mut self, division: &Division, divided: &Divided) {
        let told = divided::ask(division, loosened::rooms(divided));
        let given = loosened::given(division);
        if let Some(broken) = loosened::dearer(divided, &given, &told) {
            let words = || format!("the old division: {broken}: {division}\n    told {told}");
            self.differences.note(words);
        }
        let old = told.inserted[1] as usize;
        let kind = match (old, divided.inserted) {
            (_, 0) => return,
            (0, _) => BESIDE[0],
            (old, strict) if old < strict => BESIDE[1],
            _ => BESIDE[2],
        };
        self.met.count(kind);
    }

    /// With looser tolerances the strict division is never dearer, and a divided path comes back the same.
    fn hold_later(&mut self, division: &Division, divided: &Divided) {
        let (which, how) = (
            self.loosened % WHICH.len(),
            self.loosened / WHICH.len() % HOW.len(),
        );
        self.loosened += 1;
        let looser = loosened::loosened(division, which, how);
        let told = ask(&looser, loosened::rooms(divided));
        let fewer = told.inserted[1] < divided.inserted as u64;
        self.met.count_if(LATER[0], fewer);
        let given = loosened::given(division);
        if let Some(broken) = loosened::dearer(divided, &given, &told) {
            let words = || format!("looser: {broken}: {looser}\n    told {told}");
            self.differences.note(words);
        }
        if let Some(again) = loosened::repeated(division, divided) {
            let (told, must) = (
                ask(&again, loosened::rooms(divided)),
                loosened::the_same(divided),
            );
            self.met.count(LATER[1]);
            if told != must {
                let rest = first_differences(&told, &must);
                self.differences
                    .note(|| format!("divided again: {again}\n{rest}"));
            }
        }
    }

    fn look_at_pairs(&mut self, division: &Division) {
        let chain = reading::chain(&division.chain).expect("a chain that is served");
        let rust = ported::setup(&chain).kinematics;
        let items = items(&division.poses, joints_of(division));
        for pair in items.windows(2).take(LOOKED_AT) {
            let (left, right) = (pair[0], pair[1]);
            match rust.tested(left, right, division.tolerances) {
                None => {
                    let apart = apart(left, right) > division.tolerances[0];
                    self.met.count_if(OTHERS[2], apart);
                }
                Some(false) => self.met.count(OTHERS[3]),
                Some(true) => {
                    let gaps = rust.gaps_at(left, right, QUARTERS);
                    let gaps = gaps.expect("poses that are reached");
                    let stays = rust.midpoint(left.1, right.1).is_none();
                    self.look_at_quarters(gaps, division.tolerances, stays);
                    self.look_at_turns(left, right, gaps, division.tolerances);
                }
            }
        }
    }

    /// Of two that pass the old test: the gaps of tip and axis at one quarter and at three quarters.
    fn look_at_quarters(&mut self, gaps: [[f64; 2]; 2], tolerances: [f64; 2], stays: bool) {
        let off = |place: usize, slot: usize| gaps[place][slot] > tolerances[slot];
        let fails = [0, 1].map(|place| [0, 1].map(|slot| off(place, slot)));
        let many = fails.as_flattened().iter().filter(|&&fails| fails).count();
        for (place, slot) in [(0, 0), (1, 0), (0, 1), (1, 1)] {
            let (gap, tolerance) = (gaps[place][slot], tolerances[slot]);
            let border = 2 * slot + place;
            let met = many == 0 && gap == tolerance;
            self.met.count_if(BORDERS[border], met);
            let missed = many == 1 && gap == tolerance.next_up();
            self.met.count_if(BORDERS[4 + border], missed);
        }
        if many == 0 {
            return;
        }
        let [tip, axis] = [0, 1].map(|slot| fails[0][slot] || fails[1][slot]);
        let [first, last] = fails.map(|fails| fails[0] || fails[1]);
        self.met.count(match (tip, axis) {
            (true, false) => WAISTS[0],
            (false, _) => WAISTS[1],
            _ => WAISTS[2],
        });
        self.met.count(match (first, last) {
            (true, false) => WAISTS[3],
            (false, _) => WAISTS[4],
            _ => WAISTS[5],
        });
        self.met.count_if(OTHERS[4], stays);
    }

    fn look_at_turns(
        &mut self,
        left: Item,
        right: Item,
        gaps: [[f64; 2]; 2],
        tolerances: [f64; 2],
    ) {
        let by = [0, 1].map(|slot| (right.1.angles[slot] - left.1.angles[slot]).abs());
        let turned = |degrees: f64| by.contains(&degrees) && by.iter().all(|x| x % degrees == 0.0);
        let pass = gaps
            .iter()
            .all(|gaps| gaps[0] <= tolerances[0] && gaps[1] <= tolerances[1]);
        self.met.count_if(OTHERS[0], turned(720.0) && !pass);
        self.met.count_if(OTHERS[1], turned(1440.0) && pass);
    }

    pub fn differences(&self) -> u64 {
        self.differences.count()
    }

    /// Status 1 where there is a difference, or where something was met less often than `fewest` times.
    pub fn print(&self, fewest: u64) -> ExitCode {
        let rare = self.met.print(all(fewest));
        let [divided, quoted] = self.calls;
        println!(
            "{} paths, {divided} divisions, {quoted} quotations",
            self.paths
        );
        let different = self.differences.print("stricts");
        ExitCode::from(u8::from(different || rare))
    }
}

impl Account for Stricts {
    fn calls(&self) -> Vec<(&'static str, u64)> {
        [DIVIDE, QUOTE].into_iter().zip(self.calls).collect()
    }

    fn noted(&self) -> Vec<&Differences> {
        vec![&self.differences]
    }

    fn unmet(&self) -> Vec<String> {
        let unmet = self.met.unmet(all(1).into_iter().map(|(what, _)| what));
        let named = |what: String| match what.starts_with(DIVIDE) || what.starts_with(QUOTE) {
            true => what,
            false => format!("{DIVIDE}, {what}"),
        };
        unmet.into_iter().map(named).collect()
    }
}

/// How far the tips are apart.
fn apart(left: Item, right: Item) -> f64 {
    let [left, right] = [left, right].map(|item| ported::pose_numbers(item.0));
    let square = |i: usize| (left[i] - right[i]).powi(2);
    (square(0) + square(1) + square(2)).sqrt()
}

/// All that must be met, with how often.
fn all(fewest: u64) -> Vec<(String, u64)> {
    let divided = DIVIDED.iter().map(|what| format!("{DIVIDE}, {what}"));
    let quoted = QUOTED.iter().map(|what| format!("{QUOTE}, {what}"));
    let ways = [&INSERTED[..], &BESIDE, &LATER, &WAISTS, &BORDERS, &OTHERS].concat();
    let ways = ways.into_iter().map(str::to_owned);
    let often = divided.chain(quoted).chain(ways);
    let rare = |what: &str| what == LATER[2] || what.ends_with(", 27");
    let fewest = |what: &str| if rare(what) { 1 } else { fewest };
    let often = often.map(|what| (what.clone(), fewest(&what)));
    let once = ONCE.iter().map(|&what| (what.to_owned(), 1));
    often.chain(once).collect()
}

#[cfg(test)]
mod tests {
    use super::*;
    use crate::calls::LENT;

    type Fault = fn(&Division, Rooms, &mut divided::Told);
    type QuoteFault = fn(&Division, &mut quotes::Told);

    /// Compares what exports with a fault would tell, and gives how often that was noticed.
    fn noticed(fault: Fault, of_quote: QuoteFault) -> u64 {
        let mut random = Random::new(7);
        let mut stricts = Stricts::default();
        for _ in 0..1500 {
            let (division, expected) = drawn(&mut random);
            for rooms in spaces(&expected.division, &mut random) {
                let mut told = telling(expected.division.with(rooms), rooms);
                fault(&division, rooms, &mut told);
                stricts.hold(&division, &expected.division, rooms, &told);
            }
            let scratches = scratches(&mut random);
            let mut told = quotes::telling(expected.quotation.with(scratches), scratches);
            of_quote(&division, &mut told);
            stricts.hold_quote(&division, &expected.quotation, scratches, &told);
        }
        stricts.differences()
    }

    const FAULTS: [(&str, Fault); 5] = [
        ("the old division", |division, rooms, told| {
            *told = telling(divided::expected(division).with(rooms), rooms);
        }),
        ("a count of 0", |_, _, told| told.inserted[1] = 0),
        ("27 for 28", |_, _, told| {
            if told.told.number == 28 {
                told.told.number = 27;
            }
        }),
        ("a last place of the first number", |_, rooms, told| {
            if told.told.number == 0 && rooms[0] > 0 {
                told.told.numbers[crate::calls::GUARD] ^= 1;
            }
        }),
        ("outputs kept at 28", |_, _, told| {
            if told.told.number == 28 {
                told.told.numbers.fill(LENT);
            }
        }),
    ];

    /// What the old quotation says, where it is accepted too.
    fn old_figures(division: &Division) -> Option<Figures> {
        quotes::expected(division).with(ENOUGH).ok()
    }

    const QUOTE_FAULTS: [(&str, QuoteFault); 5] = [
        ("the old quotation", |division, told| {
            if let (0, Some(old)) = (told.number, old_figures(division)) {
                (told.inserted[1], told.poses[1]) = (old.inserted, old.poses);
                told.evaluations[1] = old.evaluations;
            }
        }),
        ("three for five", |_, told| {
            let tests = told.evaluations[1].saturating_sub(told.inserted[1]) / 5;
            told.evaluations[1] -= 2 * tests;
        }),
        ("three where the old test fails", |_, told| {
            told.evaluations[1] -= (2 * told.inserted[1]).min(told.evaluations[1]);
        }),
        ("insertions not counted", |_, told| {
            told.evaluations[1] -= told.inserted[1].min(told.evaluations[1]);
        }),
        ("five for joints that do not differ", |division, told| {
            if told.number == 0 {
                let tests = (division.given() as u64).saturating_sub(1) + 2 * told.inserted[1];
                told.evaluations[1] = 5 * tests + told.inserted[1];
            }
        }),
    ];

    #[test]
    fn every_fault_is_noticed() {
        assert_eq!(noticed(|_, _, _| (), |_, _| ()), 0);
        for (words, fault) in FAULTS {
            assert!(noticed(fault, |_, _| ()) > 0, "{words}");
        }
        for (words, fault) in QUOTE_FAULTS {
            assert!(noticed(|_, _, _| (), fault) > 0, "{words}");
        }
    }
}
