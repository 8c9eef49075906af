//! What comes of calling inverse and choose: how often each refusal, each count and each kind of machine was met, the differences
//! from what is expected, and how far the answers lie from those that the Rust gives with libm.

use crate::inverse_calls::{Told, ask, telling};
use crate::inverse_cases::{Case, Entry};
use crate::inverse_reference::{Answer, Sets, expected, with_libm};
use crate::met::{Account, Differences, calls_by_number};
use crate::parts::Outcome;
use crate::random::Random;
use crate::reading;
use std::process::ExitCode;

/// One more than the last number of document 01's table.
const NUMBERS: usize = 30;

/// What both entries can answer, 0 for a call that is served.
const ANSWERED: [u32; 16] = [0, 3, 4, 5, 6, 7, 8, 9, 14, 15, 16, 17, 20, 21, 22, 29];

/// One more than the most joint sets.
const COUNTS: usize = 51;

/// A chain's rotaries by carrier, in order.
const MACHINES: [&str; 6] = [
    "table",
    "head",
    "table, table",
    "table, head",
    "head, table",
    "head, head",
];

const CHOICES: [&str; 3] = ["nearest", "first positive", "first negative"];

/// A joint set with libm that is farther than this from every one without, in degrees, is another one: at 36,000 degrees one place is
/// 7.3e-12.
const OTHER: f64 = 1e-11;

/// Tip, pivots and tool up to this many mm are those of a usual machine.
const USUAL_LENGTH: f64 = 1000.0;

#[derive(Default)]
pub struct Tally {
    met: [[u64; NUMBERS]; Entry::ALL.len()],
    counts: Counts,
    machines: [u64; MACHINES.len()],
    choices: [u64; CHOICES.len()],
    differences: Differences,
    from_libm: [FromLibm; Entry::ALL.len()],
}

struct Counts([u64; COUNTS]);

impl Default for Counts {
    fn default() -> Self {
        Counts([0; COUNTS])
    }
}

/// Whether there are limits with as many answers: each of two raw solutions has as many as the product of the turns that fit its two
/// angles, at most five each, and in the other's the turns differ by at most one.
fn possible(count: usize) -> bool {
    let turns = |n: usize| n.saturating_sub(1)..=(n + 1).min(5);
    (1..=5).any(|a| {
        (1..=5).any(|b| {
            let rest = |c, d| a * b + c * d == count;
            a * b == count || turns(a).any(|c| turns(b).any(|d| rest(c, d)))
        })
    })
}

impl Outcome for Tally {
    fn add(&mut self, more: Tally) {
        let met = self.met.as_flattened_mut().iter_mut();
        let counts = self.counts.0.iter_mut();
        let others = self.machines.iter_mut().chain(&mut self.choices);
        let mores = more.met.as_flattened().iter().chain(&more.counts.0);
        let mores = mores.chain(&more.machines).chain(&more.choices);
        for (count, more) in met.chain(counts).chain(others).zip(mores) {
            *count += more;
        }
        self.differences.add(more.differences);
        for (sum, more) in self.from_libm.iter_mut().zip(more.from_libm) {
            sum.add(more);
        }
    }
}

impl Tally {
    /// Calls both exports on so many cases.
    pub fn compare_drawn(&mut self, cases: u64, random: &mut Random) {
        for _ in 0..cases {
            let case = Case::new(random);
            for entry in Entry::ALL {
                self.compare(entry, &case, &ask(entry, &case));
            }
        }
    }

    /// Holds what a call told to what it must tell.
    pub fn compare(&mut self, entry: Entry, case: &Case, told: &Told) {
        let answer = expected(entry, case);
        let must = telling(entry, case, &answer);
        self.see(entry, case, &answer);
        let finite = answer.iter().flatten().flatten().all(|x| x.is_finite());
        if *told != must || !finite {
            let name = entry.name();
            self.differences
                .note(|| format!("{name}: {case}\n    told {told}\n    must {must}"));
        }
    }

    fn see(&mut self, entry: Entry, case: &Case, answer: &Answer) {
        let number = answer.as_ref().err().map_or(0, |refusal| refusal.number);
        self.met[entry as usize][number as usize] += 1;
        if matches!(number, 0 | 21 | 22) {
            self.from_libm[entry as usize].see(entry, case, answer);
        }
        let Ok(sets) = answer else { return };
        match entry {
            Entry::Inverse => {
                self.counts.0[sets.len()] += 1;
                self.machines[machine(case)] += 1;
            }
            Entry::Choose => self.choices[case.choice as usize] += 1,
        }
    }

    pub fn differences(&self) -> u64 {
        self.differences.count()
    }

    /// Status 1 where there is a difference, or where something was met less often than `fewest` times; of a count a tenth of
    /// that is enough.
    pub fn print(&self, fewest: u64) -> ExitCode {
        let rare = self.print_met(fewest);
        for (entry, from_libm) in Entry::ALL.iter().zip(&self.from_libm) {
            from_libm.print(*entry);
        }
        let different = self.differences.print("inverses");
        ExitCode::from(u8::from(different || rare))
    }

    fn print_met(&self, fewest: u64) -> bool {
        println!("{:9} {:>12} {:>12}", "answer", "inverse", "choose");
        let mut least = u64::MAX;
        for number in ANSWERED {
            let [inverse, choose] = self.met.map(|met| met[number as usize]);
            println!("{number:<9} {inverse:12} {choose:12}");
            least = least.min(inverse).min(choose);
        }
        let counts: Vec<String> = (1..COUNTS)
            .map(|count| (count, self.counts.0[count]))
            .filter(|&(count, met)| met > 0 || possible(count))
            .map(|(count, met)| format!("{count}: {met}"))
            .collect();
        println!("joint sets  {}", counts.join(", "));
        let of_counts = (1..COUNTS).filter(|&count| possible(count));
        least = of_counts.fold(least, |least, count| least.min(10 * self.counts.0[count]));
        let machines = MACHINES.iter().zip(self.machines);
        for (words, met) in machines.chain(CHOICES.iter().zip(self.choices)) {
            println!("{words:16} {met:12}");
            least = least.min(met);
        }
        if least < fewest {
            println!("something was met too seldom: {least}, and {fewest} are asked");
        }
        least < fewest
    }
}

impl Account for Tally {
    fn calls(&self) -> Vec<(&'static str, u64)> {
        calls_by_number(Entry::ALL.map(Entry::name), &self.met)
    }

    fn noted(&self) -> Vec<&Differences> {
        vec![&self.differences]
    }

    fn unmet(&self) -> Vec<String> {
        let answers = Entry::ALL.into_iter().flat_map(|entry| {
            let met = self.met[entry as usize];
            let none = ANSWERED.into_iter().filter(move |&n| met[n as usize] == 0);
            none.map(move |number| format!("{}, {number}", entry.name()))
        });
        let counts = (1..COUNTS).filter(|&count| possible(count) && self.counts.0[count] == 0);
        let sets = counts.map(|count| format!("inverse, {count} joint sets"));
        answers.chain(sets).collect()
    }
}

/// Which of MACHINES a served case has.
fn machine(case: &Case) -> usize {
    let chain = reading::chain(&case.chain).expect("a chain that is served");
    let [first, second] = chain.rotaries.map(|rotary| usize::from(rotary.carrier));
    match chain.count {
        1 => first,
        _ => 2 + 2 * first + second,
    }
}

/// The largest distances from the answers with libm, over those where both have the same joint sets, and in how many calls that come to
/// their solving they have not, or have another number.
#[derive(Default)]
struct FromLibm {
    compared: u64,
    other_number: u64,
    others: u64,
    angle: Most,
    point: Most,
    usual_point: Most,
}

#[derive(Default)]
struct Most {
    value: f64,
    case: Option<Case>,
}

impl Most {
    fn see(&mut self, value: f64, case: &Case) {
        if value > self.value {
            self.value = value;
            self.case = Some(case.clone());
        }
    }

    fn add(&mut self, more: Most) {
        if more.value > self.value {
            *self = more;
        }
    }

    fn print(&self, entry: &str, words: &str) {
        println!("{entry} from libm, {words}: at most {:.3e}", self.value);
        if let Some(case) = &self.case {
            println!("    at {case}");
        }
    }
}

impl FromLibm {
    fn see(&mut self, entry: Entry, case: &Case, answer: &Answer) {
        self.compared += 1;
        match (answer, with_libm(entry, case)) {
            (Ok(sets), Ok(libms)) => self.measure(case, sets, &libms),
            (Err(refusal), Err(number)) if refusal.number == number => (),
            _ => self.other_number += 1,
        }
    }

    fn measure(&mut self, case: &Case, sets: &Sets, libms: &Sets) {
        let pairs: Vec<_> = sets.iter().map(|set| nearest(set, libms)).collect();
        let others = pairs.iter().any(|&(gap, _)| gap > OTHER);
        if libms.len() != sets.len() || others {
            self.others += 1;
            return;
        }
        for (set, (gap, libm)) in sets.iter().zip(pairs) {
            self.angle.see(gap, case);
            let point = (0..3).map(|i| (set[i] - libm[i]).powi(2)).sum::<f64>();
            let point = point.sqrt();
            self.point.see(point, case);
            if point > self.usual_point.value && usual(case) {
                self.usual_point.see(point, case);
            }
        }
    }

    fn add(&mut self, more: FromLibm) {
        self.compared += more.compared;
        self.other_number += more.other_number;
        self.others += more.others;
        self.angle.add(more.angle);
        self.point.add(more.point);
        self.usual_point.add(more.usual_point);
    }

    fn print(&self, entry: Entry) {
        let FromLibm {
            compared,
            other_number,
            others,
            ..
        } = self;
        let name = entry.name();
        println!(
            "{name} with libm, of {compared} that are solved: {other_number} have another number, {others} other joint sets"
        );
        self.angle.print(name, "angle, degrees");
        self.point.print(name, "point, mm");
        self.usual_point
            .print(name, "point, mm, within 1000 mm and 360 degrees");
    }
}

/// The larger of the angles' differences, and the set where it is least.
fn nearest(set: &[f64; 5], libms: &Sets) -> (f64, [f64; 5]) {
    let gap = |libm: &[f64; 5]| (set[3] - libm[3]).abs().max((set[4] - libm[4]).abs());
    let each = libms.iter().map(|libm| (gap(libm), *libm));
    each.min_by(|one, other| one.0.total_cmp(&other.0))
        .unwrap_or((f64::INFINITY, *set))
}

fn usual(case: &Case) -> bool {
    let Ok(chain) = reading::chain(&case.chain) else {
        return false;
    };
    let pivots = chain.present().flat_map(|rotary| rotary.pivot);
    let tip = case.pose[..3].iter().copied();
    let mut lengths = pivots.chain(tip).chain([case.tool_length]);
    lengths.all(|x| x.abs() <= USUAL_LENGTH) && case.hint.iter().all(|x| x.abs() <= 360.0)
}

#[cfg(test)]
mod tests {
    use super::*;
    use crate::calls::{GUARD, LENT, LENT_AT, LENT_LETTER};
    use crate::inverse_calls::LENT_COUNT;
    use crate::random::Random;

    /// Changes what an export tells, where the fault shows.
    type Fault = fn(Entry, &Case, &mut Told);

    /// Compares what an export with a fault would tell, and gives how often that was noticed.
    fn noticed(fault: Fault) -> u64 {
        let mut random = Random::new(7);
        let mut tally = Tally::default();
        for _ in 0..6000 {
            let case = Case::new(&mut random);
            for entry in Entry::ALL {
                let mut told = telling(entry, &case, &expected(entry, &case));
                fault(entry, &case, &mut told);
                tally.compare(entry, &case, &told);
            }
        }
        tally.differences()
    }

    /// The lent numbers without their guards.
    fn lent(told: &mut Told) -> &mut [u64] {
        let end = told.numbers.len() - GUARD;
        &mut told.numbers[GUARD..end]
    }

    const FAULTS: [(&str, Fault); 13] = [
        ("a list that is cleared with 15", |_, _, told| {
            if told.number == 15 {
                lent(told).fill(0);
            }
        }),
        ("a list that is kept with 21", |_, _, told| {
            if told.number == 21 {
                lent(told).fill(LENT);
            }
        }),
        ("a count that is written with 17", |entry, _, told| {
            if told.number == 17 && entry == Entry::Inverse {
                told.count[1] = 0;
            }
        }),
        ("a count that is kept with 22", |entry, _, told| {
            if told.number == 22 && entry == Entry::Inverse {
                told.count[1] = LENT_COUNT;
            }
        }),
        ("a count that is written by choose", |entry, _, told| {
            if entry == Entry::Choose {
                told.count[1] = 1;
            }
        }),
        ("21 for 22", |_, _, told| {
            if told.number == 22 {
                told.number = 21;
            }
        }),
        ("two joint sets out of order", |_, _, told| {
            if (2..=50).contains(&told.count[1]) {
                lent(told)[..10].rotate_left(5);
            }
        }),
        ("-0.0 past the count", |_, _, told| {
            if told.number == 0 && (1..50).contains(&told.count[1]) {
                lent(told)[249] = 1 << 63;
            }
        }),
        ("a last place of an angle", |_, _, told| {
            if told.number == 0 {
                lent(told)[4] ^= 1;
            }
        }),
        ("an index left unwritten", |_, _, told| {
            if told.number == 21 {
                told.at[1] = LENT_AT;
            }
        }),
        ("a letter left unwritten", |_, _, told| {
            if told.number == 0 {
                told.letter[1] = LENT_LETTER;
            }
        }),
        ("a number written past the end", |_, _, told| {
            if let Some(last) = told.numbers.last_mut() {
                *last = 0;
            }
        }),
        ("the hint before the axis", |_, case, told| {
            if told.number == 15 && case.hint.iter().any(|x| !x.is_finite()) {
                told.number = 16;
            }
        }),
    ];

    #[test]
    fn every_fault_is_noticed() {
        assert_eq!(noticed(|_, _, _| ()), 0);
        for (words, fault) in FAULTS {
            assert!(noticed(fault) > 0, "{words}");
        }
    }

    #[test]
    fn counts_are_sums_of_products() {
        let none: Vec<usize> = (1..COUNTS).filter(|&count| !possible(count)).collect();
        assert_eq!(
            none,
            [19, 26, 29, 33, 34, 37, 38, 39, 42, 43, 44, 46, 47, 48, 49]
        );
    }
}
