//! What comes of calling the exports: how often each refusal was met, the differences from what is expected, and how far the
//! answers lie from those that the Rust gives with libm.

use crate::calls::{Told, ask, telling};
use crate::cases::{Case, Entry};
use crate::met::{Account, Differences, calls_by_number};
use crate::parts::Outcome;
use crate::random::Random;
use crate::reading;
use crate::reference::{expected, with_libm};
use std::process::ExitCode;

/// One more than the last number of document 01's table.
const NUMBERS: usize = 30;

/// Positions, pivots and tools up to this many mm, and angles up to this many degrees, are those of a usual machine.
const USUAL_LENGTH: f64 = 1000.0;
const USUAL_ANGLE: f64 = 360.0;

#[derive(Default)]
pub struct Tally {
    met: [[u64; NUMBERS]; Entry::ALL.len()],
    differences: Differences,
    from_libm: [FromLibm; Entry::ALL.len()],
}

/// The numbers that an entry can answer, 0 for a call that is served.
fn answered(entry: Entry) -> &'static [u32] {
    match entry {
        Entry::CheckChain => &[0, 3, 4, 5, 6, 7, 8, 9, 17, 29],
        Entry::Forward => &[0, 3, 4, 5, 6, 7, 8, 9, 14, 16, 17, 20, 29],
        Entry::CheckModel => &[0, 1, 2, 3, 4, 5, 6, 7, 8, 9, 10, 11, 12, 13, 17, 29],
        Entry::LinkWorld | Entry::LinkInPart => {
            &[0, 1, 2, 3, 4, 5, 6, 7, 8, 9, 10, 11, 12, 13, 16, 17, 20, 29]
        }
    }
}

impl Outcome for Tally {
    fn add(&mut self, more: Tally) {
        let all = self.met.as_flattened_mut().iter_mut();
        for (count, more) in all.zip(more.met.as_flattened()) {
            *count += more;
        }
        self.differences.add(more.differences);
        for (most, more) in self.from_libm.iter_mut().zip(more.from_libm) {
            most.add(more);
        }
    }
}

impl Tally {
    /// Calls the exports on so many chains with joints, and on so many models.
    pub fn compare_drawn(&mut self, chains: u64, models: u64, random: &mut Random) {
        for _ in 0..chains {
            let case = Case::of_chain(random);
            for entry in Entry::OF_CHAINS {
                self.compare(entry, &case, &ask(entry, &case));
            }
        }
        for _ in 0..models {
            let case = Case::of_model(random);
            for entry in Entry::OF_MODELS {
                self.compare(entry, &case, &ask(entry, &case));
            }
        }
    }

    /// Holds what a call told to what it must tell.
    pub fn compare(&mut self, entry: Entry, case: &Case, told: &Told) {
        let answer = expected(entry, case);
        let must = telling(entry, case, &answer);
        self.met[entry as usize][must.number as usize] += 1;
        let all_finite = answer.iter().flatten().all(|x| x.is_finite());
        if *told != must || !all_finite {
            let name = entry.name();
            self.differences
                .note(|| format!("{name}: {case}\n    told {told}\n    must {must}"));
        } else if let Ok(answers) = &answer
            && let Some(libms) = with_libm(entry, case)
        {
            self.from_libm[entry as usize].see(case, answers, &libms);
        }
    }

    pub fn differences(&self) -> u64 {
        self.differences.count()
    }

    /// Status 1 where there is a difference, or where some answer was met less often than `fewest` times.
    pub fn print(&self, fewest: u64) -> ExitCode {
        let rare = self.print_met(fewest);
        for entry in Entry::ALL {
            self.from_libm[entry as usize].print(entry);
        }
        let different = self.differences.print("chains");
        ExitCode::from(u8::from(different || rare))
    }

    /// A row for each number. Whether one was met too seldom.
    fn print_met(&self, fewest: u64) -> bool {
        print!("{:9}", "answer");
        for entry in Entry::ALL {
            print!(" {:>12}", entry.name());
        }
        println!();
        let mut rare = false;
        let met_by_any = |number: &u32| Entry::ALL.iter().any(|&e| answered(e).contains(number));
        for number in (0..NUMBERS as u32).filter(met_by_any) {
            match number {
                0 => print!("{:9}", "served"),
                _ => print!("{number:<9}"),
            }
            for entry in Entry::ALL {
                let count = self.met[entry as usize][number as usize];
                let possible = answered(entry).contains(&number);
                rare |= possible && count < fewest;
                match (possible, count) {
                    (false, 0) => print!(" {:>12}", ""),
                    _ => print!(" {count:12}"),
                }
            }
            println!();
        }
        if rare {
            println!("an answer was met less often than {fewest} times");
        }
        rare
    }
}

impl Account for Tally {
    fn calls(&self) -> Vec<(&'static str, u64)> {
        calls_by_number(Entry::ALL.map(Entry::name), &self.met)
    }

    fn noted(&self) -> Vec<&Differences> {
        vec![&self.differences]
    }

    fn unmet(&self) -> Vec<String> {
        let unmet = |entry: Entry| {
            let met = self.met[entry as usize];
            let all = answered(entry).iter();
            all.filter(move |&&number| met[number as usize] == 0)
                .map(move |number| format!("{}, {number}", entry.name()))
        };
        Entry::ALL.into_iter().flat_map(unmet).collect()
    }
}

/// The largest of its kind that was seen, and the call's inputs; name and model take no part in an answer.
#[derive(Default)]
struct Most {
    value: f64,
    case: Option<Case>,
}

impl Most {
    fn see(&mut self, value: f64, case: &Case) {
        if value > self.value {
            self.value = value;
            self.case = Some(Case {
                name: Vec::new(),
                model: Vec::new(),
                ..case.clone()
            });
        }
    }

    fn add(&mut self, more: Most) {
        if more.value > self.value {
            *self = more;
        }
    }
}

/// The largest distances from the answers with libm: of the point in mm, on every machine and on a usual one, and of an axis.
#[derive(Default)]
struct FromLibm {
    point: Most,
    usual_point: Most,
    axis: Most,
}

impl FromLibm {
    /// Of a point and then axes.
    fn see(&mut self, case: &Case, answers: &[f64], libms: &[f64]) {
        let gaps: Vec<f64> = answers
            .chunks(3)
            .zip(libms.chunks(3))
            .map(|(v, w)| v.iter().zip(w).map(|(x, y)| (x - y) * (x - y)).sum::<f64>())
            .map(f64::sqrt)
            .collect();
        let [point, axes @ ..] = &gaps[..] else {
            return;
        };
        self.point.see(*point, case);
        if *point > self.usual_point.value && usual(case) {
            self.usual_point.see(*point, case);
        }
        for axis in axes {
            self.axis.see(*axis, case);
        }
    }

    fn add(&mut self, more: FromLibm) {
        self.point.add(more.point);
        self.usual_point.add(more.usual_point);
        self.axis.add(more.axis);
    }

    fn print(&self, entry: Entry) {
        let each = [
            ("point, mm", &self.point),
            (
                "point, mm, within 1000 mm and 360 degrees",
                &self.usual_point,
            ),
            ("axis", &self.axis),
        ];
        for (words, most) in each {
            if let Some(case) = &most.case {
                println!(
                    "{} from libm, {words}: at most {:.3e}",
                    entry.name(),
                    most.value
                );
                println!("    at {case}");
            }
        }
    }
}

fn usual(case: &Case) -> bool {
    let Ok(chain) = reading::chain(&case.chain) else {
        return false;
    };
    let (position, angles) = case.joints.split_at(3);
    let pivots = chain.present().flat_map(|rotary| rotary.pivot);
    let mut lengths = pivots
        .chain(position.iter().copied())
        .chain([case.tool_length]);
    lengths.all(|x| x.abs() <= USUAL_LENGTH) && angles.iter().all(|x| x.abs() <= USUAL_ANGLE)
}

#[cfg(test)]
mod tests {
    use super::*;
    use crate::calls::{GUARD, LENT_AT, LENT_LETTER};
    use crate::reference::expected;

    /// Changes what an export tells, where the fault shows.
    type Fault = fn(Entry, &Case, &mut Told);

    /// Compares what an export with a fault would tell, and gives how often that was noticed.
    fn noticed(fault: Fault) -> u64 {
        let mut random = Random::new(7);
        let mut tally = Tally::default();
        for round in 0..8000 {
            let (entries, case) = match round % 4 {
                0 => (&Entry::OF_MODELS[..], Case::of_model(&mut random)),
                _ => (&Entry::OF_CHAINS[..], Case::of_chain(&mut random)),
            };
            for &entry in entries {
                let mut told = telling(entry, &case, &expected(entry, &case));
                fault(entry, &case, &mut told);
                tally.compare(entry, &case, &told);
            }
        }
        tally.differences()
    }

    /// Refuses with another number, as where a check stands in front of those that are due.
    fn refuse(told: &mut Told, number: u32) {
        told.number = number;
        told.at[1] = 0;
    }

    const FAULTS: [(&str, Fault); 12] = [
        ("a rotary under the other's index", |_, _, told| {
            if (4..=8).contains(&told.number) {
                told.at[1] = 0;
            }
        }),
        ("the link before the one at fault", |_, _, told| {
            if (11..=13).contains(&told.number) {
                told.at[1] = told.at[1].saturating_sub(1);
            }
        }),
        ("the offset behind the bad field", |_, _, told| {
            if told.number == 29 {
                told.at[1] += 1;
            }
        }),
        ("an index left unwritten", |_, _, told| {
            if told.number == 0 {
                told.at[1] = LENT_AT;
            }
        }),
        ("a letter left unwritten", |_, _, told| {
            if told.number == 17 {
                told.letter[1] = LENT_LETTER;
            }
        }),
        ("a number written on a refusal", |_, case, told| {
            if told.number == 16 && case.room > 0 {
                told.numbers[GUARD] = 0;
            }
        }),
        ("a number written past the end", |_, _, told| {
            if let Some(last) = told.numbers.last_mut() {
                *last = 0;
            }
        }),
        ("a last place of the last number", |entry, case, told| {
            if told.number == 0 && entry == Entry::Forward {
                told.numbers[GUARD + case.room - 1] ^= 1;
            }
        }),
        ("joints before the chain", |_, case, told| {
            let not_finite = case.joints.iter().any(|x| !x.is_finite());
            if not_finite && (3..=9).contains(&told.number) {
                refuse(told, 16);
            }
        }),
        ("the tool length behind the chain", |_, case, told| {
            let chain = expected(Entry::CheckChain, case);
            if let (14, Err(refusal)) = (told.number, chain) {
                told.number = refusal.number;
                told.at[1] = refusal.at;
            }
        }),
        ("the name before the model's bytes", |entry, case, told| {
            let has_name = !Entry::OF_CHAINS.contains(&entry);
            if told.number == 29 && has_name && case.name.is_empty() {
                refuse(told, 1);
            }
        }),
        ("sizes before the carrier that is asked", |_, case, told| {
            let far = case.joints.iter().any(|x| x.abs() > 1e7);
            if told.number == 12 && far {
                refuse(told, 17);
            }
        }),
    ];

    #[test]
    fn every_fault_is_noticed() {
        assert_eq!(noticed(|_, _, _| ()), 0);
        for (words, fault) in FAULTS {
            assert!(noticed(fault) > 0, "{words}");
        }
    }
}
