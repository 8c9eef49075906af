//! What comes of writing jobs: how often each answer was met, and the differences from what is expected; that what the
//! port reads from a job that was written is what it was written from, and is written again to the same bytes; and that
//! a job with gaps, read and written, has none.

use crate::chains::MOST_REST;
use crate::met::{Account, Differences, Met};
use crate::parts::Outcome;
use crate::paths::{MOST_TIP, POSE};
use crate::random::Random;
use crate::reading;
use crate::reference::{Refusal, chain_fits, exceeds};
use crate::writes::{Case, FAULTS, Wrote, ask, expected, most_poses, read, telling};
use job::MOST_BYTES;
use std::process::ExitCode;

/// What is compared: calls, and what is said of two calls or three.
pub const ENTRIES: [&str; 4] = ["write_job", "written, read", "written again", "gaps closed"];
const WRITE_JOB: usize = 0;
const READ_BACK: usize = 1;
const AGAIN: usize = 2;
const GAPS: usize = 3;

/// What a call can answer.
const SERVED: [&str; 18] = [
    "served",
    "served, no poses",
    "served, just room",
    "served, a byte more",
    "served, more bytes",
    "served, two rotaries",
    "served, limits",
    "served, -0.0 in a tip",
    "served, a subnormal number",
    "served, an axis of zero",
    "served, the most poses",
    "served, the largest limits",
    "served, limits a double apart",
    "served, limits of -0.0 and a subnormal number",
    "served, rest angles",
    "served, a rest angle of -0.0 and no other",
    "served, rest angles of +0.0, which are left out",
    "served, the most poses, with rest angles",
];
const REFUSED: [&str; 21] = [
    "20",
    "29",
    "3",
    "4",
    "5",
    "6",
    "7",
    "8",
    "9",
    "18",
    "19, the chord",
    "19, the axis",
    "16, a tip",
    "16, a pose's axis",
    "17, a pivot",
    "17, a tip",
    "17, the length",
    "28",
    "28, a byte short",
    "8, equal limits",
    "17, a rest angle",
];

#[derive(Default)]
pub struct WriteTally {
    met: Met,
    calls: [u64; ENTRIES.len()],
    differences: [Differences; ENTRIES.len()],
}

impl Outcome for WriteTally {
    fn add(&mut self, more: WriteTally) {
        self.met.add(more.met);
        for (count, more) in self.calls.iter_mut().zip(more.calls) {
            *count += more;
        }
        for (differences, more) in self.differences.iter_mut().zip(more.differences) {
            differences.add(more);
        }
    }
}

impl WriteTally {
    /// As many jobs that are written, each read and written again; as many with gaps, each read and written; and as
    /// many with faults.
    pub fn compare_drawn(&mut self, jobs: u64, random: &mut Random) {
        for _ in 0..jobs {
            let case = Case::sound(random);
            self.compare(&case);
            self.compare_closed(&Case::sound(random), random);
            self.compare(&Case::faulty(random));
            self.compare_faulty_from(random.below(FAULTS.len() as u64) as usize, random);
        }
    }

    fn compare(&mut self, case: &Case) {
        let wrote = ask(case);
        self.hold(case, &wrote);
        if wrote.number == 0 {
            self.compare_round_trip(case, &wrote);
        }
    }

    /// A fault, and every later one.
    fn compare_faulty_from(&mut self, first: usize, random: &mut Random) {
        let case = Case::faulty_from(first, random);
        self.met.count(format!("write_job, {}", every_later(first)));
        self.hold(&case, &ask(&case));
    }

    /// Reads what was written, and writes what was read.
    fn compare_round_trip(&mut self, case: &Case, wrote: &Wrote) {
        let job = &wrote.lent()[..case.length()];
        let back = read(job);
        let given = case.in_job();
        let same = back.as_ref().is_some_and(|back| back.same_parts(&given));
        self.count(READ_BACK, same && placed(job, &given), case);
        let again = back.map(|back| ask(&back));
        let same = again.is_some_and(|again| again.number == 0 && again.lent() == job);
        self.count(AGAIN, same, case);
    }

    /// The same parts in a file with gaps, in either order: read and written it has none.
    fn compare_closed(&mut self, case: &Case, random: &mut Random) {
        let file = case.content().written(random).bytes;
        if file.len() > MOST_BYTES {
            return;
        }
        let back = read(&file);
        let same = back.as_ref().is_some_and(|back| back.same_parts(case));
        self.count(GAPS, same, case);
        self.met
            .count_if("gaps closed, gaps", file.len() > case.length());
        if let Some(back) = back {
            self.compare(&back);
        }
    }

    fn hold(&mut self, case: &Case, wrote: &Wrote) {
        let answer = expected(case);
        for what in answered(case, &answer) {
            self.met.count(format!("write_job, {what}"));
        }
        self.calls[WRITE_JOB] += 1;
        let must = telling(case, &answer);
        if *wrote != must {
            let words = || format!("write_job: {case}\n    told {wrote}\n    must {must}");
            self.differences[WRITE_JOB].note(words);
        }
    }

    fn count(&mut self, what: usize, same: bool, case: &Case) {
        self.calls[what] += 1;
        if !same {
            self.differences[what].note(|| format!("{}: {case}", ENTRIES[what]));
        }
    }

    #[cfg(test)]
    fn differences(&self) -> u64 {
        self.differences.iter().map(Differences::count).sum()
    }

    /// Status 1 where there is a difference, or where something was met less often than `fewest` times.
    pub fn print(&self, fewest: u64) -> ExitCode {
        let rare = self.met.print(all().into_iter().map(|what| (what, fewest)));
        for (entry, calls) in self.calls() {
            println!("{entry}: {calls}");
        }
        let each = self.differences.iter().zip(ENTRIES);
        let different = each.filter(|(differences, entry)| differences.print(entry));
        ExitCode::from(u8::from(different.count() > 0 || rare))
    }
}

impl Account for WriteTally {
    fn calls(&self) -> Vec<(&'static str, u64)> {
        ENTRIES.into_iter().zip(self.calls).collect()
    }

    fn noted(&self) -> Vec<&Differences> {
        self.differences.iter().collect()
    }

    fn unmet(&self) -> Vec<String> {
        self.met.unmet(all())
    }
}

/// All that must be met.
fn all() -> Vec<String> {
    let answers = SERVED.iter().chain(&REFUSED).map(|&what| what.to_owned());
    let later = (0..FAULTS.len()).map(every_later);
    let mut all: Vec<String> = answers
        .chain(later)
        .map(|what| format!("write_job, {what}"))
        .collect();
    all.push("gaps closed, gaps".to_owned());
    all
}

fn every_later(first: usize) -> String {
    format!("{:?} and every later fault", FAULTS[first])
}

/// By the reader of tools/job: the chain at the front, and the poses behind it.
fn placed(job: &[u8], case: &Case) -> bool {
    let chain = case.chain.len();
    job::read(job).is_ok_and(|job| {
        job.chain == (0..chain) && job.poses == (chain..chain + 8 * case.poses.len())
    })
}

/// Which of `SERVED`, or of `REFUSED`.
fn answered(case: &Case, answer: &Result<Vec<u8>, Refusal>) -> Vec<&'static str> {
    let met = match answer {
        Ok(job) => served(case, job.len()),
        Err(refusal) => return refused(case, refusal.number),
    };
    let met = SERVED.iter().zip(met).filter(|(_, met)| *met);
    met.map(|(what, _)| *what).collect()
}

fn served(case: &Case, length: usize) -> [bool; SERVED.len()] {
    let chain = reading::chain(&case.chain).expect("a chain that is written");
    let more = case.room - length;
    let tips = || case.poses.chunks(POSE).flat_map(|pose| &pose[..3]);
    let zero = |pose: &[f64]| pose[3..].iter().all(|x| *x == 0.0);
    let limits = |test: fn([f64; 2]) -> bool| {
        let mut limited = chain.present().filter(|rotary| rotary.limited == 1);
        limited.any(|rotary| test(rotary.limits))
    };
    let full = case.poses.len() == POSE * most_poses(&case.chain);
    let rested = chain.present().any(|rotary| rotary.rest.to_bits() != 0);
    let nought = chain.present().all(|rotary| rotary.rest == 0.0);
    [
        true,
        case.poses.is_empty(),
        more == 0,
        more == 1,
        more > 1,
        chain.count == 2,
        limits(|_| true),
        tips().any(|x| x.to_bits() == (-0.0f64).to_bits()),
        case.poses.iter().any(|x| x.is_subnormal()),
        case.poses.chunks(POSE).any(zero),
        full,
        limits(|limits| limits == [-f64::MAX, f64::MAX]),
        limits(|[least, largest]| largest == least.next_up()),
        limits(|[least, largest]| least.to_bits() == 1 << 63 && largest.is_subnormal()),
        rested,
        rested && nought,
        chain.rested && !rested,
        full && rested,
    ]
}

fn refused(case: &Case, number: u32) -> Vec<&'static str> {
    let words = |number: u32| {
        let number = number.to_string();
        REFUSED.into_iter().find(|what| *what == number)
    };
    let tip = |test: fn(f64) -> bool| {
        let mut tips = case.poses.chunks(POSE).flat_map(|pose| &pose[..3]);
        tips.any(|x| test(*x))
    };
    match number {
        8 if equal_limits(&case.chain) => vec![REFUSED[7], REFUSED[19]],
        19 => {
            let chord = case.numbers[1];
            let chord = !(chord.is_finite() && chord > 0.0);
            vec![if chord { REFUSED[10] } else { REFUSED[11] }]
        }
        16 => {
            let tip = tip(|x| !x.is_finite());
            vec![if tip { REFUSED[12] } else { REFUSED[13] }]
        }
        17 => {
            let chain = reading::chain(&case.chain).expect("a chain that is read");
            let rest = chain
                .present()
                .any(|rotary| exceeds(rotary.rest, MOST_REST));
            let tip = tip(|x| exceeds(x, MOST_TIP));
            let met = [
                (14, !chain_fits(&chain) && !rest),
                (15, tip),
                (16, case.length() > MOST_BYTES),
                (20, rest),
            ];
            let met = met.into_iter().filter(|(_, met)| *met);
            met.map(|(what, _)| REFUSED[what]).collect()
        }
        28 if case.room + 1 == case.length() => vec![REFUSED[17], REFUSED[18]],
        number => vec![words(number).expect("a number that a writer refuses with")],
    }
}

/// Whether the first limits that are refused are equal.
fn equal_limits(chain: &[u8]) -> bool {
    let chain = reading::chain(chain).expect("a chain that has limits");
    let good = |limits: [f64; 2]| limits.iter().all(|x| x.is_finite()) && limits[0] < limits[1];
    let mut limited = chain.present().filter(|rotary| rotary.limited == 1);
    let first = limited.find(|rotary| !good(rotary.limits));
    first.is_some_and(|rotary| rotary.limits[0] == rotary.limits[1])
}

#[cfg(test)]
mod tests {
    use super::*;
    use crate::calls::GUARD;
    use crate::writes::{NO_SPACE, packed};
    use job::TRAILER;

    /// What an export with a fault would tell, where the fault shows.
    type Wrong = fn(&Case, &mut Wrote);

    /// Compares that, and gives how often it was noticed.
    fn noticed(wrong: Wrong) -> u64 {
        let mut random = Random::new(7);
        let mut tally = WriteTally::default();
        for round in 0..4000 {
            let case = match round % 3 {
                0 => Case::sound(&mut random),
                1 => Case::faulty(&mut random),
                _ => Case::faulty_from(round / 3 % FAULTS.len(), &mut random),
            };
            let mut wrote = telling(&case, &expected(&case));
            wrong(&case, &mut wrote);
            tally.hold(&case, &wrote);
        }
        tally.differences()
    }

    /// A byte of the job that was written, counted from the trailer.
    fn of_trailer(case: &Case, at: usize) -> usize {
        GUARD + case.length() - TRAILER + at
    }

    const WRONG: [(&str, Wrong); 11] = [
        ("-0.0 left out as a rest angle", |case, wrote| {
            let chain = reading::chain(&case.chain);
            let mut chain = chain.unwrap_or_default();
            if wrote.number == 0 && chain.present().all(|rotary| rotary.rest == 0.0) {
                for rotary in &mut chain.rotaries {
                    rotary.rest = 0.0;
                }
                let job = packed(&chain, &case.poses, case.numbers);
                wrote.length[1] = job.len() as u64;
                wrote.bytes[GUARD..GUARD + job.len()].copy_from_slice(&job);
            }
        }),
        ("the word 0 with rest angles", |case, wrote| {
            if wrote.number == 0 {
                let at = of_trailer(case, 12);
                wrote.bytes[at] = 0;
            }
        }),
        ("cone and chord swapped", |case, wrote| {
            if wrote.number == 0 {
                let at = of_trailer(case, 16);
                wrote.bytes[at..at + 16].rotate_left(8);
            }
        }),
        ("pose offset 0 without poses", |case, wrote| {
            if wrote.number == 0 && case.poses.is_empty() {
                let at = of_trailer(case, 4);
                wrote.bytes[at] = 0;
            }
        }),
        ("28 before 17", |case, wrote| {
            if wrote.number == 17 && case.room < case.length() {
                wrote.number = NO_SPACE;
            }
        }),
        ("the cone before the chain", |case, wrote| {
            if (3..10).contains(&wrote.number) && case.numbers[0].is_nan() {
                (wrote.number, wrote.at[1]) = (18, 0);
            }
        }),
        ("a length with a refusal", |case, wrote| {
            if wrote.number == NO_SPACE {
                wrote.length[1] = case.length() as u64;
            }
        }),
        ("the job written without room", |case, wrote| {
            if wrote.number == NO_SPACE && case.room > 0 {
                wrote.bytes[GUARD] = case.chain[0] ^ 1;
            }
        }),
        ("bytes behind the job cleared", |case, wrote| {
            if wrote.number == 0 && case.room > case.length() {
                wrote.bytes[GUARD + case.length()] = 0;
            }
        }),
        ("a byte past the end", |_, wrote| {
            *wrote.bytes.last_mut().expect("a guard") ^= 1;
        }),
        ("-0.0 written as +0.0", |case, wrote| {
            if wrote.number == 0 {
                let poses: Vec<f64> = case.poses.iter().map(|x| x + 0.0).collect();
                let chain = reading::chain(&case.chain).expect("a chain");
                let job = packed(&chain, &poses, case.numbers);
                wrote.bytes[GUARD..GUARD + job.len()].copy_from_slice(&job);
            }
        }),
    ];

    #[test]
    fn every_wrong_writer_is_noticed() {
        assert_eq!(noticed(|_, _| ()), 0);
        for (words, wrong) in WRONG {
            assert!(noticed(wrong) > 0, "{words}");
        }
    }
}
