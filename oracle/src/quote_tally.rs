//! What comes of quotations: how often each answer was met, and the differences from what is expected.

use crate::divided::MOST_INSERTED;
use crate::divisions::Division;
use crate::met::{Account, Differences, Met};
use crate::parts::Outcome;
use crate::paths::{JOINTS, POSE};
use crate::quotes::{
    Answer, ENOUGH, Figures, Scratches, Told, Verdict, ask, expected, scratches, telling,
};
use crate::random::Random;
use crate::reading;
use crate::remarkable::{long, remarkable};
use crate::rust::ported;
use crate::solved::MOST_POSES;
use crate::zigzags::needing;
use std::process::ExitCode;

const ENTRY: &str = "quote";

/// Each path is quoted at its own tolerances, and at these parts of them.
const PARTS: [f64; 3] = [1.0, 0.5, 3.0];

/// One path in so many is looked at by its neighbours, where it has few.
const LOOKED_AT: u64 = 4;
const FEW: usize = 60;

const ANSWERED: [&str; 17] = [
    "served",
    "3",
    "4",
    "5",
    "6",
    "7",
    "8",
    "9",
    "16",
    "17",
    "19",
    "20",
    "27",
    "28",
    "29",
    "30",
    "served, more scratch than is needed",
];

const SERVED: [&str; 9] = [
    "no pose",
    "one pose",
    "none inserted",
    "1 inserted",
    "2 to 9 inserted",
    "10 to 99 inserted",
    "100 or more inserted",
    "joints that do not change count none",
    "neighbours that fail and stay",
];

/// Each once at least.
const ONCE: [&str; 5] = [
    "100000 poses, thousands inserted",
    "needs 9999",
    "needs 10000",
    "needs 10001",
    "28 before 27",
];

#[derive(Default)]
pub struct Quotes {
    met: Met,
    calls: u64,
    differences: Differences,
}

impl Outcome for Quotes {
    fn add(&mut self, more: Quotes) {
        self.met.add(more.met);
        self.calls += more.calls;
        self.differences.add(more.differences);
    }
}

impl Quotes {
    /// So many paths, each at several tolerances.
    pub fn compare_drawn(&mut self, paths: u64, random: &mut Random) {
        for _ in 0..paths {
            let [_, division] = Division::drawn(random);
            for part in PARTS {
                let mut division = division.clone();
                division.tolerances = division.tolerances.map(|x| x * part);
                self.compare(&division, scratches(random), random);
            }
        }
    }

    /// Paths that need as many insertions as may be, or one less, or one more.
    pub fn compare_exact(&mut self, random: &mut Random) {
        for count in MOST_INSERTED - 1..=MOST_INSERTED + 1 {
            let division = needing(count, false, random);
            let verdict = expected(&division);
            let holds = match verdict.with(ENOUGH) {
                Ok(figures) => figures.inserted == count as u64,
                Err(refusal) => refusal.number == 27 && count > MOST_INSERTED,
            };
            self.count_if(&format!("needs {count}"), holds);
            for scratches in [ENOUGH, [ENOUGH[0] - JOINTS, ENOUGH[1]]] {
                let told = ask(&division, scratches);
                self.hold(&division, &verdict, scratches, &told);
            }
        }
    }

    /// Remarkable paths, and long ones.
    pub fn compare_others(&mut self, random: &mut Random) {
        let others = remarkable().into_iter().chain(long(random));
        for division in others.filter(|division| division.is_given()) {
            self.compare(&division, ENOUGH, random);
        }
    }

    fn compare(&mut self, division: &Division, scratches: Scratches, random: &mut Random) {
        let verdict = expected(division);
        let told = ask(division, scratches);
        self.hold(division, &verdict, scratches, &told);
        if let Verdict::Judged(Ok(figures), poses, joints) = &verdict {
            self.look(division, figures);
            if random.below(LOOKED_AT) == 0 && joints.len() <= FEW * JOINTS {
                self.look_at_neighbours(division, poses, joints);
            }
        }
    }

    pub fn hold(
        &mut self,
        division: &Division,
        verdict: &Verdict,
        scratches: Scratches,
        told: &Told,
    ) {
        let answer = verdict.with(scratches);
        self.calls += 1;
        self.count_if(&answered(answer), true);
        let more = answer.is_ok() && scratches[0] > ENOUGH[0] && scratches[1] > ENOUGH[1];
        self.count_if(ANSWERED[16], more);
        let many = verdict
            .with(ENOUGH)
            .is_err_and(|refusal| refusal.number == 27);
        self.count_if(ONCE[4], many && told.number == 28);
        let must = telling(answer, scratches);
        if *told != must {
            let words = || {
                format!(
                    "{ENTRY}: {division} scratches {scratches:?}\n    told {told}\n    must {must}"
                )
            };
            self.differences.note(words);
        }
    }

    fn count_if(&mut self, what: &str, met: bool) {
        if met {
            self.met.count(format!("{ENTRY}, {what}"));
        }
    }

    /// At a path that is served where there is scratch.
    fn look(&mut self, division: &Division, figures: &Figures) {
        let given = division.given() as u64;
        let inserted = figures.inserted;
        let kind = match (given, inserted) {
            (0, _) => SERVED[0],
            (1, _) => SERVED[1],
            (_, 0) => SERVED[2],
            (_, 1) => SERVED[3],
            (_, 2..=9) => SERVED[4],
            (_, 10..=99) => SERVED[5],
            _ => SERVED[6],
        };
        self.count_if(kind, true);
        let tests = given.saturating_sub(1) + 2 * inserted;
        let fewer = figures.evaluations < 3 * tests + inserted;
        self.count_if(SERVED[7], fewer);
        let long = division.given() == MOST_POSES && inserted > 1000;
        self.count_if(ONCE[0], long);
    }

    fn look_at_neighbours(&mut self, division: &Division, poses: &[f64], joints: &[f64]) {
        let chain = reading::chain(&division.chain).expect("a chain that is served");
        let rust = ported::setup(&chain).kinematics;
        let items = poses.chunks(POSE).zip(joints.chunks(JOINTS));
        let items = items.map(|(pose, set)| (ported::tool_pose(pose), ported::joint_set(set)));
        let items: Vec<_> = items.collect();
        let [chord, axis] = division.tolerances;
        let fails = items.windows(2).any(|pair| {
            let gaps = rust.gaps(pair[0], pair[1]);
            gaps.is_some_and(|[tip, turned]| tip > chord || turned > axis)
        });
        self.count_if(SERVED[8], fails);
    }

    pub fn differences(&self) -> u64 {
        self.differences.count()
    }

    /// Status 1 where there is a difference, or where something was met less often than `fewest` times.
    pub fn print(&self, fewest: u64) -> ExitCode {
        let rare = self.met.print(all(fewest));
        println!("{} quotations", self.calls);
        let different = self.differences.print("quotes");
        ExitCode::from(u8::from(different || rare))
    }
}

impl Account for Quotes {
    fn calls(&self) -> Vec<(&'static str, u64)> {
        vec![(ENTRY, self.calls)]
    }

    fn noted(&self) -> Vec<&Differences> {
        vec![&self.differences]
    }

    fn unmet(&self) -> Vec<String> {
        self.met.unmet(all(1).into_iter().map(|(what, _)| what))
    }
}

/// All that must be met, with how often.
fn all(fewest: u64) -> Vec<(String, u64)> {
    let often = ANSWERED.iter().chain(&SERVED).map(|what| (what, fewest));
    let once = ONCE.iter().map(|what| (what, 1));
    let all = often.chain(once);
    all.map(|(what, fewest)| (format!("{ENTRY}, {what}"), fewest))
        .collect()
}

pub(crate) fn answered(answer: Answer) -> String {
    match answer {
        Ok(_) => "served".to_owned(),
        Err(refusal) => refusal.number.to_string(),
    }
}

#[cfg(test)]
mod tests {
    use super::*;
    use crate::quotes::{Left, joints_of};

    type Fault = fn(&Division, &mut Told);

    /// Compares what an export with a fault would tell, and gives how often that was noticed.
    fn noticed(fault: Fault) -> u64 {
        let mut random = Random::new(7);
        let mut quotes = Quotes::default();
        let mut hold = |division: &Division, random: &mut Random| {
            let verdict = expected(division);
            let scratches = scratches(random);
            let mut told = telling(verdict.with(scratches), scratches);
            fault(division, &mut told);
            quotes.hold(division, &verdict, scratches, &told);
        };
        for _ in 0..1000 {
            let [_, division] = Division::drawn(&mut random);
            hold(&division, &mut random);
        }
        let many = needing(MOST_INSERTED + 1, false, &mut random);
        for _ in 0..8 {
            hold(&many, &mut random);
        }
        quotes.differences()
    }

    const FAULTS: [(&str, Fault); 12] = [
        ("a count of 0", |_, told| told.inserted[1] = 0),
        ("the given poses", |division, told| {
            if told.number == 0 {
                told.poses[1] = division.given() as u64;
            }
        }),
        ("four for three", |_, told| {
            let tests = told.evaluations[1].saturating_sub(told.inserted[1]) / 3;
            told.evaluations[1] += tests;
        }),
        ("the second new pair not counted", |_, told| {
            told.evaluations[1] = told.evaluations[1].saturating_sub(3 * told.inserted[1]);
        }),
        ("insertions not counted", |_, told| {
            told.evaluations[1] = told.evaluations[1].saturating_sub(told.inserted[1]);
        }),
        ("three for joints that do not change", |division, told| {
            if told.number == 0 {
                let tests = (division.given() as u64).saturating_sub(1) + 2 * told.inserted[1];
                told.evaluations[1] = 3 * tests + told.inserted[1];
            }
        }),
        ("28 for 27", |_, told| {
            if told.number == 27 {
                told.number = 28;
            }
        }),
        ("no count at 27", |_, told| {
            if told.number == 27 {
                told.inserted[1] = 0;
            }
        }),
        ("joints kept at 27", |_, told| {
            if told.number == 27 {
                told.joints = Left::Kept;
            }
        }),
        ("tips kept at 28", |_, told| {
            if told.number == 28 && told.tips == Left::Cleared {
                told.tips = Left::Kept;
            }
        }),
        ("tips cleared with 17", |_, told| {
            if told.number == 17 && told.tips == Left::Kept {
                told.tips = Left::Cleared;
            }
        }),
        ("a figure kept", |_, told| told.poses[1] = told.poses[0]),
    ];

    #[test]
    fn every_fault_is_noticed() {
        assert_eq!(noticed(|_, _| ()), 0);
        for (words, fault) in FAULTS {
            assert!(noticed(fault) > 0, "{words}");
        }
    }

    /// Scratches are what they say, and the joints are those that were given.
    #[test]
    fn an_export_is_held_by_all_that_it_is_lent() {
        let [_, division] = Division::drawn(&mut Random::new(3));
        let mut other = division.clone();
        other.tolerances = [0.0; 2];
        let told = ask(&other, ENOUGH);
        assert_eq!((told.joints, told.tips), (Left::Kept, Left::Kept));
        assert_eq!(joints_of(&division).len() % JOINTS, 0);
    }
}
