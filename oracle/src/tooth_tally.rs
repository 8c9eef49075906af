//! What comes of calling choose_tooth: how often each refusal and each way was met, the differences from what is expected, and how
//! far the tip is off on the teeth.

use crate::inverse_calls::{Told, telling};
use crate::inverse_cases::Entry;
use crate::inverse_reference::Answer;
use crate::met::{Account, Differences, Met};
use crate::original::on_teeth;
use crate::parts::Outcome;
use crate::random::Random;
use crate::reading;
use crate::reference::bare;
use crate::rust::ported;
use crate::teeth::{TURN, halves};
use crate::tooth_calls::{Placed, Toothed, ask, expected};
use std::process::ExitCode;

/// What it can answer, 0 for a call that is served.
const ANSWERED: [u32; 18] = [
    0, 3, 4, 5, 6, 7, 8, 9, 14, 15, 16, 17, 19, 20, 21, 22, 29, 31,
];

/// What can come of a solution on its teeth, each to be met.
const WAYS: [&str; 14] = [
    "31, outside the limits alone",
    "31, off by more than the tolerance alone",
    "31, both",
    "served, off by the tolerance exactly",
    "31, the tolerance one place below",
    "served, a limit on the tooth",
    "31, a limit one place before the tooth",
    "a half exactly",
    "one place below a half",
    "+0.0 from below zero",
    FAR,
    "parallel rotaries",
    "choice 1",
    "choice 2",
];

/// A chain's rotaries by carrier, in order.
const MACHINES: [&str; 6] = [
    "table",
    "head",
    "table, table",
    "table, head",
    "head, table",
    "head, head",
];

/// The tip holds within so many mm, of any lengths that are served.
const TIP: f64 = 1e-9;

/// Tip, pivots and tool up to this many mm are those of a usual machine.
const USUAL_LENGTH: f64 = 1000.0;

/// Few free angles have limits beyond 36,000 degrees: of these a tenth is enough.
const FAR: &str = "an angle above 36,000 degrees";

#[derive(Default)]
pub struct Teeth {
    calls: u64,
    met: Met,
    turned: Turned,
    differences: Differences,
    tip: Tip,
}

/// How often a rotary was turned by so many half degrees of a turn, back where the angle is below zero.
struct Turned([[u64; TURN as usize]; 2]);

impl Default for Turned {
    fn default() -> Self {
        Turned([[0; TURN as usize]; 2])
    }
}

/// How far a tip is off at most, in mm: with usual lengths, and with any.
#[derive(Default)]
struct Tip {
    usual: f64,
    any: f64,
}

impl Outcome for Teeth {
    fn add(&mut self, more: Teeth) {
        self.calls += more.calls;
        self.met.add(more.met);
        let counts = self.turned.0.as_flattened_mut().iter_mut();
        for (count, more) in counts.zip(more.turned.0.as_flattened()) {
            *count += more;
        }
        self.differences.add(more.differences);
        self.tip.usual = self.tip.usual.max(more.tip.usual);
        self.tip.any = self.tip.any.max(more.tip.any);
    }
}

fn answered(number: u32) -> String {
    format!("answer {number}")
}

impl Teeth {
    pub fn compare_drawn(&mut self, cases: u64, random: &mut Random) {
        for _ in 0..cases {
            let toothed = Toothed::new(random);
            self.compare(&toothed, &ask(&toothed));
        }
    }

    /// Holds what a call told to what it must tell.
    pub fn compare(&mut self, toothed: &Toothed, told: &Told) {
        let (answer, placed) = expected(toothed);
        let must = telling(Entry::Choose, &toothed.call, &answer);
        self.calls += 1;
        let number = answer.as_ref().err().map_or(0, |refusal| refusal.number);
        self.met.count(answered(number));
        if *told != must {
            self.differences
                .note(|| format!("choose_tooth: {toothed}\n    told {told}\n    must {must}"));
        }
        if let Some(placed) = placed {
            self.see(toothed, &answer, &placed);
        }
    }

    fn see(&mut self, toothed: &Toothed, answer: &Answer, placed: &Placed) {
        let (inside, holds) = (placed.inside, placed.holds(toothed.tolerance));
        let (served, missed) = (answer.is_ok(), answer.is_err());
        let below = toothed.tolerance.next_up() == placed.gap;
        let ways = [
            (WAYS[0], !inside && holds),
            (WAYS[1], inside && !holds),
            (WAYS[2], !inside && !holds),
            (WAYS[3], served && toothed.tolerance == placed.gap),
            (WAYS[4], inside && missed && below),
        ];
        for (words, met) in ways {
            self.met.count_if(words, met);
        }
        self.see_angles(toothed, served, placed);
        self.see_tip(toothed, placed);
    }

    fn see_angles(&mut self, toothed: &Toothed, served: bool, placed: &Placed) {
        let chain = reading::chain(&toothed.call.chain).expect("a chain that is served");
        let rotaries = &chain.rotaries[..usize::from(chain.count)];
        for (slot, rotary) in rotaries.iter().enumerate() {
            let (angle, tooth) = (placed.solution[3 + slot], placed.joints[3 + slot]);
            let back = usize::from(tooth < 0.0);
            self.turned.0[back][(halves(tooth) % TURN) as usize] += 1;
            let limits = match rotary.limited {
                1 => &rotary.limits[..],
                _ => &[],
            };
            let before = [tooth.next_down(), tooth.next_up()];
            let on_a_half = |x: f64| (x * 4.0).fract() == 0.0 && (x * 2.0).fract() != 0.0;
            let ways = [
                (WAYS[5], served && limits.contains(&tooth)),
                (
                    WAYS[6],
                    !placed.inside && limits.iter().any(|x| before.contains(x)),
                ),
                (WAYS[7], on_a_half(angle)),
                (WAYS[8], on_a_half(angle.abs().next_up())),
                (WAYS[9], angle.is_sign_negative() && tooth.to_bits() == 0),
                (WAYS[10], angle.abs() > 36_000.0),
            ];
            for (words, met) in ways {
                self.met.count_if(words, met);
            }
        }
        let parallel = ported::kinematics(&bare(&chain)).parallel();
        self.met.count_if(WAYS[11], parallel);
        self.met.count_if(WAYS[12], toothed.call.choice == 1);
        self.met.count_if(WAYS[13], toothed.call.choice == 2);
        let carriers: Vec<usize> = rotaries.iter().map(|r| usize::from(r.carrier)).collect();
        let machine = match carriers[..] {
            [only] => only,
            _ => 2 + 2 * carriers[0] + carriers[1],
        };
        self.met.count(MACHINES[machine]);
    }

    /// By the Rust's forward, with the teeth's own turns and with those of degrees.
    fn see_tip(&mut self, toothed: &Toothed, placed: &Placed) {
        let call = &toothed.call;
        let chain = reading::chain(&call.chain).expect("a chain that is served");
        let rust = ported::kinematics(&bare(&chain));
        let forward = || ported::forward(&rust, &placed.joints, call.tool_length);
        let off = [on_teeth(forward), forward()].map(|pose| {
            let pose = pose.expect("joints that are served");
            let gaps = pose[..3].iter().zip(&call.pose[..3]);
            gaps.map(|(x, y)| (x - y).abs()).fold(0.0, f64::max)
        });
        let off = off[0].max(off[1]);
        self.tip.any = self.tip.any.max(off);
        if off > TIP {
            self.differences
                .note(|| format!("choose_tooth: {toothed}\n    the tip is off by {off:e} mm"));
        }
        let pivots = chain.present().flat_map(|rotary| rotary.pivot);
        let mut lengths = pivots.chain(call.pose[..3].iter().copied());
        if call.tool_length <= USUAL_LENGTH && lengths.all(|x| x.abs() <= USUAL_LENGTH) {
            self.tip.usual = self.tip.usual.max(off);
        }
    }

    pub fn differences(&self) -> u64 {
        self.differences.count()
    }

    fn all() -> impl Iterator<Item = String> {
        let ways = WAYS.iter().chain(&MACHINES).map(|words| words.to_string());
        ANSWERED.into_iter().map(answered).chain(ways)
    }

    fn unturned(&self) -> usize {
        let counts = self.turned.0.as_flattened().iter();
        // A turn back by no half degree is none.
        counts.filter(|count| **count == 0).count() - usize::from(self.turned.0[1][0] == 0)
    }

    /// Status 1 where there is a difference, or where something was met less often than `fewest` times.
    pub fn print(&self, fewest: u64) -> ExitCode {
        let all = Teeth::all().map(|what| match what == FAR {
            true => (what, fewest / 10),
            false => (what, fewest),
        });
        let rare = self.met.print(all);
        let unturned = self.unturned();
        println!("half degrees of a turn, forth or back, by which nothing was turned: {unturned}");
        let Tip { usual, any } = self.tip;
        println!("the tip is off by at most {any:.1e} mm, and {usual:.1e} mm within 1000 mm");
        println!("{} calls", self.calls);
        let different = self.differences.print("teeth");
        ExitCode::from(u8::from(different || rare || unturned > 0))
    }
}

impl Account for Teeth {
    fn calls(&self) -> Vec<(&'static str, u64)> {
        vec![("choose_tooth", self.calls)]
    }

    fn noted(&self) -> Vec<&Differences> {
        vec![&self.differences]
    }

    fn unmet(&self) -> Vec<String> {
        let unmet = self.met.unmet(Teeth::all());
        unmet
            .into_iter()
            .map(|what| format!("choose_tooth, {what}"))
            .collect()
    }
}

#[cfg(test)]
mod tests {
    use super::*;
    use crate::calls::{GUARD, LENT, LENT_AT, LENT_LETTER};
    use crate::tooth_calls::{TOLERANCE, TOOTH_MISSES};

    /// Changes what an export tells, where the fault shows.
    type Fault = fn(&Toothed, &Option<Placed>, &mut Told);

    /// Compares what an export with a fault would tell, and gives how often that was noticed.
    fn noticed(fault: Fault) -> u64 {
        let mut random = Random::new(7);
        let mut tally = Teeth::default();
        for _ in 0..6000 {
            let toothed = Toothed::new(&mut random);
            let (answer, placed) = expected(&toothed);
            let mut told = telling(Entry::Choose, &toothed.call, &answer);
            fault(&toothed, &placed, &mut told);
            tally.compare(&toothed, &told);
        }
        tally.differences()
    }

    /// The lent numbers without their guards.
    fn lent(told: &mut Told) -> &mut [u64] {
        let end = told.numbers.len() - GUARD;
        &mut told.numbers[GUARD..end]
    }

    const FAULTS: [(&str, Fault); 9] = [
        ("joints that are cleared with 31", |_, _, told| {
            if told.number == TOOTH_MISSES {
                lent(told).fill(0);
            }
        }),
        ("joints that are kept with 22", |_, _, told| {
            if told.number == 22 {
                lent(told).fill(LENT);
            }
        }),
        ("20 before 19", |toothed, _, told| {
            let call = &toothed.call;
            let broken = call.pose.len() != 6 || call.hint.len() != 2 || call.choice > 2;
            if told.number == TOLERANCE && (broken || call.missing != 0) {
                told.number = 20;
            }
        }),
        ("31 before 22", |_, _, told| {
            if told.number == 22 {
                told.number = TOOTH_MISSES;
            }
        }),
        ("limits not tested again", |toothed, placed, told| {
            if let Some(placed) = placed
                && told.number == TOOTH_MISSES
                && placed.holds(toothed.tolerance)
            {
                *told = telling(Entry::Choose, &toothed.call, &Ok(vec![placed.joints]));
            }
        }),
        (
            "the position of the unsnapped angles",
            |toothed, placed, told| {
                if let Some(placed) = placed
                    && told.number == 0
                {
                    let mut joints = placed.joints;
                    joints[..3].copy_from_slice(&placed.solution[..3]);
                    *told = telling(Entry::Choose, &toothed.call, &Ok(vec![joints]));
                }
            },
        ),
        ("-0.0 for an angle", |_, _, told| {
            if told.number == 0 && lent(told)[3] == 0 {
                lent(told)[3] = 1 << 63;
            }
        }),
        (
            "a tolerance that is held strictly",
            |toothed, placed, told| {
                if let Some(placed) = placed
                    && told.number == 0
                    && placed.gap == toothed.tolerance
                {
                    told.number = TOOTH_MISSES;
                    lent(told).fill(LENT);
                }
            },
        ),
        ("a place left unwritten", |_, _, told| {
            (told.at[1], told.letter[1]) = (LENT_AT, LENT_LETTER);
        }),
    ];

    #[test]
    fn every_fault_is_noticed() {
        assert_eq!(noticed(|_, _, _| ()), 0);
        for (words, fault) in FAULTS {
            assert!(noticed(fault) > 0, "{words}");
        }
    }
}
