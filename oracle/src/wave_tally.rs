//! What comes of calling sine, cosine, arctangent and arccosine: how many were served and refused, the promises that were broken, and
//! how far the answers lie from the sums of document 01 and from libm.

use crate::exact::Exact;
use crate::met::{Account, Differences};
use crate::parts::Outcome;
use std::process::ExitCode;

/// How far from S and C: document 01 asks for 2^-48, the contracts promise 2^-50.
const FROM_SUM: f64 = 1.0 / (1u64 << 50) as f64;
/// How large |y C(r) - x S(r)| may be, against the larger of |x| and |y|.
pub(crate) const RESIDUAL: f64 = 1.0 / (1u64 << 46) as f64;

pub(crate) const OUT_OF_RANGE: u32 = 17;

/// What stands in a lent number before a call: a nan with digits of its own.
pub(crate) const LENT: u64 = 0x7FF8_0123_4567_89AB;

/// What a call answered, and the lent number's bits afterwards.
#[derive(Clone, Copy, PartialEq)]
pub(crate) struct Told {
    pub number: u32,
    pub bits: u64,
}

const REFUSED: Told = Told {
    number: OUT_OF_RANGE,
    bits: LENT,
};

pub(crate) fn served(answer: f64) -> Told {
    Told {
        number: 0,
        bits: answer.to_bits(),
    }
}

/// The largest of its kind that was seen, and the arguments there.
#[derive(Default)]
pub(crate) struct Most {
    value: f64,
    at: Vec<f64>,
}

impl Most {
    pub fn see(&mut self, value: f64, arguments: &[f64]) {
        if value > self.value {
            self.value = value;
            self.at = arguments.to_vec();
        }
    }
}

/// The largest differences from some number: in its own size, in places of that number, and the latter where the number is not
/// small, since a sine or a cosine near a zero of its own may be far off in its own places.
#[derive(Default)]
pub(crate) struct Largest {
    pub gap: Most,
    ulps: Most,
    ulps_past_small: Most,
}

const SMALL: f64 = 1.0 / 16.0;

impl Largest {
    pub fn see(&mut self, arguments: &[f64], gap: f64, from: f64) {
        let from = from.abs();
        let ulps = gap.abs() / (from.next_up() - from);
        self.gap.see(gap.abs(), arguments);
        self.ulps.see(ulps, arguments);
        if from >= SMALL {
            self.ulps_past_small.see(ulps, arguments);
        }
    }

    fn add(&mut self, more: Largest) {
        self.gap.see(more.gap.value, &more.gap.at);
        self.ulps.see(more.ulps.value, &more.ulps.at);
        self.ulps_past_small
            .see(more.ulps_past_small.value, &more.ulps_past_small.at);
    }

    fn print(&self, from: &str) {
        let Largest {
            gap,
            ulps,
            ulps_past_small,
        } = self;
        if gap.value > 0.0 {
            println!(
                "    {from}: at most 2^{:.2}, at {}",
                gap.value.log2(),
                spelled(&gap.at)
            );
        }
        for (words, most) in [("", ulps), (" from 1/16 on", ulps_past_small)] {
            if most.value > 0.0 {
                println!(
                    "    {from}: at most {:.3} ulp{words}, at {}",
                    most.value,
                    spelled(&most.at)
                );
            }
        }
    }
}

fn spelled(arguments: &[f64]) -> String {
    let words: Vec<String> = arguments
        .iter()
        .map(|x| format!("{x:e} [{:016X}]", x.to_bits()))
        .collect();
    words.join(", ")
}

/// What came of one function.
#[derive(Default)]
pub(crate) struct Tally {
    pub served: u64,
    pub refused: u64,
    broken: Differences,
    pub from_sum: Largest,
    pub from_libm: Largest,
}

impl Tally {
    pub fn refusal(&mut self, arguments: &[f64], told: Told) {
        self.refused += 1;
        self.holds(told == REFUSED, "refused and kept", arguments, told);
    }

    pub fn holds(&mut self, promise: bool, words: &str, arguments: &[f64], told: Told) {
        if !promise {
            let Told { number, bits } = told;
            self.broken.note(|| {
                let arguments = spelled(arguments);
                format!("not {words}: at {arguments}, number {number}, lent {bits:016X}")
            });
        }
    }

    /// The answer of a call that is to be served.
    pub fn answer(&mut self, arguments: &[f64], told: Told) -> Option<f64> {
        let answer = f64::from_bits(told.bits);
        let served = told.number == 0 && answer.is_finite();
        self.holds(served, "served", arguments, told);
        self.served += u64::from(served);
        served.then_some(answer)
    }

    /// Holds an answer to its sum. A sum too small for 192 digits is `tiny` to within its last place: S at an x below 2^-100 is x.
    pub fn near_sum(&mut self, x: f64, answer: f64, sum: Exact, tiny: f64) {
        let gap = (Exact::of(answer) - sum).size().nearly();
        self.holds(gap <= FROM_SUM, "near the sum", &[x], served(answer));
        let near = sum.nearly();
        if near.abs() < 1.0 / (1u128 << 100) as f64 {
            self.from_sum.see(&[x], answer - tiny, tiny);
        } else {
            self.from_sum.see(&[x], gap, near);
        }
    }

    fn add(&mut self, more: Tally) {
        self.served += more.served;
        self.refused += more.refused;
        self.broken.add(more.broken);
        self.from_sum.add(more.from_sum);
        self.from_libm.add(more.from_libm);
    }

    fn print(&self, name: &str, from_sum: &str) {
        println!(
            "{name}: {} served, {} refused, {} broken",
            self.served,
            self.refused,
            self.broken.count()
        );
        self.from_sum.print(from_sum);
        self.from_libm.print("from libm");
        self.broken.print_examples();
    }
}

/// What the probe alone exports: sine and cosine from one reduction, and those of an angle in degrees.
const BOTH: &str = "both in one call";
const TURNS: [&str; 2] = ["sine of degrees", "cosine of degrees"];

/// Of each function, of both in one call, of both of degrees, and of the slice forms, in the order of `waves::FORMS`.
#[derive(Default)]
pub struct Waves {
    pub(crate) sine: Tally,
    pub(crate) cosine: Tally,
    pub(crate) both: Tally,
    pub(crate) turns: [Tally; 2],
    pub(crate) arctangent: Tally,
    pub(crate) arccosine: Tally,
    pub(crate) slices: [Tally; 3],
    pub(crate) arctangents: Tally,
}

impl Outcome for Waves {
    fn add(&mut self, more: Waves) {
        self.sine.add(more.sine);
        self.cosine.add(more.cosine);
        self.both.add(more.both);
        for (turns, more) in self.turns.iter_mut().zip(more.turns) {
            turns.add(more);
        }
        self.arctangent.add(more.arctangent);
        self.arccosine.add(more.arccosine);
        for (slices, more) in self.slices.iter_mut().zip(more.slices) {
            slices.add(more);
        }
        self.arctangents.add(more.arctangents);
    }
}

impl Waves {
    /// Each with its name, and that of what its answers are a distance from.
    fn each(&self) -> [(&'static str, &'static str, &Tally); 11] {
        let [of_sine, of_cosine] = &self.turns;
        let [sines, cosines, arccosines] = &self.slices;
        [
            ("sine", "from S", &self.sine),
            ("cosine", "from C", &self.cosine),
            (BOTH, "", &self.both),
            (TURNS[0], "from S", of_sine),
            (TURNS[1], "from C", of_cosine),
            ("arctangent", "residual", &self.arctangent),
            ("arccosine", "", &self.arccosine),
            ("sines", "", sines),
            ("cosines", "", cosines),
            ("arccosines", "", arccosines),
            ("arctangents", "", &self.arctangents),
        ]
    }

    /// Status 1 where a promise is broken.
    pub fn print(&self) -> ExitCode {
        for (name, from_sum, tally) in self.each() {
            tally.print(name, from_sum);
        }
        let broken: u64 = self.noted().iter().map(|broken| broken.count()).sum();
        println!("waves: {broken} broken promises");
        ExitCode::from(u8::from(broken > 0))
    }
}

impl Account for Waves {
    /// But for what the probe exports, which is no entry.
    fn calls(&self) -> Vec<(&'static str, u64)> {
        let is_entry = |name| name != BOTH && !TURNS.contains(&name);
        let entries = self.each().into_iter().filter(|(name, ..)| is_entry(*name));
        entries
            .map(|(name, _, tally)| (name, tally.served + tally.refused))
            .collect()
    }

    fn noted(&self) -> Vec<&Differences> {
        self.each().map(|(_, _, tally)| &tally.broken).to_vec()
    }

    fn unmet(&self) -> Vec<String> {
        let none = |(name, _, tally): (&str, &str, &Tally)| {
            let each = [("served", tally.served), ("refused", tally.refused)];
            each.map(|(what, count)| (count == 0).then(|| format!("{name}, {what}")))
        };
        self.each()
            .map(none)
            .into_iter()
            .flatten()
            .flatten()
            .collect()
    }
}
