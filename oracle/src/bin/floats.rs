//! Compares the proved float functions with the standard library's, bit for bit:
//!
//!     floats [SEED] [MILLIONS]
//!
//! on MILLIONS (50) million doubles, a tenth as many pairs, and every edge value. Prints what was compared, and ends with
//! status 1 where anything differs.

use oracle::floats::{EDGES, PAIRED, any, beside, maximum, minimum, same, total_order};
use oracle::parts::{Outcome, argument, compared};
use oracle::probe;
use oracle::random::Random;
use std::process::ExitCode;

/// A function of the proved code beside one of Rust. An answer that is no double is written as one.
struct OfOne(&'static str, fn(f64) -> f64, fn(f64) -> f64);
struct OfTwo(&'static str, fn(f64, f64) -> f64, fn(f64, f64) -> f64);

const OF_ONE: [OfOne; 7] = [
    OfOne("root", |x| probe::root(x), f64::sqrt),
    OfOne("round", |x| probe::round(x), f64::round),
    OfOne("size", |x| probe::size(x), f64::abs),
    OfOne(
        "finite",
        |x| probe::finite(x).into(),
        |x| x.is_finite().into(),
    ),
    OfOne(
        "clamp_unit",
        |x| probe::clamp_unit(x),
        |x| x.clamp(-1.0, 1.0),
    ),
    OfOne("to_radians", |x| probe::to_radians(x), f64::to_radians),
    OfOne("to_degrees", |x| probe::to_degrees(x), f64::to_degrees),
];

const OF_TWO: [OfTwo; 4] = [
    OfTwo("minimum", |x, y| probe::minimum(x, y), minimum),
    OfTwo("maximum", |x, y| probe::maximum(x, y), maximum),
    OfTwo(
        "total_cmp",
        |x, y| f64::from(probe::total_cmp(x, y) as i8),
        |x, y| f64::from(total_order(x, y) as i8),
    ),
    OfTwo(
        "order_key",
        |x, y| f64::from(probe::order_key(x).cmp(&probe::order_key(y)) as i8),
        |x, y| f64::from(total_order(x, y) as i8),
    ),
];

/// The doubles of one part of the work.
const PART: usize = 1_000_000;
const PAIRS_OF_PART: usize = PART / 10;
const ARRAYS_OF_PART: usize = 1_000;

fn main() -> ExitCode {
    let seed = argument(1, 1);
    let parts = argument(2, 50);
    println!("seed {seed}, {parts} million doubles");
    let mut total = compared(seed, parts, compare_part);
    compare_edges(&mut total);
    total.print()
}

fn compare_part(tallies: &mut Tallies, random: &mut Random) {
    let xs: Vec<f64> = (0..PART).map(|_| any(random)).collect();
    let ys: Vec<f64> = xs
        .iter()
        .take(PAIRS_OF_PART)
        .map(|&x| beside(x, random))
        .collect();
    compare_of_one(tallies, &xs);
    compare_of_two(tallies, &xs, &ys);
    for _ in 0..ARRAYS_OF_PART {
        compare_arrays(tallies, &xs, random);
    }
}

fn compare_edges(tallies: &mut Tallies) {
    compare_of_one(tallies, &EDGES.map(f64::from_bits));
    let paired = PAIRED.map(f64::from_bits);
    for x in paired {
        compare_of_two(tallies, &[x; PAIRED.len()], &paired);
    }
}

fn compare_of_one(tallies: &mut Tallies, xs: &[f64]) {
    for OfOne(name, proved, rust) in OF_ONE {
        let tally = tallies.of(name);
        tally.compared += xs.len() as u64;
        for &x in xs {
            let (answer, expected) = (proved(x), rust(x));
            if !same(answer, expected) {
                tally.differ(&[x], answer, expected);
            }
        }
    }
}

fn compare_of_two(tallies: &mut Tallies, xs: &[f64], ys: &[f64]) {
    for OfTwo(name, proved, rust) in OF_TWO {
        let tally = tallies.of(name);
        tally.compared += ys.len() as u64;
        for (&x, &y) in xs.iter().zip(ys) {
            let (answer, expected) = (proved(x, y), rust(x, y));
            if !same(answer, expected) {
                tally.differ(&[x, y], answer, expected);
            }
        }
    }
}

/// The roots of an array, with room for more answers, or for fewer.
fn compare_arrays(tallies: &mut Tallies, xs: &[f64], random: &mut Random) {
    let start = random.below(xs.len() as u64 - 64) as usize;
    let xs = &xs[start..start + random.below(64) as usize];
    let untouched = vec![-7.0; random.below(64) as usize];
    let mut answers = untouched.clone();
    probe::roots(xs, &mut answers);
    let tally = tallies.of("roots");
    tally.compared += answers.len() as u64;
    for (i, &answer) in answers.iter().enumerate() {
        let expected = xs.get(i).map_or(untouched[i], |x| x.sqrt());
        if !same(answer, expected) {
            tally.differ(xs.get(i..=i).unwrap_or(&[]), answer, expected);
        }
    }
}

struct Tally {
    name: &'static str,
    compared: u64,
    different: u64,
    examples: Vec<String>,
}

impl Tally {
    fn differ(&mut self, arguments: &[f64], answer: f64, expected: f64) {
        self.different += 1;
        if self.examples.len() < 5 {
            let words: Vec<String> = arguments.iter().map(|x| spelled(*x)).collect();
            self.examples.push(format!(
                "{}({}) answers {}, Rust {}",
                self.name,
                words.join(", "),
                spelled(answer),
                spelled(expected)
            ));
        }
    }
}

fn spelled(x: f64) -> String {
    format!("{x:e} [{:016X}]", x.to_bits())
}

#[derive(Default)]
struct Tallies(Vec<Tally>);

impl Outcome for Tallies {
    fn add(&mut self, more: Tallies) {
        for tally in more.0 {
            let sum = self.of(tally.name);
            sum.compared += tally.compared;
            sum.different += tally.different;
            sum.examples.extend(tally.examples);
        }
    }
}

impl Tallies {
    fn of(&mut self, name: &'static str) -> &mut Tally {
        let at = self
            .0
            .iter()
            .position(|tally| tally.name == name)
            .unwrap_or_else(|| {
                self.0.push(Tally {
                    name,
                    compared: 0,
                    different: 0,
                    examples: Vec::new(),
                });
                self.0.len() - 1
            });
        &mut self.0[at]
    }

    fn print(&self) -> ExitCode {
        for tally in &self.0 {
            println!(
                "{:10} {:>10} compared, {} different",
                tally.name, tally.compared, tally.different
            );
            for example in tally.examples.iter().take(5) {
                println!("    {example}");
            }
        }
        let different: u64 = self.0.iter().map(|tally| tally.different).sum();
        println!("floats: {different} differences");
        ExitCode::from(u8::from(different > 0))
    }
}
