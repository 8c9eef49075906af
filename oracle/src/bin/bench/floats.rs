//! What was proved of `float` and `root` beside the machine's own. Both sides go through the same shape, a call by C's rules that is
//! never inlined, over the same doubles.

use super::rows::{Row, Section};
use super::timing::of_each;
use oracle::angles::within;
use oracle::probe;
use oracle::random::Random;
use std::hint::black_box;

pub const COUNT: usize = 4096;
pub const CALLS: usize = 4000 * COUNT;

type Function<R> = extern "C" fn(f64) -> R;

#[inline(never)]
extern "C" fn machine_root(x: f64) -> f64 {
    x.sqrt()
}

#[inline(never)]
extern "C" fn machine_round(x: f64) -> f64 {
    x.round()
}

#[inline(never)]
extern "C" fn machine_size(x: f64) -> f64 {
    x.abs()
}

/// What `total_cmp` compares, moved to start at 0.
#[inline(never)]
extern "C" fn machine_order_key(x: f64) -> u64 {
    let bits = x.to_bits();
    bits ^ ((bits as i64 >> 63) as u64 | 1 << 63)
}

#[inline(never)]
fn machine_roots(xs: &[f64], answers: &mut [f64]) {
    for (x, answer) in xs.iter().zip(answers) {
        *answer = x.sqrt();
    }
}

pub fn section() -> Section {
    let mut rows = roots(&mut Random::new(1)).to_vec();
    rows.extend(floats(&mut Random::new(1)));
    Section {
        title: "Floats",
        unit: "Best of 4,000 rounds over 4,096 doubles, ns a call:",
        other: "machine",
        rows,
    }
}

fn roots(random: &mut Random) -> [Row; 4] {
    let positive: Vec<f64> = (0..COUNT).map(|_| positive_normal(random)).collect();
    let lengths: Vec<f64> = (0..COUNT).map(|_| length(random)).collect();
    let row = |entry, words, port, other| Row::new(entry, words, COUNT, port, other);
    [
        row(
            "root",
            "independent calls, any exponent",
            independent(probe::root, &positive),
            independent(machine_root, &positive),
        )
        .asked("at most 6"),
        row(
            "root",
            "independent calls, 0.001 to 1,000",
            independent(probe::root, &lengths),
            independent(machine_root, &lengths),
        )
        .asked("at most 6"),
        row(
            "root",
            "each on the answer before it",
            chained(probe::root, &lengths),
            chained(machine_root, &lengths),
        ),
        row(
            "roots of an array in one call",
            "",
            whole(probe::roots, &positive),
            whole(machine_roots, &positive),
        ),
    ]
}

fn floats(random: &mut Random) -> [Row; 3] {
    let signed: Vec<f64> = (0..COUNT)
        .map(|_| length(random).copysign(within(1.0, random)))
        .collect();
    let row = |entry, port, other| Row::new(entry, "", COUNT, port, other);
    [
        row(
            "rounding to a whole number",
            independent(probe::round, &signed),
            independent(machine_round, &signed),
        ),
        row(
            "size",
            independent(probe::size, &signed),
            independent(machine_size, &signed),
        ),
        row(
            "the key of totalOrder",
            independent(probe::order_key, &signed),
            independent(machine_order_key, &signed),
        ),
    ]
}

fn positive_normal(random: &mut Random) -> f64 {
    f64::from_bits(((1 + random.below(2046)) << 52) | (random.bits() >> 12))
}

fn length(random: &mut Random) -> f64 {
    let part = random.below(1 << 53) as f64 / (1u64 << 53) as f64;
    10f64.powf(6.0 * part - 3.0)
}

fn independent<R: Copy + Default>(function: Function<R>, xs: &[f64]) -> f64 {
    let function = black_box(function);
    let mut answers = vec![R::default(); xs.len()];
    of_each(CALLS, xs.len(), || {
        for (x, answer) in xs.iter().zip(&mut answers) {
            *answer = function(*x);
        }
        black_box(&answers);
    })
}

fn chained(function: Function<f64>, xs: &[f64]) -> f64 {
    let function = black_box(function);
    of_each(CALLS, xs.len(), || {
        let last = xs.iter().fold(1.0, |before, x| function(before + x));
        black_box(last);
    })
}

/// An array in one call, inside which the compiler is free to work on several elements at once.
pub fn whole<R>(function: impl Fn(&[f64], &mut [f64]) -> R, xs: &[f64]) -> f64 {
    let mut answers = vec![0.0; xs.len()];
    of_each(CALLS, xs.len(), || {
        black_box(function(black_box(xs), &mut answers));
        black_box(&answers);
    })
}
