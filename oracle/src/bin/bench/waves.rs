//! Sine, cosine, arctangent and arccosine beside libm's: a call by C's rules that is never inlined on both sides, over the same
//! doubles; then the slice forms, and how the cost of a call grows with the number of different arguments.

use super::floats::{CALLS, COUNT, whole};
use super::rows::{GROWN, Row, Section};
use super::timing::of_both;
use oracle::angles::{MOST, within};
use oracle::maztubel::{self, OfOne, OfTwo};
use oracle::probe;
use oracle::random::Random;
use std::f64::consts::PI;
use std::hint::black_box;

/// Of a growth's row.
const GROWN_CALLS: usize = 8_000_000;

type OfPair = extern "C" fn(f64, &mut f64, &mut f64) -> u32;

#[inline(never)]
extern "C" fn libm_sine(x: f64, answer: &mut f64) -> u32 {
    *answer = x.sin();
    0
}

#[inline(never)]
extern "C" fn libm_cosine(x: f64, answer: &mut f64) -> u32 {
    *answer = x.cos();
    0
}

#[inline(never)]
extern "C" fn libm_sine_cosine(x: f64, sine: &mut f64, cosine: &mut f64) -> u32 {
    (*sine, *cosine) = x.sin_cos();
    0
}

/// What the untouched Rust turns by.
#[inline(never)]
extern "C" fn libm_turn(degrees: f64, sine: &mut f64, cosine: &mut f64) -> u32 {
    (*sine, *cosine) = degrees.to_radians().sin_cos();
    0
}

#[inline(never)]
extern "C" fn libm_arctangent(y: f64, x: f64, answer: &mut f64) -> u32 {
    *answer = y.atan2(x);
    0
}

#[inline(never)]
extern "C" fn libm_arccosine(c: f64, answer: &mut f64) -> u32 {
    *answer = c.acos();
    0
}

#[inline(never)]
fn libm_each(function: fn(f64) -> f64, xs: &[f64], answers: &mut [f64]) -> u32 {
    for (&x, answer) in xs.iter().zip(answers) {
        *answer = function(x);
    }
    0
}

#[inline(never)]
fn libm_arctangents(ys: &[f64], xs: &[f64], answers: &mut [f64]) -> u32 {
    for ((y, &x), answer) in ys.iter().zip(xs).zip(answers) {
        *answer = y.atan2(x);
    }
    0
}

/// A function of one argument: its name, the port's, libm's, the size of the arguments, and what is asked of the ratio.
type Function = (&'static str, OfOne, OfOne, f64, &'static str);

const OF_ONE: [Function; 3] = [
    ("sine", maztubel::maztubel_sine, libm_sine, PI, "at most 5"),
    ("cosine", maztubel::maztubel_cosine, libm_cosine, PI, ""),
    (
        "arccosine",
        maztubel::maztubel_arccosine,
        libm_arccosine,
        1.0,
        "at most 12",
    ),
];

/// A pair of sine and cosine: its name, the port's and libm's, the size of the arguments with its words, and what is asked.
type Pair = (&'static str, [OfPair; 2], f64, &'static str, &'static str);

const FROM_RADIANS: (&str, [OfPair; 2]) = (
    "sine and cosine from one reduction",
    [probe::sine_cosine, libm_sine_cosine],
);
const FROM_DEGREES: (&str, [OfPair; 2]) = ("sine and cosine of degrees", [probe::turn, libm_turn]);

const OF_PAIR: [Pair; 4] = [
    (FROM_RADIANS.0, FROM_RADIANS.1, PI, "within pi", "at most 4"),
    (
        FROM_RADIANS.0,
        FROM_RADIANS.1,
        MOST,
        "within 800",
        "at most 4",
    ),
    (FROM_DEGREES.0, FROM_DEGREES.1, 360.0, "within 360", ""),
    (
        FROM_DEGREES.0,
        FROM_DEGREES.1,
        36_000.0,
        "within 36,000",
        "",
    ),
];

pub fn section() -> Section {
    let mut rows = functions(CALLS, COUNT, &mut Random::new(2))
        .map(Row::chief)
        .to_vec();
    rows.extend(others(&mut Random::new(2)));
    rows.extend(slices(&mut Random::new(3)));
    Section {
        title: "Sine, cosine, arctangent, arccosine",
        unit: "Best of 4,000 rounds over 4,096 arguments, ns a call; angles within pi where nothing else is said:",
        other: "libm",
        rows,
    }
}

pub fn grown() -> Vec<Row> {
    let of = |count| functions(GROWN_CALLS, count, &mut Random::new(6));
    let rows: Vec<[Row; 4]> = GROWN.map(of).to_vec();
    rows.concat()
}

fn functions(calls: usize, count: usize, random: &mut Random) -> [Row; 4] {
    let [sine, cosine, arccosine] = OF_ONE.map(|(name, port, libm, most, asked)| {
        let xs = drawn(count, most, random);
        let [port, libm] = of_both(calls, count, of_one(port, &xs), of_one(libm, &xs));
        Row::new(name, "", count, port, libm).asked(asked)
    });
    let point = |_| (within(1000.0, random), within(1000.0, random));
    let points: Vec<(f64, f64)> = (0..count).map(point).collect();
    let both: [OfTwo; 2] = [maztubel::maztubel_arctangent, libm_arctangent];
    let [port, libm] =
        black_box(both).map(|function| lent(&points, move |(y, x), answer| function(y, x, answer)));
    let [port, libm] = of_both(calls, count, port, libm);
    let arctangent = Row::new("arctangent", "", count, port, libm).asked("at most 6");
    [sine, cosine, arctangent, arccosine]
}

/// Of larger angles, and the pairs.
fn others(random: &mut Random) -> Vec<Row> {
    let row = |entry, words, port, libm| Row::new(entry, words, COUNT, port, libm);
    let large = drawn(COUNT, MOST, random);
    let of_large = OF_ONE[..2].iter().map(|&(name, port, libm, _, asked)| {
        let [port, libm] = [port, libm].map(|function| of_one(function, &large));
        let [port, libm] = of_both(CALLS, COUNT, port, libm);
        row(name, "within 800", port, libm).asked(asked)
    });
    let mut rows: Vec<Row> = of_large.collect();
    for (entry, both, most, words, asked) in OF_PAIR {
        let angles = drawn(COUNT, most, random);
        let [port, libm] = black_box(both).map(|function| {
            lent(&angles, move |x, (sine, cosine): &mut (f64, f64)| {
                function(x, sine, cosine)
            })
        });
        let [port, libm] = of_both(CALLS, COUNT, port, libm);
        rows.push(row(entry, words, port, libm).asked(asked));
    }
    rows
}

fn slices(random: &mut Random) -> [Row; 4] {
    let (angles, cosines) = (drawn(COUNT, PI, random), drawn(COUNT, 1.0, random));
    let (ys, xs) = (drawn(COUNT, 1000.0, random), drawn(COUNT, 1000.0, random));
    let row = |entry, port, libm| Row::new(entry, "", COUNT, port, libm);
    [
        row(
            "sines of an array in one call",
            whole(maztubel::sines, &angles),
            whole(|xs, answers| libm_each(f64::sin, xs, answers), &angles),
        ),
        row(
            "cosines of an array",
            whole(maztubel::cosines, &angles),
            whole(|xs, answers| libm_each(f64::cos, xs, answers), &angles),
        ),
        row(
            "arctangents of two arrays",
            whole(|xs, answers| maztubel::arctangents(&ys, xs, answers), &xs),
            whole(|xs, answers| libm_arctangents(&ys, xs, answers), &xs),
        ),
        row(
            "arccosines of an array",
            whole(maztubel::arccosines, &cosines),
            whole(|cs, answers| libm_each(f64::acos, cs, answers), &cosines),
        ),
    ]
}

fn drawn(count: usize, most: f64, random: &mut Random) -> Vec<f64> {
    (0..count).map(|_| within(most, random)).collect()
}

fn of_one(function: OfOne, xs: &[f64]) -> impl FnMut() {
    let function = black_box(function);
    lent(xs, move |x, answer| function(x, answer))
}

/// A round of calls one after the other, each with an answer of its own.
fn lent<I: Copy, A: Clone + Default>(
    inputs: &[I],
    call: impl Fn(I, &mut A) -> u32,
) -> impl FnMut() {
    let mut answers = vec![A::default(); inputs.len()];
    move || {
        let each = inputs.iter().zip(&mut answers);
        let told = each.map(|(&input, answer)| call(input, answer));
        assert_eq!(told.sum::<u32>(), 0, "an argument was refused");
        black_box(&answers);
    }
}
