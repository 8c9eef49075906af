//! The exported sine, cosine, arctangent and arccosine on random arguments, held to document 01's S and C, and to the machine's libm;
//! their slice forms, held to the single ones; and the pair of an angle in degrees, by which a turn is made.

use crate::angles::{self, MOST, MOST_DEGREES};
use crate::exact::{Exact, Sums};
use crate::maztubel::{self, OfEach, OfOne};
use crate::probe;
use crate::random::Random;
use crate::wave_tally::{LENT, OUT_OF_RANGE, RESIDUAL, Tally, Told, Waves, served};
use std::f64::consts::PI;

const LENGTHS_DIFFER: u32 = 20;

impl Waves {
    /// So many angles, three fifths as many in degrees, a fifth as many points and as many cosines, and a slice of each form for
    /// 500 angles.
    pub fn compare_drawn(&mut self, angles: u64, sums: &Sums, random: &mut Random) {
        for _ in 0..angles {
            compare_angle(self, sums, angles::angle(random));
        }
        for _ in 0..angles / 5 * 3 {
            compare_turn(&mut self.turns, sums, angles::degrees(random));
        }
        for _ in 0..angles / 5 {
            let (y, x) = angles::point(random);
            compare_arctangent(&mut self.arctangent, sums, y, x);
        }
        for _ in 0..angles / 5 {
            compare_arccosine(&mut self.arccosine, angles::cosine(random));
        }
        for _ in 0..angles / 500 {
            for (form, tally) in FORMS.iter().zip(&mut self.slices) {
                compare_form(tally, form, random);
            }
            compare_arctangents(&mut self.arctangents, random);
        }
    }

    /// Every multiple of 45 degrees up to 45,000, above and below zero, with eight doubles on either side.
    pub fn compare_eighth_turns(&mut self, sums: &Sums) {
        for n in -1000..=1000 {
            let x = 45.0 * f64::from(n);
            compare_turn(&mut self.turns, sums, x);
            let (mut above, mut below) = (x, x);
            for _ in 0..8 {
                (above, below) = (above.next_up(), below.next_down());
                compare_turn(&mut self.turns, sums, above);
                compare_turn(&mut self.turns, sums, below);
            }
        }
    }
}

fn ask(call: impl FnOnce(&mut f64) -> u32) -> Told {
    let mut lent = f64::from_bits(LENT);
    let number = call(&mut lent);
    Told {
        number,
        bits: lent.to_bits(),
    }
}

fn compare_angle(tallies: &mut Waves, sums: &Sums, x: f64) {
    let sine = ask(|lent| maztubel::maztubel_sine(x, lent));
    let cosine = ask(|lent| maztubel::maztubel_cosine(x, lent));
    compare_both(&mut tallies.both, x, sine, cosine);
    if !(-MOST..=MOST).contains(&x) {
        tallies.sine.refusal(&[x], sine);
        tallies.cosine.refusal(&[x], cosine);
        return;
    }
    let (s, c) = sums.at(x);
    compare_sine(&mut tallies.sine, x, sine, s);
    compare_cosine(&mut tallies.cosine, x, cosine, c);
}

fn compare_sine(tally: &mut Tally, x: f64, told: Told, s: Exact) {
    let Some(answer) = tally.answer(&[x], told) else {
        return;
    };
    let mirrored = ask(|lent| maztubel::maztubel_sine(-x, lent));
    tally.holds(
        mirrored == served(-answer),
        "odd in every bit",
        &[x],
        mirrored,
    );
    tally.holds(x != 0.0 || told == served(x), "the zero itself", &[x], told);
    tally.near_sum(x, answer, s, x);
    tally.from_libm.see(&[x], answer - x.sin(), x.sin());
}

fn compare_cosine(tally: &mut Tally, x: f64, told: Told, c: Exact) {
    let Some(answer) = tally.answer(&[x], told) else {
        return;
    };
    let mirrored = ask(|lent| maztubel::maztubel_cosine(-x, lent));
    tally.holds(
        mirrored == served(answer),
        "even in every bit",
        &[x],
        mirrored,
    );
    tally.holds(x != 0.0 || told == served(1.0), "1 at a zero", &[x], told);
    tally.near_sum(x, answer, c, 1.0);
    tally.from_libm.see(&[x], answer - x.cos(), x.cos());
}

/// Both from one reduction are bit for bit the two.
fn compare_both(tally: &mut Tally, x: f64, sine: Told, cosine: Told) {
    let mut lent = f64::from_bits(LENT);
    let told = ask(|other| probe::sine_cosine(x, &mut lent, other));
    let both = told == cosine && lent.to_bits() == sine.bits && sine.number == cosine.number;
    tally.holds(both, "the sine and the cosine", &[x], told);
    if told.number == 0 {
        tally.served += 1;
    } else {
        tally.refused += 1;
    }
}

/// The sine and the cosine of an angle in degrees.
fn ask_turn(x: f64) -> [Told; 2] {
    let [mut sine, mut cosine] = [f64::from_bits(LENT); 2];
    let number = probe::turn(x, &mut sine, &mut cosine);
    [sine, cosine].map(|lent| Told {
        number,
        bits: lent.to_bits(),
    })
}

fn compare_turn(tallies: &mut [Tally; 2], sums: &Sums, x: f64) {
    let told = ask_turn(x);
    if !(-MOST_DEGREES..=MOST_DEGREES).contains(&x) {
        for (tally, told) in tallies.iter_mut().zip(told) {
            tally.refusal(&[x], told);
        }
        return;
    }
    let (s, c) = sums.at_degrees(x);
    let (libms_s, libms_c) = x.to_radians().sin_cos();
    let back = ask_turn(-x);
    let [sine, cosine] = tallies;
    let tiny = if x.abs() < 45.0 { x.to_radians() } else { 0.0 };
    compare_turned(sine, x, told[0], s, libms_s, tiny);
    compare_turned(cosine, x, told[1], c, libms_c, 0.0);
    let negated = served(0.0 - f64::from_bits(told[0].bits));
    sine.holds(back[0] == negated, "negated for -x", &[x], back[0]);
    cosine.holds(back[1] == told[1], "even in every bit", &[x], back[1]);
    if x % 90.0 == 0.0 {
        let quarters = ((x / 90.0) as i64).rem_euclid(4) as usize;
        let exactly = [[0.0, 1.0], [1.0, 0.0], [0.0, -1.0], [-1.0, 0.0]][quarters];
        let words = "exactly +0.0, 1 or -1";
        sine.holds(told[0] == served(exactly[0]), words, &[x], told[0]);
        cosine.holds(told[1] == served(exactly[1]), words, &[x], told[1]);
    }
}

/// `tiny` is what the sum is where it is too small for 192 digits: from 45 degrees on it is that only at a zero.
fn compare_turned(tally: &mut Tally, x: f64, told: Told, sum: Exact, libms: f64, tiny: f64) {
    let Some(answer) = tally.answer(&[x], told) else {
        return;
    };
    tally.holds(told != served(-0.0), "no -0.0", &[x], told);
    tally.near_sum(x, answer, sum, tiny);
    tally.from_libm.see(&[x], answer - libms, libms);
}

fn compare_arctangent(tally: &mut Tally, sums: &Sums, y: f64, x: f64) {
    let told = ask(|lent| maztubel::maztubel_arctangent(y, x, lent));
    if !(y.is_finite() && x.is_finite()) {
        return tally.refusal(&[y, x], told);
    }
    let Some(r) = tally.answer(&[y, x], told) else {
        return;
    };
    let same_sign = r.is_sign_negative() == y.is_sign_negative();
    tally.holds(same_sign, "the sign of y", &[y, x], told);
    tally.holds(r.abs() <= PI, "between -pi and pi", &[y, x], told);
    tally.from_libm.see(&[y, x], r - y.atan2(x), y.atan2(x));
    if r.abs() > PI {
        return;
    }
    if y == 0.0 {
        let size = if x.is_sign_negative() { PI } else { 0.0 };
        let expected = served(size.copysign(y));
        tally.holds(told == expected, "0 or pi at a zero", &[y, x], told);
    } else {
        in_direction(tally, sums, y, x, r);
    }
}

/// The point (x, y) lies in the direction of r: |y C - x S| is small, and x C + y S is above 0.
fn in_direction(tally: &mut Tally, sums: &Sums, y: f64, x: f64, r: f64) {
    let larger = y.abs().max(x.abs());
    let down = -exponent(larger);
    let (exact_y, exact_x) = (Exact::scaled(y, down), Exact::scaled(x, down));
    let (s, c) = sums.at(r);
    let aside = (exact_y * c - exact_x * s).size().nearly();
    let residual = aside / Exact::scaled(larger, down).nearly();
    let ahead = exact_x * c + exact_y * s;
    tally.from_sum.gap.see(residual, &[y, x]);
    tally.holds(residual <= RESIDUAL, "a small residual", &[y, x], served(r));
    tally.holds(ahead.positive(), "x C + y S above 0", &[y, x], served(r));
}

/// The e with 2^e at most x and 2^(e + 1) above it, for a finite x above 0.
fn exponent(x: f64) -> i32 {
    let bits = x.to_bits();
    match (bits >> 52) as i32 {
        0 => 63 - bits.leading_zeros() as i32 - 1074,
        e => e - 1023,
    }
}

fn compare_arccosine(tally: &mut Tally, c: f64) {
    let told = ask(|lent| maztubel::maztubel_arccosine(c, lent));
    if !(-1.0..=1.0).contains(&c) {
        return tally.refusal(&[c], told);
    }
    let Some(answer) = tally.answer(&[c], told) else {
        return;
    };
    let root = ((1.0 - c) * (1.0 + c)).sqrt();
    let expected = ask(|lent| maztubel::maztubel_arctangent(root, c, lent));
    tally.holds(
        told == expected,
        "the arctangent of the root and c",
        &[c],
        told,
    );
    tally.from_libm.see(&[c], answer - c.acos(), c.acos());
}

/// A slice form beside the form of one argument, and what draws an argument: one that is served, and any.
struct Form {
    each: OfEach,
    one: OfOne,
    served: fn(&mut Random) -> f64,
    any: fn(&mut Random) -> f64,
}

const FORMS: [Form; 3] = [
    Form {
        each: maztubel::sines,
        one: maztubel::maztubel_sine,
        served: angles::served_angle,
        any: angles::angle,
    },
    Form {
        each: maztubel::cosines,
        one: maztubel::maztubel_cosine,
        served: angles::served_angle,
        any: angles::angle,
    },
    Form {
        each: maztubel::arccosines,
        one: maztubel::maztubel_arccosine,
        served: angles::served_cosine,
        any: angles::cosine,
    },
];

fn compare_form(tally: &mut Tally, form: &Form, random: &mut Random) {
    let mut xs: Vec<f64> = (0..random.below(64))
        .map(|_| (form.served)(random))
        .collect();
    replace_one(&mut xs, random, form.any);
    let single = |&x: &f64| ask(|lent| (form.one)(x, lent));
    let given = Given {
        arguments: xs.clone(),
        same_length: true,
        told: xs.iter().map(single).collect(),
    };
    compare_slice(tally, &given, random, |lent| (form.each)(&xs, lent));
}

fn compare_arctangents(tally: &mut Tally, random: &mut Random) {
    let mut points: Vec<(f64, f64)> = (0..random.below(64))
        .map(|_| (angles::within(MOST, random), angles::within(MOST, random)))
        .collect();
    replace_one(&mut points, random, angles::point);
    let single = |&(y, x): &(f64, f64)| ask(|lent| maztubel::maztubel_arctangent(y, x, lent));
    let told = points.iter().map(single).collect();
    let (ys, mut xs): (Vec<f64>, Vec<f64>) = points.into_iter().unzip();
    if random.below(8) == 0 {
        xs.push(0.0);
    }
    let given = Given {
        arguments: [&ys[..], &xs].concat(),
        same_length: ys.len() == xs.len(),
        told,
    };
    compare_slice(tally, &given, random, |lent| {
        maztubel::arctangents(&ys, &xs, lent)
    });
}

/// Half of the time, at a random place.
fn replace_one<T>(xs: &mut [T], random: &mut Random, by: impl Fn(&mut Random) -> T) {
    let place = random.below(2 * xs.len() as u64 + 1) as usize;
    if let Some(x) = xs.get_mut(place) {
        *x = by(random);
    }
}

/// What a slice form is given, all arguments in one list, and what the single form tells of each.
struct Given {
    arguments: Vec<f64>,
    same_length: bool,
    told: Vec<Told>,
}

impl Given {
    /// What the slice form must answer, with room for so many.
    fn expected(&self, room: usize) -> u32 {
        if !self.same_length || room != self.told.len() {
            return LENGTHS_DIFFER;
        }
        match self.told.iter().any(|one| one.number != 0) {
            true => OUT_OF_RANGE,
            false => 0,
        }
    }
}

/// Lends room between two guards, and expects what the single calls told: all of it, or all kept.
fn compare_slice(
    tally: &mut Tally,
    given: &Given,
    random: &mut Random,
    call: impl FnOnce(&mut [f64]) -> u32,
) {
    const GUARD: usize = 4;
    let room = match random.below(8) {
        0 => random.below(64) as usize,
        _ => given.told.len(),
    };
    let mut lent = vec![f64::from_bits(LENT); GUARD + room + GUARD];
    let number = call(&mut lent[GUARD..GUARD + room]);
    let expected = given.expected(room);
    let mut bits = vec![LENT; lent.len()];
    if expected == 0 {
        let answers = given.told.iter().map(|one| one.bits);
        bits.splice(GUARD..GUARD + room, answers);
        tally.served += 1;
    } else {
        tally.refused += 1;
    }
    let as_expected = number == expected && lent.iter().map(|x| x.to_bits()).eq(bits);
    tally.holds(
        as_expected,
        "what the single calls answer",
        &given.arguments,
        Told { number, bits: LENT },
    );
}
