//! Cases of sine, cosine, arctangent and arccosine. The Rust cannot judge their bits, so a case has the least and the greatest
//! answer that document 01 allows, found by exact sums: any answer between them is right.

use crate::angles::{self, MOST};
use crate::exact::{Exact, Sums};
use crate::random::Random;
use crate::replayed::{FILLED, Given, Line, Replayed};
use std::f64::consts::PI;

/// How far from S and C, and how large |y C(r) - x S(r)| may be against the larger of |x| and |y|.
const FROM_SUM: f64 = 1.0 / (1u64 << 48) as f64;
const RESIDUAL: f64 = 1.0 / (1u64 << 46) as f64;

const OUT_OF_RANGE: u32 = 17;

/// The least and the greatest answer.
type Ends = [f64; 2];

pub fn of_sine(sums: &Sums, random: &mut Random) -> Option<Replayed> {
    let x = angle(random);
    let ends = (x.abs() <= MOST).then(|| match x {
        0.0 => [x; 2],
        _ => near(sums.at(x).0),
    });
    judged("sine", &[x], ends)
}

pub fn of_cosine(sums: &Sums, random: &mut Random) -> Option<Replayed> {
    let x = angle(random);
    let ends = (x.abs() <= MOST).then(|| match x {
        0.0 => [1.0; 2],
        _ => near(sums.at(x).1),
    });
    judged("cosine", &[x], ends)
}

pub fn of_arctangent(sums: &Sums, random: &mut Random) -> Option<Replayed> {
    let (y, x) = angles::point(random);
    let finite = y.is_finite() && x.is_finite();
    judged(
        "arctangent",
        &[y, x],
        finite.then(|| arctangent(sums, y, x)),
    )
}

/// That of the root and c, in floats.
pub fn of_arccosine(sums: &Sums, random: &mut Random) -> Option<Replayed> {
    let c = match random.below(16) {
        0 => random.one_of(&[0.0, -0.0, 1.0, -1.0]),
        _ => angles::cosine(random),
    };
    let served = (-1.0..=1.0).contains(&c);
    let root = ((1.0 - c) * (1.0 + c)).sqrt();
    judged("arccosine", &[c], served.then(|| arctangent(sums, root, c)))
}

fn angle(random: &mut Random) -> f64 {
    match random.below(16) {
        0 => random.one_of(&[0.0, -0.0, MOST, -MOST]),
        _ => angles::angle(random),
    }
}

/// A refusal keeps what is lent, which is then both ends.
fn judged(entry: &str, arguments: &[f64], ends: Option<Ends>) -> Option<Replayed> {
    let (number, ends) = match ends {
        Some(ends) => (0, ends),
        None => (OUT_OF_RANGE, [FILLED; 2]),
    };
    let given = Given {
        numbers: [&[], &[], &[arguments, &ends].concat()],
        ..Given::default()
    };
    Replayed::new(Line::of(entry, number).words(" within"), &given)
}

fn near(sum: Exact) -> Ends {
    let allowed = |x: f64| !((Exact::of(x) - sum).size() - Exact::of(FROM_SUM)).positive();
    let middle = sum.nearly();
    [-2.0, 2.0].map(|end| farthest(middle, end, allowed))
}

/// With the sign of y; at a y of zero 0 or the double nearest Pi.
fn arctangent(sums: &Sums, y: f64, x: f64) -> Ends {
    if y == 0.0 {
        let size = if x.is_sign_negative() { PI } else { 0.0 };
        return [size.copysign(y); 2];
    }
    let allowed = |r: f64| in_direction(sums, y, x, r);
    let mut ends = [0.0, PI].map(|end: f64| end.copysign(y));
    ends.sort_by(f64::total_cmp);
    ends.map(|end| farthest(y.atan2(x), end, allowed))
}

/// The point (x, y) lies in the direction of r: |y C - x S| is small, and x C + y S is above 0.
fn in_direction(sums: &Sums, y: f64, x: f64, r: f64) -> bool {
    let larger = y.abs().max(x.abs());
    let down = -exponent(larger);
    let [y, x, larger] = [y, x, larger].map(|number| Exact::scaled(number, down));
    let (s, c) = sums.at(r);
    let aside = (y * c - x * s).size();
    let small = !(aside - larger * Exact::of(RESIDUAL)).positive();
    small && (x * c + y * s).positive()
}

/// The e with 2^e at most x and 2^(e + 1) above it, for a finite x above 0.
fn exponent(x: f64) -> i32 {
    let bits = x.to_bits();
    match (bits >> 52) as i32 {
        0 => 63 - bits.leading_zeros() as i32 - 1074,
        e => e - 1023,
    }
}

/// From a double that is allowed toward an end: the last that is, where those that are stand side by side.
fn farthest(from: f64, end: f64, allowed: impl Fn(f64) -> bool) -> f64 {
    assert!(allowed(from), "{from:e} is allowed");
    if allowed(end) {
        return end;
    }
    let (mut inside, mut outside) = (place(from), place(end));
    while inside.abs_diff(outside) > 1 {
        let middle = inside.midpoint(outside);
        match allowed(double(middle)) {
            true => inside = middle,
            false => outside = middle,
        }
    }
    double(inside)
}

/// The place of a double in totalOrder, and back.
fn place(x: f64) -> i64 {
    flipped(x.to_bits() as i64)
}

fn double(place: i64) -> f64 {
    f64::from_bits(flipped(place) as u64)
}

fn flipped(bits: i64) -> i64 {
    bits ^ ((bits >> 63) as u64 >> 1) as i64
}

#[cfg(test)]
mod tests {
    use super::*;

    #[test]
    fn places_stand_in_order() {
        let all = [f64::NEG_INFINITY, -1.0, -0.0, 0.0, 1e-300, 2.0];
        assert!(all.map(place).is_sorted());
        assert!(
            all.iter()
                .all(|&x| double(place(x)).to_bits() == x.to_bits())
        );
        assert_eq!(place(0.0) - place(-0.0), 1);
    }

    #[test]
    fn ends_are_as_far_as_the_document_allows() {
        let sums = Sums::default();
        let [least, greatest] = near(sums.at(0.5).0);
        assert!(least < 0.5f64.sin() && 0.5f64.sin() < greatest);
        assert!((greatest - least - 2.0 * FROM_SUM).abs() < FROM_SUM / 8.0);
        let [least, greatest] = arctangent(&sums, 3.0, 4.0);
        assert!((greatest - least - 2.0 * RESIDUAL * 0.8).abs() < RESIDUAL / 8.0);
        assert_eq!(arctangent(&sums, 1e-300, 1.0)[0].to_bits(), 0);
        assert_eq!(arctangent(&sums, -1e-300, -1.0)[0], -PI);
        assert_eq!(arctangent(&sums, -0.0, -1.0), [-PI; 2]);
    }
}
