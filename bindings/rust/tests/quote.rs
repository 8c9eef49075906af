//! Quotations, of the old division and of the strict one: their figures are those of the division of the same
//! arguments, and what they leave of the scratch.

mod common;

use common::*;
use maztubel::{
    Chain, Divided, Joints, MOST_INSERTED, Place, Pose, Quotation, Refusal, Start, Tolerances,
    quote, quote_into, quote_strict, quote_strict_into, solve_path, subdivide_path,
    subdivide_strict,
};

type Divide = fn(&Chain, &[Pose], &[Joints], Tolerances) -> Result<Divided, Refusal>;
type Quote = fn(&Chain, &[Pose], &[Joints], Tolerances) -> Result<Quotation, Refusal>;
type QuoteInto = fn(
    &Chain,
    &[Pose],
    &[Joints],
    Tolerances,
    &mut [Joints],
    &mut [[f64; 3]],
) -> Result<Quotation, Refusal>;

/// A division, its quotation with its own scratch and with the caller's, and what a test counts.
struct Calls {
    divide: Divide,
    quote: Quote,
    quote_into: QuoteInto,
    per_test: usize,
}

const OLD: Calls = Calls {
    divide: subdivide_path,
    quote,
    quote_into,
    per_test: 3,
};

const STRICT: Calls = Calls {
    divide: subdivide_strict,
    quote: quote_strict,
    quote_into: quote_strict_into,
    per_test: 5,
};

const TOLERANCES: Tolerances = Tolerances {
    chord: 0.01,
    axis: 1.0,
};

const FINEST: Tolerances = Tolerances {
    chord: 1e-12,
    axis: 1e-9,
};

/// What stands in a scratch before a call.
const BEFORE: f64 = 7.25;

fn solved(poses: &[Pose]) -> Vec<Joints> {
    solve_path(&tables(), poses, Start::AtZero, 1.0).unwrap()
}

/// The answer with a scratch for so many joint sets and tips, and what every number of it is afterwards.
fn quoted(
    calls: &Calls,
    chain: &Chain,
    poses: &[Pose],
    joints: &[Joints],
    tolerances: Tolerances,
    [sets, tips]: [usize; 2],
) -> (Result<Quotation, Refusal>, f64) {
    let set = Joints {
        position: [BEFORE; 3],
        angles: [BEFORE; 2],
    };
    let (mut sets, mut tips) = (vec![set; sets], vec![[BEFORE; 3]; tips]);
    let answer = (calls.quote_into)(chain, poses, joints, tolerances, &mut sets, &mut tips);
    let positions = sets.iter().flat_map(|set| set.position);
    let angles = sets.iter().flat_map(|set| set.angles);
    let numbers = positions.chain(angles).chain(tips.into_iter().flatten());
    let mut bits: Vec<u64> = numbers.map(f64::to_bits).collect();
    bits.dedup();
    assert_eq!(bits.len(), 1, "a part of the scratch was left");
    (answer, f64::from_bits(bits[0]))
}

const ENOUGH: [usize; 2] = [MOST_INSERTED; 2];

#[test]
fn figures_are_those_of_the_division() {
    for calls in [OLD, STRICT] {
        for count in [0, 1, 2, 3, 8] {
            let poses = arc(count);
            let joints = solved(&poses);
            for chord in [10.0, 0.1, 0.01, 0.001] {
                let tolerances = Tolerances {
                    chord,
                    ..TOLERANCES
                };
                held(&calls, &poses, &joints, tolerances);
            }
        }
    }
}

/// Where every two neighbours are tested.
fn held(calls: &Calls, poses: &[Pose], joints: &[Joints], tolerances: Tolerances) {
    let path = (calls.divide)(&tables(), poses, joints, tolerances).unwrap();
    let quotation = (calls.quote)(&tables(), poses, joints, tolerances).unwrap();
    assert_eq!(quotation.inserted, path.inserted);
    assert_eq!(quotation.poses, path.poses.len());
    let tests = poses.len().saturating_sub(1) + 2 * path.inserted;
    let evaluations = calls.per_test * tests + path.inserted;
    assert_eq!(quotation.evaluations, evaluations as u64);
    let (again, left) = quoted(calls, &tables(), poses, joints, tolerances, ENOUGH);
    assert_eq!((again, left.to_bits()), (Ok(quotation), 0));
}

/// Two poses with the same joints pass before any evaluation, however far apart their tips are.
#[test]
fn unchanged_joints_count_nothing() {
    let (poses, joints) = (arc(2), [solved(&arc(1))[0]; 2]);
    let expected = Quotation {
        inserted: 0,
        poses: 2,
        evaluations: 0,
    };
    for calls in [OLD, STRICT] {
        let quotation = (calls.quote)(&tables(), &poses, &joints, TOLERANCES);
        assert_eq!(quotation, Ok(expected));
    }
}

#[test]
fn one_too_many() {
    let (poses, joints) = (arc(3), solved(&arc(3)));
    for calls in [OLD, STRICT] {
        let (answer, left) = quoted(&calls, &tables(), &poses, &joints, FINEST, ENOUGH);
        let refusal = answer.unwrap_err();
        assert_eq!((refusal.number(), left.to_bits()), (27, 0));
        assert_eq!(refusal.place, Place::Inserted(10_000));
        let divided = (calls.divide)(&tables(), &poses, &joints, FINEST);
        assert_eq!(divided.unwrap_err(), refusal);
    }
}

/// Also where nothing would wait, and before 27; more scratch is cleared too.
#[test]
fn scratch() {
    for (calls, count) in [OLD, STRICT]
        .iter()
        .flat_map(|calls| [0, 1, 3].map(|count| (calls, count)))
    {
        let (poses, joints) = (arc(count), solved(&arc(count)));
        for short in [[9_999, 10_000], [10_000, 9_999], [1, 0]] {
            let (answer, left) = quoted(calls, &tables(), &poses, &joints, FINEST, short);
            let refusal = answer.unwrap_err();
            assert_eq!((refusal.number(), left.to_bits()), (28, 0));
            assert_eq!(refusal.place, Place::Inserted(0));
        }
        let more = [10_003, 10_007];
        let (answer, left) = quoted(calls, &tables(), &poses, &joints, TOLERANCES, more);
        assert_eq!((answer.is_ok(), left.to_bits()), (true, 0));
    }
}

/// Before 28, which comes after every check.
#[test]
fn checks_keep_the_scratch() {
    let (poses, joints) = (arc(2), solved(&arc(2)));
    let loose = Tolerances {
        chord: 0.0,
        ..TOLERANCES
    };
    let mut broken = joints.clone();
    broken[1].angles[1] = f64::NAN;
    let mut far = joints.clone();
    far[1].angles[1] = 36_001.0;
    let mut unserved = tables();
    unserved.rotaries[1].letter = b'D';
    let mut parallel = tables();
    parallel.rotaries[1].axis = parallel.rotaries[0].axis;
    let cases = [
        (19, &unserved, &joints[1..], loose),
        (20, &unserved, &joints[1..], TOLERANCES),
        (4, &unserved, &broken[..], TOLERANCES),
        (30, &parallel, &broken[..], TOLERANCES),
        (16, &tables(), &broken[..], TOLERANCES),
        (17, &tables(), &far[..], TOLERANCES),
    ];
    for (number, chain, joints, tolerances) in cases {
        for (calls, scratch) in [
            (OLD, ENOUGH),
            (OLD, [2, 1]),
            (STRICT, ENOUGH),
            (STRICT, [2, 1]),
        ] {
            let (answer, left) = quoted(&calls, chain, &poses, joints, tolerances, scratch);
            assert_eq!((answer.unwrap_err().number(), left), (number, BEFORE));
        }
    }
}
