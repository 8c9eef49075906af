//! The extremes beside a path: what document 02 says of ties, zeros, empty and long paths, of rows of replacements, and
//! of what a refusal keeps; and that no group but its own is touched, in memory with walls.

mod common;

use common::fenced::{FLUSHES, Fenced};
use maztubel::flat;
use maztubel::{Extremes, GROUP, Joints, Refusal};

fn at(first: f64, second: f64) -> Joints {
    Joints {
        position: [1.0, 2.0, 3.0],
        angles: [first, second],
    }
}

/// First angles, with second ones the other way round.
fn path(angles: &[f64]) -> Extremes {
    let joints = angles.iter().map(|angle| at(*angle, -angle));
    Extremes::of(joints.collect()).expect("a path that is served")
}

fn number<T: std::fmt::Debug>(answer: Result<T, Refusal>) -> u32 {
    answer.unwrap_err().number()
}

/// The numbers of a path whose first angles are these.
fn numbers(angles: impl Iterator<Item = f64>) -> Vec<f64> {
    angles
        .flat_map(|angle| [1.0, 2.0, 3.0, angle, -angle])
        .collect()
}

#[test]
fn empty_paths() {
    let mut none = path(&[]);
    assert!(none.summary().is_empty());
    assert_eq!(none.first_above(0, -36_000.0), Ok(None));
    assert_eq!(number(none.replace(0, at(0.0, 0.0))), 20);
}

/// A tie is not above, and of equals the first is told.
#[test]
fn ties() {
    let tied = path(&[10.0, 30.0, 30.0, 20.0]);
    assert_eq!(tied.first_above(0, 30.0), Ok(None));
    assert_eq!(tied.first_above(0, 30f64.next_down()), Ok(Some(1)));
    assert_eq!(tied.first_above(1, -20.0), Ok(Some(0)));
    assert_eq!(tied.first_above(1, -10.0), Ok(None));
}

/// Zeros of both signs are ordered as extremes, and equal as angles.
#[test]
fn zeros() {
    let zeros = path(&[0.0, -0.0]);
    let bits = |place: usize| zeros.summary()[place].to_bits();
    assert_eq!([bits(3), bits(8)], [(-0.0f64).to_bits(), 0]);
    assert_eq!(zeros.first_above(0, -0.0), Ok(None));
    assert_eq!(zeros.first_above(0, 0.0), Ok(None));
    assert_eq!(zeros.first_above(0, -f64::from_bits(1)), Ok(Some(0)));
}

#[test]
fn groups() {
    for (sets, groups) in [
        (1, 1),
        (63, 1),
        (64, 1),
        (65, 2),
        (127, 2),
        (128, 2),
        (129, 3),
    ] {
        let angles: Vec<f64> = (0..sets).map(f64::from).collect();
        let path = path(&angles);
        assert_eq!(path.summary().len(), 10 * groups);
        for (set, angle) in angles.iter().enumerate().skip(1) {
            assert_eq!(path.first_above(0, angle - 1.0), Ok(Some(set)));
        }
        assert_eq!(path.first_above(0, angles[angles.len() - 1]), Ok(None));
    }
}

/// More joint sets than any call with poses takes.
#[test]
fn long_paths() {
    let mut angles = vec![5.0; 110_000];
    angles[109_999] = 6.0;
    let mut long = path(&angles);
    assert_eq!(long.summary().len(), 10 * 110_000usize.div_ceil(GROUP));
    assert_eq!(long.first_above(0, 5.0), Ok(Some(109_999)));
    long.replace(109_999, at(4.0, 0.0)).unwrap();
    assert_eq!(long.first_above(0, 5.0), Ok(None));
}

/// The extreme itself is replaced, by a smaller and by a larger one; a refused call changes nothing.
#[test]
fn rows_of_replacements() {
    let mut row = path(&[10.0; 130]);
    for (index, angle) in [(70, 50.0), (70, 20.0), (129, -5.0), (0, 10.5), (0, 10.0)] {
        row.replace(index, at(angle, 0.0)).unwrap();
        let before = row.clone();
        assert_eq!(number(row.replace(130, at(0.0, 0.0))), 20);
        assert_eq!(number(row.replace(1, at(f64::NAN, 0.0))), 16);
        assert_eq!(number(row.replace(1, at(0.0, 36_001.0))), 17);
        assert_eq!(row, before);
        assert_eq!(Extremes::of(row.joints().to_vec()), Ok(row.clone()));
    }
    assert_eq!(row.first_above(0, 10.0), Ok(Some(70)));
    assert_eq!(row.into_joints().len(), 130);
}

/// Each refusal, the earlier one where there are two.
#[test]
fn refusals() {
    let far = Joints {
        position: [-10_000_000.1, 0.0, 0.0],
        ..Joints::default()
    };
    assert_eq!(number(Extremes::of(vec![far, at(f64::INFINITY, 0.0)])), 16);
    assert_eq!(number(Extremes::of(vec![far])), 17);
    let one = path(&[1.0]);
    assert_eq!(number(one.first_above(2, f64::NAN)), 20);
    assert_eq!(number(one.first_above(1, f64::NAN)), 16);
    assert_eq!(number(one.first_above(1, 36_000.1)), 17);
    assert_eq!(one.first_above(1, -36_000.0), Ok(Some(0)));
}

/// A summary that is not the joints' own, and joints that are not numbers: what is skipped is not looked at.
#[test]
fn skipped_groups() {
    let mut joints = numbers((0..192).map(f64::from));
    joints[5 * 64..5 * 128].fill(f64::NAN);
    let mut summary = [0.0; 30];
    summary[8] = 1_000.0;
    summary[18] = f64::NAN;
    summary[28] = 150.0;
    let (mut found, mut index) = (9, 9);
    let told = flat::first_above(&joints, &summary, 0, 140.0, &mut found, &mut index);
    assert_eq!((told.number, found, index), (0, 1, 141));
    let told = flat::first_above(&joints, &summary, 0, 150.0, &mut found, &mut index);
    assert_eq!((told.number, found, index), (0, 0, 0));
}

/// Three groups against a wall at either end, each call as without one; a replacement writes ten numbers of the
/// summary.
#[test]
fn against_walls() {
    let joints = numbers((0..129).map(f64::from));
    let mut summary = [0.0; 30];
    assert_eq!(flat::build_extremes(&joints, &mut summary).number, 0);
    let fresh = [0.0, 0.0, 0.0, 500.0, 0.0];
    let (mut sets, mut tens) = (Fenced::new(8 * joints.len()), Fenced::new(8 * 30));
    for flush in FLUSHES {
        let lent = sets.lend(&joints, flush);
        let room = tens.lend(&[9.0; 30], flush);
        assert_eq!(flat::build_extremes(lent, room).number, 0);
        assert_eq!(room, summary);
        let told = flat::replace_joints(lent, room, 128, &fresh);
        assert_eq!((told.number, &lent[5 * 128..]), (0, &fresh[..]));
        assert_eq!(lent[..5 * 128], joints[..5 * 128]);
        assert_eq!(room[..20], summary[..20]);
        assert_eq!(room[28], 500.0);
        let (mut found, mut index) = (9, 9);
        let told = flat::first_above(lent, room, 0, 499.0, &mut found, &mut index);
        assert_eq!((told.number, found, index), (0, 1, 128));
    }
}
