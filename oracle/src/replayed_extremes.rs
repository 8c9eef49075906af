//! Cases of the extremes beside a path. Document 02 has all of their answers; `extremes` reads it.

use crate::extremes::{SET, asked, built, replaced, summary, summary_length};
use crate::joints::{MOST_ANGLE, joints, sound_joints};
use crate::numbers::{refused, served};
use crate::random::Random;
use crate::replayed::{FILLED, FILLED_COUNT, Given, Line, Replayed};

/// So many joint sets a case has room for.
const MOST_SETS: u64 = 25;

fn path(random: &mut Random) -> Vec<f64> {
    let sets = random.below(MOST_SETS + 1);
    let sound = random.below(2) == 0;
    let each = (0..sets).flat_map(|_| match sound || random.below(8) != 0 {
        true => sound_joints(random),
        false => joints(random),
    });
    each.collect()
}

/// Mostly what belongs to the numbers of a path.
fn room(numbers: usize, random: &mut Random) -> usize {
    match random.below(12) {
        0 => random.below(31) as usize,
        _ => summary_length(numbers / SET),
    }
}

pub fn of_build(random: &mut Random) -> Option<Replayed> {
    let path = path(random);
    let lent = vec![FILLED; room(path.len(), random)];
    let (number, after) = match built(&path, &lent) {
        Ok(summary) => (0, summary),
        Err(refusal) => (refusal, lent.clone()),
    };
    let line = Line::new("build_extremes", number, 0, 0).numbers(&after);
    let given = Given {
        numbers: [&path, &[], &[]],
        rooms: [lent.len(), 0],
        ..Given::default()
    };
    Replayed::new(line, &given)
}

/// In joints and a summary that hold one number throughout.
pub fn of_replace(random: &mut Random) -> Option<Replayed> {
    let sets = random.below(52) as usize;
    let numbers = match random.below(12) {
        0 => random.below(256) as usize,
        _ => SET * sets,
    };
    let (path, lent) = (vec![FILLED; numbers], vec![FILLED; room(numbers, random)]);
    let index = random.below(sets as u64 + 2) as u16;
    let fresh = joints(random);
    let (number, [path, summary]) = match replaced(&path, &lent, u64::from(index), &fresh) {
        Ok(after) => (0, after),
        Err(refusal) => (refusal, [path, lent]),
    };
    let line = Line::new("replace_joints", number, 0, 0);
    let line = line.numbers(&path).numbers(&summary);
    let given = Given {
        which: index,
        numbers: [&fresh, &[], &[]],
        rooms: [path.len(), summary.len()],
        ..Given::default()
    };
    Replayed::new(line, &given)
}

/// Beside the path's own summary or a forged one, often at an angle of the path.
pub fn of_ask(random: &mut Random) -> Option<Replayed> {
    let path = path(random);
    let mut beside = match path.len().is_multiple_of(SET) {
        true => summary(&path),
        false => Vec::new(),
    };
    match random.below(8) {
        0 => beside.resize(random.below(31) as usize, 0.0),
        1 => beside
            .iter_mut()
            .for_each(|x| *x = served(MOST_ANGLE, 90.0, random)),
        _ => {}
    }
    let rotary = random.one_of(&[0, 0, 0, 0, 1, 1, 1, 1, 2, u16::MAX]);
    let angle = match (random.below(8), path.len()) {
        (0, _) => refused(MOST_ANGLE, random),
        (1, _) | (_, 0) => served(MOST_ANGLE, 90.0, random),
        (_, length) => path[random.below(length as u64) as usize],
    };
    let (number, found, index) = match asked(&path, &beside, u64::from(rotary), angle) {
        Ok(Some(index)) => (0, 1, index as u64),
        Ok(None) => (0, 0, 0),
        Err(refusal) => (refusal, FILLED_COUNT, FILLED_COUNT),
    };
    let line = Line::new("first_above", number, 0, 0);
    let line = line.count(found).count(index);
    let given = Given {
        which: rotary,
        numbers: [&path, &beside, &[angle]],
        ..Given::default()
    };
    Replayed::new(line, &given)
}
