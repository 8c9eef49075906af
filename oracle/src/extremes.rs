//! The extremes beside a path: what document 02 says that the three calls must answer, and the calls themselves, each
//! on numbers that stand between guards. Nothing here is taken from the proved code: groups are cut, sorted and read as
//! the document's words have it.

use crate::floats::same;
use crate::joints::{MOST_ANGLE, MOST_POSITION};
use crate::maztubel;
use std::cmp::Ordering;

/// Five numbers make a joint set, 64 joint sets a group, and ten numbers stand for a group.
pub const SET: usize = 5;
pub const GROUP: usize = 64;
pub const TEN: usize = 10;

pub const NOT_FINITE: u32 = 16;
pub const TOO_LARGE: u32 = 17;
pub const LENGTHS_DIFFER: u32 = 20;

/// What stands before a call in a lent number or count, and around every slice.
pub const LENT: u64 = 0x7FF8_0123_4567_89AB;
const GUARD: usize = 4;

/// totalOrder. The language shows one nan, which stands last.
fn order(x: &f64, y: &f64) -> Ordering {
    match (x.is_nan(), y.is_nan()) {
        (false, false) => x.total_cmp(y),
        (left, right) => left.cmp(&right),
    }
}

/// How many numbers the summary of so many joint sets has.
pub fn summary_length(sets: usize) -> usize {
    sets.div_ceil(GROUP) * TEN
}

/// The smallest of each of the five numbers of a group, then the largest of each.
fn extremes(group: &[f64]) -> Vec<f64> {
    let mut columns: Vec<Vec<f64>> = (0..SET)
        .map(|slot| group.iter().skip(slot).step_by(SET).copied().collect())
        .collect();
    for column in &mut columns {
        column.sort_by(order);
    }
    let smallest = columns.iter().map(|column| column[0]);
    let largest = columns.iter().map(|column| column[column.len() - 1]);
    smallest.chain(largest).collect()
}

/// Worked out afresh.
pub fn summary(joints: &[f64]) -> Vec<f64> {
    joints.chunks(GROUP * SET).flat_map(extremes).collect()
}

/// Whether the largest of a group is above.
pub fn is_opened(summary: &[f64], group: usize, rotary: usize, angle: f64) -> bool {
    summary[TEN * group + SET + 3 + rotary] > angle
}

/// The first of all, without a summary.
pub fn full_reading(joints: &[f64], rotary: usize, angle: f64) -> Option<usize> {
    let mut sets = joints.chunks(SET);
    sets.position(|set| set[3 + rotary] > angle)
}

/// The first of those whose group is opened.
fn skipping(joints: &[f64], summary: &[f64], rotary: usize, angle: f64) -> Option<usize> {
    let groups = joints.chunks(GROUP * SET).enumerate();
    let mut opened = groups.filter(|(group, _)| is_opened(summary, *group, rotary, angle));
    opened.find_map(|(group, sets)| Some(GROUP * group + full_reading(sets, rotary, angle)?))
}

fn whole(joints: &[f64], summary: &[f64]) -> bool {
    joints.len().is_multiple_of(SET) && summary.len() == summary_length(joints.len() / SET)
}

fn fits(set: &[f64]) -> bool {
    let [position, angles] = [&set[..3], &set[3..]];
    position.iter().all(|x| x.abs() <= MOST_POSITION)
        && angles.iter().all(|x| x.abs() <= MOST_ANGLE)
}

/// The summary afterwards, or the refusal.
pub fn built(joints: &[f64], lent: &[f64]) -> Result<Vec<f64>, u32> {
    if !whole(joints, lent) {
        return Err(LENGTHS_DIFFER);
    }
    if !joints.iter().all(|x| x.is_finite()) {
        return Err(NOT_FINITE);
    }
    if !joints.chunks(SET).all(fits) {
        return Err(TOO_LARGE);
    }
    Ok(summary(joints))
}

/// Joints and summary afterwards, or the refusal.
pub fn replaced(
    joints: &[f64],
    summary: &[f64],
    index: u64,
    fresh: &[f64],
) -> Result<[Vec<f64>; 2], u32> {
    let there = index < (joints.len() / SET) as u64;
    if !whole(joints, summary) || fresh.len() != SET || !there {
        return Err(LENGTHS_DIFFER);
    }
    if !fresh.iter().all(|x| x.is_finite()) {
        return Err(NOT_FINITE);
    }
    if !fits(fresh) {
        return Err(TOO_LARGE);
    }
    let (mut joints, mut summary) = (joints.to_vec(), summary.to_vec());
    let (set, group) = (index as usize, index as usize / GROUP);
    joints[SET * set..][..SET].copy_from_slice(fresh);
    let sets = joints.chunks(GROUP * SET).nth(group);
    let ten = extremes(sets.expect("the group of a joint set"));
    summary[TEN * group..][..TEN].copy_from_slice(&ten);
    Ok([joints, summary])
}

/// The index, none, or the refusal.
pub fn asked(
    joints: &[f64],
    summary: &[f64],
    rotary: u64,
    angle: f64,
) -> Result<Option<usize>, u32> {
    if !whole(joints, summary) || rotary > 1 {
        return Err(LENGTHS_DIFFER);
    }
    if !angle.is_finite() {
        return Err(NOT_FINITE);
    }
    if angle.abs() > MOST_ANGLE {
        return Err(TOO_LARGE);
    }
    Ok(skipping(joints, summary, rotary as usize, angle))
}

/// Numbers between guards.
struct Between(Vec<f64>);

impl Between {
    fn of(numbers: &[f64]) -> Self {
        let guard = [f64::from_bits(LENT); GUARD];
        Between([&guard, numbers, &guard].concat())
    }

    fn inner(&mut self) -> &mut [f64] {
        let end = self.0.len() - GUARD;
        &mut self.0[GUARD..end]
    }

    /// Whether the numbers are these and the guards as they were, bit for bit.
    fn is(&self, numbers: &[f64]) -> bool {
        let bits = |x: &f64| x.to_bits();
        let Between(all) = Between::of(numbers);
        all.iter().map(bits).eq(self.0.iter().map(bits))
    }

    /// The same of a summary that was written: a nan of the joints may have other bits there.
    fn is_like(&mut self, numbers: &[f64]) -> bool {
        let like = alike(numbers, self.inner());
        self.inner().copy_from_slice(numbers);
        like && self.is(numbers)
    }
}

/// Bit for bit, but that a nan is a nan.
pub fn alike(x: &[f64], y: &[f64]) -> bool {
    x.len() == y.len() && x.iter().zip(y).all(|(x, y)| same(*x, *y))
}

/// Whether building answers and leaves what it must.
pub fn build_holds(joints: &[f64], lent: &[f64], expected: &Result<Vec<f64>, u32>) -> bool {
    let (mut read, mut written) = (Between::of(joints), Between::of(lent));
    let number = maztubel::build_extremes(read.inner(), written.inner());
    let written = match expected {
        Ok(summary) => number == 0 && written.is(summary),
        Err(refusal) => number == *refusal && written.is(lent),
    };
    written && read.is(joints)
}

/// Whether replacing does.
pub fn replace_holds(
    [joints, summary]: [&[f64]; 2],
    index: u64,
    fresh: &[f64],
    expected: &Result<[Vec<f64>; 2], u32>,
) -> bool {
    let (mut sets, mut ten, mut read) = (
        Between::of(joints),
        Between::of(summary),
        Between::of(fresh),
    );
    let number = maztubel::replace_joints(sets.inner(), ten.inner(), index, read.inner());
    let written = match expected {
        Ok([joints, summary]) => number == 0 && sets.is(joints) && ten.is_like(summary),
        Err(refusal) => number == *refusal && sets.is(joints) && ten.is(summary),
    };
    written && read.is(fresh)
}

/// Whether asking does.
pub fn ask_holds(
    [joints, summary]: [&[f64]; 2],
    rotary: u64,
    angle: f64,
    expected: &Result<Option<usize>, u32>,
) -> bool {
    let (mut sets, mut ten) = (Between::of(joints), Between::of(summary));
    let (mut found, mut index) = ([LENT; 3], [LENT; 3]);
    let number = maztubel::first_above(
        sets.inner(),
        ten.inner(),
        rotary,
        angle,
        &mut found[1],
        &mut index[1],
    );
    let (right, after) = match expected {
        Ok(Some(index)) => (0, [1, *index as u64]),
        Ok(None) => (0, [0, 0]),
        Err(refusal) => (*refusal, [LENT, LENT]),
    };
    number == right
        && found == [LENT, after[0], LENT]
        && index == [LENT, after[1], LENT]
        && sets.is(joints)
        && ten.is(summary)
}

#[cfg(test)]
mod tests {
    use super::*;

    fn path(angles: &[f64]) -> Vec<f64> {
        let sets = angles.iter().map(|angle| [1.0, 2.0, 3.0, *angle, -angle]);
        sets.flatten().collect()
    }

    /// Zeros of both signs are ordered as extremes, and equal as angles.
    #[test]
    fn zeros() {
        let joints = path(&[0.0, -0.0]);
        let ten = summary(&joints);
        assert_eq!(ten[3].to_bits(), (-0.0f64).to_bits());
        assert_eq!(ten[8].to_bits(), 0.0f64.to_bits());
        assert_eq!(asked(&joints, &ten, 0, -0.0), Ok(None));
        assert_eq!(asked(&joints, &ten, 0, -1.0), Ok(Some(0)));
    }

    #[test]
    fn lengths_of_summaries() {
        let lengths = [0, 1, 63, 64, 65, 127, 128, 129].map(summary_length);
        assert_eq!(lengths, [0, 10, 10, 10, 20, 20, 20, 30]);
    }

    /// A group that is not opened is not looked at, and one that is opened in vain does not end the search.
    #[test]
    fn groups_are_skipped() {
        let mut joints = path(&[1.0; 129]);
        joints[SET * 70 + 3] = 9.0;
        joints[SET * 128 + 3] = 8.0;
        let mut ten = summary(&joints);
        assert_eq!(asked(&joints, &ten, 0, 5.0), Ok(Some(70)));
        ten[8] = 6.0;
        assert_eq!(asked(&joints, &ten, 0, 5.0), Ok(Some(70)));
        ten[TEN + 8] = f64::NAN;
        assert_eq!(asked(&joints, &ten, 0, 5.0), Ok(Some(128)));
    }

    /// A nan stands behind all, whatever its sign.
    #[test]
    fn one_nan() {
        let joints = path(&[1.0, -f64::NAN, f64::INFINITY]);
        let ten = summary(&joints);
        assert!(ten[3] == 1.0 && ten[8].is_nan());
    }
}
