//! The extremes beside a long path, and whether it comes near a stop.

use crate::flat;
use crate::pose::Joints;
use crate::refusal::Refusal;

/// So many joint sets make a group; the last one may be smaller.
pub const GROUP: usize = 64;

/// Joint sets of a path with their summary: for every group the smallest and the largest of each of the five numbers,
/// by totalOrder. The two belong together, so a joint set is replaced through this type.
///
/// ```
/// use maztubel::{Extremes, Joints};
///
/// let path = (0..100).map(|i| Joints { position: [0.0; 3], angles: [f64::from(i), 0.0] }).collect();
/// let mut extremes = Extremes::of(path)?;
/// assert_eq!(extremes.first_above(0, 80.5)?, Some(81));
/// assert_eq!(extremes.first_above(0, 99.0)?, None);
///
/// let turned = Joints { angles: [120.0, 0.0], ..extremes.joints()[3] };
/// extremes.replace(3, turned)?;
/// assert_eq!(extremes.first_above(0, 99.0)?, Some(3));
/// # Ok::<(), maztubel::Refusal>(())
/// ```
#[derive(Clone, Debug, PartialEq)]
pub struct Extremes {
    joints: Vec<Joints>,
    summary: Vec<f64>,
}

impl Extremes {
    /// Of any number of joint sets. Refused are a number that is not finite (16), and a position above 10,000,000 mm or
    /// an angle above 36,000 degrees in size (17).
    pub fn of(joints: Vec<Joints>) -> Result<Extremes, Refusal> {
        let mut summary = vec![0.0; 10 * joints.len().div_ceil(GROUP)];
        flat::build_extremes(flat::numbers(&joints), &mut summary).served()?;
        Ok(Extremes { joints, summary })
    }

    /// Replaces one joint set; its group alone is worked out again. Refused are an index that there is not (20), and a
    /// joint set as in [`Extremes::of`]. A refusal changes nothing.
    pub fn replace(&mut self, index: usize, joints: Joints) -> Result<(), Refusal> {
        let Extremes {
            joints: all,
            summary,
        } = self;
        flat::replace_joints(
            flat::numbers_mut(all),
            summary,
            index as u64,
            flat::numbers(&[joints]),
        )
        .served()
    }

    /// The first joint set whose angle of the rotary, 0 or 1, is above `angle` degrees, compared as floats. Groups
    /// whose largest is not above are skipped. Refused are another rotary (20), and an angle that is not finite (16) or
    /// above 36,000 in size (17).
    pub fn first_above(&self, rotary: usize, angle: f64) -> Result<Option<usize>, Refusal> {
        let (mut found, mut index) = (0, 0);
        flat::first_above(
            flat::numbers(&self.joints),
            &self.summary,
            rotary as u64,
            angle,
            &mut found,
            &mut index,
        )
        .served()?;
        Ok((found == 1).then_some(index as usize))
    }

    /// The joint sets.
    pub fn joints(&self) -> &[Joints] {
        &self.joints
    }

    /// The summary: ten numbers for each group, the smallest of each of the five numbers of a joint set, then the
    /// largest of each.
    pub fn summary(&self) -> &[f64] {
        &self.summary
    }

    /// The joint sets back.
    pub fn into_joints(self) -> Vec<Joints> {
        self.joints
    }
}
