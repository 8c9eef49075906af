//! Whether links of a machine meet on a path.

use crate::flat;
use crate::model::Machine;
use crate::pose::Joints;
use crate::refusal::Refusal;

/// Where links meet first.
#[derive(Clone, Copy, Debug, PartialEq, Eq, Hash)]
pub struct Meeting {
    /// The index of the joint set.
    pub pose: usize,
    /// The indices of the two links, the earlier one first.
    pub links: [usize; 2],
}

/// The first of the joint sets at which two links with different mounts come too near, and the first two that do: by the earlier
/// link, then by the later one.
///
/// A link stands for a ball: a box for one about its middle with half its diagonal for a radius, a cylinder for one about the middle
/// of its length that reaches its rims. Two links meet where the middles are nearer than the sum of the radii. So this warns too soon
/// rather than too late: each ball holds its solid, but for the rounding of the last places.
///
/// Refused are what [`check_model`](crate::check_model) refuses, a joint that is not finite (16), and a pivot, a rest angle, a joint, or
/// a solid's coordinate, radius or length above its limit (17): 100,000 mm for a pivot and a solid; a cylinder's axis has none. There
/// may be any number of joint sets.
///
/// ```
/// use maztubel::{Carrier, Chain, Joints, Link, Machine, Meeting, Mount, Rotary, Solid, links_meet};
///
/// let (axis, pivot) = ([0.0, 0.0, 1.0], [0.0; 3]);
/// let table = Rotary { letter: b'C', carrier: Carrier::Table, axis, pivot, limits: None, rest: 0.0 };
/// let plate = Solid::Cylinder { base: [0.0, 0.0, -40.0], axis: [0.0, 0.0, 1.0], radius: 30.0, length: 80.0 };
/// let spindle = Solid::Box { min: [-10.0, -20.0, 0.0], max: [10.0, 20.0, 40.0] };
/// let link = |name: &[u8], mount, solid| Link { name: name.to_vec(), mount, solid };
/// let machine = Machine {
///     name: b"mill".to_vec(),
///     chain: Chain { rotaries: vec![table], spindle: [0.0, 0.0, 1.0] },
///     links: vec![link(b"plate", Mount::Table, plate), link(b"spindle", Mount::Head, spindle)],
/// };
/// let at = |z| Joints { position: [0.0, 0.0, z], angles: [0.0; 2] };
///
/// // The plate's ball has a radius of 50 about (0, 0, 0), the spindle's one of 30 about (0, 0, z + 20).
/// assert_eq!(links_meet(&machine, &[at(100.0), at(60.0)])?, None);
/// let met = links_meet(&machine, &[at(100.0), at(59.0)])?;
/// assert_eq!(met, Some(Meeting { pose: 1, links: [0, 1] }));
/// # Ok::<(), maztubel::Refusal>(())
/// ```
pub fn links_meet(machine: &Machine, joints: &[Joints]) -> Result<Option<Meeting>, Refusal> {
    let mut found = 0;
    let (mut pose, mut first, mut second) = (0, 0, 0);
    flat::links_meet(
        &machine.name,
        &machine.chain.bytes(),
        &machine.model_bytes(),
        flat::numbers(joints),
        &mut found,
        &mut pose,
        &mut first,
        &mut second,
    )
    .served()?;
    Ok((found == 1).then_some(Meeting {
        pose: pose as usize,
        links: [first as usize, second as usize],
    }))
}
