//! From a tool pose to the joints that reach it.

use crate::chain::Chain;
use crate::flat;
use crate::pose::{Joints, Pose};
use crate::refusal::Refusal;
use std::slice;

/// A pose has at most this many joint sets.
pub const MOST_SOLUTIONS: usize = 50;

/// Every joint set that reaches the pose, in the order of the first angle's size, the first angle, the second. A rotary that the
/// axis leaves free takes its angle from the hint.
///
/// ```
/// use maztubel::{Carrier, Chain, Limits, Pose, Rotary, inverse};
///
/// let chain = Chain {
///     rotaries: vec![Rotary {
///         letter: b'C',
///         carrier: Carrier::Head,
///         axis: [0.0, 0.0, 1.0],
///         pivot: [0.0; 3],
///         limits: Some(Limits { min: -360.0, max: 360.0 }),
///         rest: 0.0,
///     }],
///     spindle: [1.0, 0.0, 0.0],
/// };
/// let pose = Pose { tip: [0.0; 3], axis: [-1.0, 0.0, 0.0] };
/// let angles: Vec<f64> = inverse(&chain, &pose, 0.0, [0.0; 2])?.iter().map(|joints| joints.angles[0]).collect();
/// assert_eq!(angles, [-180.0, 180.0]);
/// # Ok::<(), maztubel::Refusal>(())
/// ```
pub fn inverse(
    chain: &Chain,
    pose: &Pose,
    tool_length: f64,
    hint: [f64; 2],
) -> Result<Vec<Joints>, Refusal> {
    let mut list = vec![Joints::default(); MOST_SOLUTIONS];
    let told = flat::inverse(
        &chain.bytes(),
        flat::numbers(slice::from_ref(pose)),
        tool_length,
        &hint,
        flat::numbers_mut(&mut list),
    );
    told.served()?;
    list.truncate(told.count as usize);
    Ok(list)
}

/// Which of the joint sets is taken.
#[derive(Clone, Copy, Debug, PartialEq)]
pub enum Choice {
    /// The one with the smallest of the larger differences from these two angles, which are also the hint; of those that tie
    /// the first.
    Nearest([f64; 2]),
    /// The first whose first angle is at least -1e-9, else the first of all.
    FirstPositive,
    /// The first whose first angle is at most 1e-9, else the first of all.
    FirstNegative,
}

impl Choice {
    /// Its number, and the hint that goes with it.
    fn parts(self) -> (u32, [f64; 2]) {
        match self {
            Choice::Nearest(hint) => (flat::NEAREST, hint),
            Choice::FirstPositive => (flat::FIRST_POSITIVE, [0.0; 2]),
            Choice::FirstNegative => (flat::FIRST_NEGATIVE, [0.0; 2]),
        }
    }
}

/// One of [`inverse`]'s joint sets.
///
/// ```
/// use maztubel::{Carrier, Chain, Choice, Limits, Pose, Rotary, choose};
///
/// let chain = Chain {
///     rotaries: vec![Rotary {
///         letter: b'C',
///         carrier: Carrier::Head,
///         axis: [0.0, 0.0, 1.0],
///         pivot: [0.0; 3],
///         limits: Some(Limits { min: -360.0, max: 360.0 }),
///         rest: 0.0,
///     }],
///     spindle: [1.0, 0.0, 0.0],
/// };
/// let pose = Pose { tip: [0.0; 3], axis: [-1.0, 0.0, 0.0] };
/// assert_eq!(choose(&chain, &pose, 0.0, Choice::Nearest([170.0, 0.0]))?.angles[0], 180.0);
/// assert_eq!(choose(&chain, &pose, 0.0, Choice::FirstNegative)?.angles[0], -180.0);
/// # Ok::<(), maztubel::Refusal>(())
/// ```
pub fn choose(
    chain: &Chain,
    pose: &Pose,
    tool_length: f64,
    choice: Choice,
) -> Result<Joints, Refusal> {
    let (number, hint) = choice.parts();
    let mut joints = Joints::default();
    flat::choose(
        &chain.bytes(),
        flat::numbers(slice::from_ref(pose)),
        tool_length,
        number,
        &hint,
        flat::numbers_mut(slice::from_mut(&mut joints)),
    )
    .served()?;
    Ok(joints)
}

/// What [`choose`] gives, on the teeth of a Hirth table, which stand half a degree apart: each angle goes to its nearest half
/// degree, a half away from zero, and the position is worked out again, so that the tip holds.
///
/// `tolerance` is how far the tool axis that is reached there may be from the pose's, in degrees. A tolerance that is not finite
/// and above 0 is refused as 19 before all else, then come `choose`'s refusals, then [`crate::Reason::ToothMisses`]: on the teeth a
/// rotary is outside its limits, or the axis is off by more than the tolerance. No other joint set is tried then.
///
/// ```
/// use maztubel::{Carrier, Chain, Choice, Pose, Reason, Rotary, choose_tooth};
///
/// let chain = Chain {
///     rotaries: vec![Rotary {
///         letter: b'C',
///         carrier: Carrier::Head,
///         axis: [0.0, 0.0, 1.0],
///         pivot: [0.0; 3],
///         limits: None,
///         rest: 0.0,
///     }],
///     spindle: [1.0, 0.0, 0.0],
/// };
/// let (sine, cosine) = 30.2_f64.to_radians().sin_cos();
/// let pose = Pose { tip: [5.0, 6.0, 7.0], axis: [cosine, sine, 0.0] };
///
/// let joints = choose_tooth(&chain, &pose, 0.0, Choice::FirstPositive, 0.25)?;
/// assert_eq!(joints.angles, [30.0, 0.0]);
/// assert_eq!(joints.position, [5.0, 6.0, 7.0]);
///
/// let refusal = choose_tooth(&chain, &pose, 0.0, Choice::FirstPositive, 0.1).unwrap_err();
/// assert_eq!(refusal.reason, Reason::ToothMisses);
/// # Ok::<(), maztubel::Refusal>(())
/// ```
pub fn choose_tooth(
    chain: &Chain,
    pose: &Pose,
    tool_length: f64,
    choice: Choice,
    tolerance: f64,
) -> Result<Joints, Refusal> {
    let (number, hint) = choice.parts();
    let mut joints = Joints::default();
    flat::choose_tooth(
        &chain.bytes(),
        flat::numbers(slice::from_ref(pose)),
        tool_length,
        number,
        &hint,
        tolerance,
        flat::numbers_mut(slice::from_mut(&mut joints)),
    )
    .served()?;
    Ok(joints)
}
