//! What a division will insert, before the path exists.

use crate::chain::Chain;
use crate::flat::{self, Told};
use crate::path::{MOST_INSERTED, Tolerances};
use crate::pose::{Joints, Pose};
use crate::refusal::Refusal;

/// The figures of a division, with no path written.
#[derive(Clone, Copy, Debug, Default, PartialEq, Eq, Hash)]
pub struct Quotation {
    /// How many poses are inserted, and charged.
    pub inserted: usize,
    /// How many poses the divided path holds.
    pub poses: usize,
    /// How many forward evaluations the tests and insertions count: three for each two poses that ever are neighbours,
    /// five in a strict division, unless their joints differ by no more than 1e-12, and one for each insertion.
    pub evaluations: u64,
}

/// What [`subdivide_path`](crate::subdivide_path) will insert for the same arguments, exactly, and how many poses it will answer. What it
/// refuses is refused here, with the same number and place.
///
/// ```
/// use maztubel::{Carrier, Chain, Pose, Rotary, Start, Tolerances, quote, solve_path, subdivide_path};
///
/// let chain = Chain {
///     rotaries: vec![Rotary {
///         letter: b'A',
///         carrier: Carrier::Table,
///         axis: [1.0, 0.0, 0.0],
///         pivot: [0.0; 3],
///         limits: None,
///         rest: 0.0,
///     }],
///     spindle: [0.0, 0.0, 1.0],
/// };
/// let poses = [
///     Pose { tip: [0.0, 0.0, 50.0], axis: [0.0, 0.0, 1.0] },
///     Pose { tip: [0.0, 30.0, 40.0], axis: [0.0, 0.6, 0.8] },
/// ];
/// let tolerances = Tolerances { chord: 0.01, axis: 1.0 };
/// let joints = solve_path(&chain, &poses, Start::AtZero, 1.0)?;
///
/// let quotation = quote(&chain, &poses, &joints, tolerances)?;
/// let path = subdivide_path(&chain, &poses, &joints, tolerances)?;
/// assert_eq!(quotation.inserted, path.inserted);
/// assert_eq!(quotation.poses, path.poses.len());
/// // Each insertion makes one test two more, of three evaluations each, and counts one itself.
/// assert_eq!(quotation.evaluations, 3 + 7 * path.inserted as u64);
/// # Ok::<(), maztubel::Refusal>(())
/// ```
pub fn quote(
    chain: &Chain,
    poses: &[Pose],
    joints: &[Joints],
    tolerances: Tolerances,
) -> Result<Quotation, Refusal> {
    with_scratch(quote_into, chain, poses, joints, tolerances)
}

/// The same of the strict division, [`subdivide_strict`](crate::subdivide_strict). A test counts five evaluations, also
/// one that fails at the middle already.
///
/// ```
/// use maztubel::{Carrier, Chain, Joints, Pose, Rotary, Tolerances, quote, quote_strict};
///
/// let chain = Chain {
///     rotaries: vec![Rotary {
///         letter: b'C',
///         carrier: Carrier::Table,
///         axis: [0.0, 0.0, 1.0],
///         pivot: [0.0; 3],
///         limits: None,
///         rest: 0.0,
///     }],
///     spindle: [0.0, 0.0, 1.0],
/// };
/// let poses = [Pose { tip: [20.0, 0.0, 0.0], axis: [0.0, 0.0, 1.0] }; 2];
/// let joints = [0.0, 720.0].map(|c| Joints { position: [20.0, 0.0, 0.0], angles: [c, 0.0] });
/// let tolerances = Tolerances { chord: 0.5, axis: 0.5 };
///
/// let [old, strict] = [quote, quote_strict].map(|quote| quote(&chain, &poses, &joints, tolerances));
/// let (old, strict) = (old?, strict?);
/// assert_eq!((old.inserted, old.evaluations), (0, 3));
/// assert_eq!(strict.evaluations, 5 + 11 * strict.inserted as u64);
/// # Ok::<(), maztubel::Refusal>(())
/// ```
pub fn quote_strict(
    chain: &Chain,
    poses: &[Pose],
    joints: &[Joints],
    tolerances: Tolerances,
) -> Result<Quotation, Refusal> {
    with_scratch(quote_strict_into, chain, poses, joints, tolerances)
}

/// A quotation in the caller's scratch.
type QuoteInto = fn(
    &Chain,
    &[Pose],
    &[Joints],
    Tolerances,
    &mut [Joints],
    &mut [[f64; 3]],
) -> Result<Quotation, Refusal>;

fn with_scratch(
    quote_into: QuoteInto,
    chain: &Chain,
    poses: &[Pose],
    joints: &[Joints],
    tolerances: Tolerances,
) -> Result<Quotation, Refusal> {
    let mut scratch_joints = vec![Joints::default(); MOST_INSERTED];
    let mut scratch_tips = vec![[0.0; 3]; MOST_INSERTED];
    quote_into(
        chain,
        poses,
        joints,
        tolerances,
        &mut scratch_joints,
        &mut scratch_tips,
    )
}

/// As [`quote`], with the caller's scratch, for as many as [`MOST_INSERTED`] joint sets and tips. Less is refused (28) after every check,
/// also where nothing would wait. Refusals of the checks keep the scratch; every other answer, 27 and 28 too, leaves +0.0 in all of it.
///
/// ```
/// use maztubel::{Carrier, Chain, Joints, Rotary, Tolerances, quote_into};
///
/// let chain = Chain {
///     rotaries: vec![Rotary {
///         letter: b'C',
///         carrier: Carrier::Head,
///         axis: [0.0, 0.0, 1.0],
///         pivot: [0.0; 3],
///         limits: None,
///         rest: 0.0,
///     }],
///     spindle: [0.0, 0.0, 1.0],
/// };
/// let tolerances = Tolerances { chord: 0.5, axis: 0.5 };
/// let refusal = quote_into(&chain, &[], &[], tolerances, &mut [Joints::default(); 5], &mut []).unwrap_err();
/// assert_eq!(refusal.number(), 28);
/// ```
pub fn quote_into(
    chain: &Chain,
    poses: &[Pose],
    joints: &[Joints],
    tolerances: Tolerances,
    scratch_joints: &mut [Joints],
    scratch_tips: &mut [[f64; 3]],
) -> Result<Quotation, Refusal> {
    let scratch = (scratch_joints, scratch_tips);
    quoted(flat::quote, chain, poses, joints, tolerances, scratch)
}

/// As [`quote_strict`], with the caller's scratch and the refusals of [`quote_into`].
///
/// ```
/// use maztubel::{Chain, Joints, Tolerances, quote_strict_into};
///
/// let chain = Chain { rotaries: vec![], spindle: [0.0; 3] };
/// let tolerances = Tolerances { chord: 0.5, axis: 0.5 };
/// let refusal = quote_strict_into(&chain, &[], &[], tolerances, &mut [Joints::default(); 5], &mut []).unwrap_err();
/// assert_eq!(refusal.number(), 3);
/// ```
pub fn quote_strict_into(
    chain: &Chain,
    poses: &[Pose],
    joints: &[Joints],
    tolerances: Tolerances,
    scratch_joints: &mut [Joints],
    scratch_tips: &mut [[f64; 3]],
) -> Result<Quotation, Refusal> {
    let scratch = (scratch_joints, scratch_tips);
    quoted(
        flat::quote_strict,
        chain,
        poses,
        joints,
        tolerances,
        scratch,
    )
}

/// A flat entry that quotes.
type Quoting =
    fn(&[u8], &[f64], &[f64], f64, f64, &mut [f64], &mut [f64], &mut u64, &mut u64) -> Told;

fn quoted(
    entry: Quoting,
    chain: &Chain,
    poses: &[Pose],
    joints: &[Joints],
    tolerances: Tolerances,
    (scratch_joints, scratch_tips): (&mut [Joints], &mut [[f64; 3]]),
) -> Result<Quotation, Refusal> {
    let (mut poses_out, mut evaluations) = (0, 0);
    let told = entry(
        &chain.bytes(),
        flat::numbers(poses),
        flat::numbers(joints),
        tolerances.chord,
        tolerances.axis,
        flat::numbers_mut(scratch_joints),
        scratch_tips.as_flattened_mut(),
        &mut poses_out,
        &mut evaluations,
    );
    told.served()?;
    Ok(Quotation {
        inserted: told.count as usize,
        poses: poses_out as usize,
        evaluations,
    })
}
