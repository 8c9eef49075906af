//! Joints along a path, and poses inserted until both tolerances hold.

use crate::chain::Chain;
use crate::flat::{self, Told};
use crate::pose::{Joints, Pose};
use crate::refusal::Refusal;
use std::slice;

/// Division inserts at most this many poses.
pub const MOST_INSERTED: usize = 10_000;

/// What the first pose's joints are to be continuous with.
#[derive(Clone, Copy, Debug, Default, PartialEq)]
pub enum Start {
    /// Angles of zero.
    #[default]
    AtZero,
    /// The angles of these joints.
    From(Joints),
}

impl Start {
    fn numbers(&self) -> &[f64] {
        match self {
            Start::AtZero => &[],
            Start::From(joints) => flat::numbers(slice::from_ref(joints)),
        }
    }
}

/// How far the middle between two neighbours, and in a strict division each quarter of the way too, may lie from where
/// it would lie if they were joined by a line, each above 0.
#[derive(Clone, Copy, Debug, PartialEq)]
pub struct Tolerances {
    /// Of the tip, in mm.
    pub chord: f64,
    /// Of the tool axis, in degrees.
    pub axis: f64,
}

/// A path with the poses that were inserted, and as many joint sets.
#[derive(Clone, Debug, Default, PartialEq)]
pub struct Divided {
    /// The given poses, bit for bit, with the inserted ones between them.
    pub poses: Vec<Pose>,
    /// A joint set for each.
    pub joints: Vec<Joints>,
    /// How many were inserted.
    pub inserted: usize,
    /// The index in `poses` of each given pose, in order; see [`given_indices`].
    pub given: Vec<usize>,
}

impl Divided {
    /// Whether the pose with this index was inserted. False for an index beyond the path.
    ///
    /// ```
    /// use maztubel::{Carrier, Chain, Pose, Rotary, Start, Tolerances, solve_and_divide};
    ///
    /// let chain = Chain {
    ///     rotaries: vec![Rotary {
    ///         letter: b'A',
    ///         carrier: Carrier::Table,
    ///         axis: [1.0, 0.0, 0.0],
    ///         pivot: [0.0; 3],
    ///         limits: None,
    ///         rest: 0.0,
    ///     }],
    ///     spindle: [0.0, 0.0, 1.0],
    /// };
    /// let poses = [
    ///     Pose { tip: [0.0, 0.0, 50.0], axis: [0.0, 0.0, 1.0] },
    ///     Pose { tip: [0.0, 30.0, 40.0], axis: [0.0, 0.6, 0.8] },
    /// ];
    /// let path = solve_and_divide(&chain, &poses, Start::AtZero, 1.0, Tolerances { chord: 2.5, axis: 1.0 })?;
    /// assert_eq!(path.given, [0, 2]);
    /// assert_eq!([0, 1, 2, 3].map(|index| path.is_inserted(index)), [false, true, false, false]);
    /// # Ok::<(), maztubel::Refusal>(())
    /// ```
    pub fn is_inserted(&self, index: usize) -> bool {
        index < self.poses.len() && self.given.binary_search(&index).is_err()
    }
}

/// The index of each given pose in a divided path, in order. `given` are the joint sets that the path was divided with,
/// `divided` those of the result.
///
/// Each given joint set is matched with the first one after the previous match that has the same five numbers. This is
/// right for every division:
///
/// - A midpoint lies between its ends in each of the five numbers (crates/float/proofs/Between.antt). So from one
///   given pose to the next, each number only rises or only falls.
/// - A midpoint is inserted only where it differs from both its ends in some number. So from one given pose to the
///   next, if any is inserted, each pose differs from the one before it in some number.
/// - Together: no inserted pose has the joints of the next given one. The first match is the given pose itself.
///
/// Poses alone do not tell: an inserted pose can equal the next given one bit for bit.
///
/// [`Divided::given`] is this answer. After [`subdivide_path_into`] and [`subdivide_strict_into`] the caller has both
/// lists. After [`solve_and_divide_into`] the first list is what [`solve_path`] gives. If `divided` is not a division
/// of `given`, the answer ends before the first joint set without a match.
///
/// ```
/// use maztubel::{Joints, given_indices};
///
/// let [a, b, c] = [0.0, 1.0, 2.0].map(|x| Joints { position: [x, 0.0, 0.0], angles: [0.0; 2] });
/// assert_eq!(given_indices(&[a, c, b], &[a, b, c, b]), [0, 2, 3]);
/// assert_eq!(given_indices(&[a, c, b], &[a, b]), [0]);
/// ```
pub fn given_indices(given: &[Joints], divided: &[Joints]) -> Vec<usize> {
    let mut places = 0..divided.len();
    let place = |joints: &Joints| places.find(|&index| divided[index] == *joints);
    given.iter().map_while(place).collect()
}

/// The joints of every pose, each continuous with the one before it. Inside the cone about the singular direction, in degrees
/// above 0 and at most 10, the rotary on that direction keeps its angle; where a rotary would leave its limits so, the exact
/// solution is taken.
///
/// ```
/// use maztubel::{Carrier, Chain, Joints, Pose, Rotary, Start, solve_path};
///
/// let chain = Chain {
///     rotaries: vec![Rotary {
///         letter: b'C',
///         carrier: Carrier::Head,
///         axis: [0.0, 0.0, 1.0],
///         pivot: [0.0; 3],
///         limits: None,
///         rest: 0.0,
///     }],
///     spindle: [1.0, 0.0, 0.0],
/// };
/// let poses = [Pose { tip: [1.0, 2.0, 3.0], axis: [1.0, 0.0, 0.0] }];
/// let start = Joints { position: [0.0; 3], angles: [180.0, 0.0] };
/// assert_eq!(solve_path(&chain, &poses, Start::From(start), 1.0)?[0].angles[0], 360.0);
/// # Ok::<(), maztubel::Refusal>(())
/// ```
pub fn solve_path(
    chain: &Chain,
    poses: &[Pose],
    start: Start,
    cone: f64,
) -> Result<Vec<Joints>, Refusal> {
    let mut joints = vec![Joints::default(); poses.len()];
    solve_path_into(chain, poses, start, cone, &mut joints)?;
    Ok(joints)
}

/// As [`solve_path`], in a slice of at least as many joint sets, with +0.0 behind them. A refusal with a pose leaves it all +0.0,
/// every other one keeps it.
///
/// ```
/// use maztubel::{Chain, Joints, Start, solve_path_into};
///
/// let chain = Chain { rotaries: vec![], spindle: [0.0; 3] };
/// let mut joints = [Joints { position: [9.0; 3], angles: [9.0; 2] }; 2];
/// assert_eq!(solve_path_into(&chain, &[], Start::AtZero, 0.0, &mut joints).unwrap_err().number(), 18);
/// assert_eq!(joints[1].angles[1], 9.0);
/// ```
pub fn solve_path_into(
    chain: &Chain,
    poses: &[Pose],
    start: Start,
    cone: f64,
    joints: &mut [Joints],
) -> Result<(), Refusal> {
    let chain = chain.bytes();
    told_of_poses(joints, |joints| {
        flat::solve_path(
            &chain,
            flat::numbers(poses),
            start.numbers(),
            cone,
            flat::numbers_mut(joints),
        )
    })
    .map(|_| ())
}

/// The given poses with their given joints, divided until both tolerances hold.
///
/// ```
/// use maztubel::{Carrier, Chain, Pose, Rotary, Start, Tolerances, solve_and_divide, solve_path, subdivide_path};
///
/// let chain = Chain {
///     rotaries: vec![Rotary {
///         letter: b'A',
///         carrier: Carrier::Table,
///         axis: [1.0, 0.0, 0.0],
///         pivot: [0.0; 3],
///         limits: None,
///         rest: 0.0,
///     }],
///     spindle: [0.0, 0.0, 1.0],
/// };
/// let poses = [
///     Pose { tip: [0.0, 0.0, 50.0], axis: [0.0, 0.0, 1.0] },
///     Pose { tip: [0.0, 30.0, 40.0], axis: [0.0, 0.6, 0.8] },
/// ];
/// let tolerances = Tolerances { chord: 0.01, axis: 1.0 };
///
/// let joints = solve_path(&chain, &poses, Start::AtZero, 1.0)?;
/// let path = subdivide_path(&chain, &poses, &joints, tolerances)?;
/// assert_eq!(path, solve_and_divide(&chain, &poses, Start::AtZero, 1.0, tolerances)?);
/// # Ok::<(), maztubel::Refusal>(())
/// ```
pub fn subdivide_path(
    chain: &Chain,
    poses: &[Pose],
    joints: &[Joints],
    tolerances: Tolerances,
) -> Result<Divided, Refusal> {
    divided(flat::subdivide_path, chain, poses, joints, tolerances)
}

/// The same by the strict test: two neighbours pass only if both tolerances hold at one quarter and at three quarters
/// of the way between them too. On a long arc the tip can be right at the middle and wrong at both quarters. What is
/// refused is refused as by [`subdivide_path`]; where this one serves, that one does too, and inserts part of what this
/// one inserts, in the same order.
///
/// ```
/// use maztubel::{Carrier, Chain, Joints, Pose, Rotary, Tolerances, subdivide_path, subdivide_strict};
///
/// let chain = Chain {
///     rotaries: vec![Rotary {
///         letter: b'C',
///         carrier: Carrier::Table,
///         axis: [0.0, 0.0, 1.0],
///         pivot: [0.0; 3],
///         limits: None,
///         rest: 0.0,
///     }],
///     spindle: [0.0, 0.0, 1.0],
/// };
/// // Two whole turns under a tip 20 mm beside the axis: at the middle it is back where it was, at the quarters opposite.
/// let poses = [Pose { tip: [20.0, 0.0, 0.0], axis: [0.0, 0.0, 1.0] }; 2];
/// let joints = [0.0, 720.0].map(|c| Joints { position: [20.0, 0.0, 0.0], angles: [c, 0.0] });
/// let tolerances = Tolerances { chord: 0.5, axis: 0.5 };
///
/// assert_eq!(subdivide_path(&chain, &poses, &joints, tolerances)?.inserted, 0);
/// assert!(subdivide_strict(&chain, &poses, &joints, tolerances)?.inserted > 0);
/// # Ok::<(), maztubel::Refusal>(())
/// ```
pub fn subdivide_strict(
    chain: &Chain,
    poses: &[Pose],
    joints: &[Joints],
    tolerances: Tolerances,
) -> Result<Divided, Refusal> {
    divided(flat::subdivide_strict, chain, poses, joints, tolerances)
}

/// A flat entry that divides given poses with their joints.
type Dividing = fn(&[u8], &[f64], &[f64], f64, f64, &mut [f64], &mut [f64]) -> Told;

fn divided(
    entry: Dividing,
    chain: &Chain,
    poses: &[Pose],
    joints: &[Joints],
    tolerances: Tolerances,
) -> Result<Divided, Refusal> {
    // With space for every insertion, so that 28 does not occur.
    let space = poses.len() + MOST_INSERTED;
    let mut out_poses = vec![Pose::default(); space];
    let mut out_joints = vec![Joints::default(); space];
    let out = (&mut out_poses[..], &mut out_joints[..]);
    let inserted = divided_into(entry, chain, poses, joints, tolerances, out)?;
    out_poses.truncate(poses.len() + inserted);
    out_joints.truncate(poses.len() + inserted);
    Ok(Divided {
        given: given_indices(joints, &out_joints),
        poses: out_poses,
        joints: out_joints,
        inserted,
    })
}

fn divided_into(
    entry: Dividing,
    chain: &Chain,
    poses: &[Pose],
    joints: &[Joints],
    tolerances: Tolerances,
    (out_poses, out_joints): (&mut [Pose], &mut [Joints]),
) -> Result<usize, Refusal> {
    let told = entry(
        &chain.bytes(),
        flat::numbers(poses),
        flat::numbers(joints),
        tolerances.chord,
        tolerances.axis,
        flat::numbers_mut(out_poses),
        flat::numbers_mut(out_joints),
    );
    told.served()?;
    Ok(told.count as usize)
}

/// As [`subdivide_path`], in two slices, with +0.0 behind the path; answers how many poses were inserted. The space is that of the
/// smaller slice. A refusal for space or for the number of insertions leaves both +0.0, every other one keeps both.
///
/// ```
/// use maztubel::{Carrier, Chain, Joints, Place, Pose, Rotary, Tolerances, subdivide_path_into};
///
/// let chain = Chain {
///     rotaries: vec![Rotary {
///         letter: b'C',
///         carrier: Carrier::Head,
///         axis: [0.0, 0.0, 1.0],
///         pivot: [0.0; 3],
///         limits: None,
///         rest: 0.0,
///     }],
///     spindle: [0.0, 0.0, 1.0],
/// };
/// let poses = [Pose { tip: [0.0; 3], axis: [0.0, 0.0, 1.0] }; 2];
/// let joints = [Joints::default(); 2];
/// let tolerances = Tolerances { chord: 0.5, axis: 0.5 };
/// let (mut out_poses, mut out_joints) = ([Pose::default(); 1], [Joints::default(); 5]);
/// let refusal = subdivide_path_into(&chain, &poses, &joints, tolerances, &mut out_poses, &mut out_joints).unwrap_err();
/// assert_eq!((refusal.number(), refusal.place), (28, Place::Inserted(0)));
/// ```
pub fn subdivide_path_into(
    chain: &Chain,
    poses: &[Pose],
    joints: &[Joints],
    tolerances: Tolerances,
    out_poses: &mut [Pose],
    out_joints: &mut [Joints],
) -> Result<usize, Refusal> {
    let out = (out_poses, out_joints);
    divided_into(flat::subdivide_path, chain, poses, joints, tolerances, out)
}

/// As [`subdivide_strict`], in two slices, with the space and the refusals of [`subdivide_path_into`].
///
/// ```
/// use maztubel::{Chain, Joints, Pose, Tolerances, subdivide_strict_into};
///
/// let chain = Chain { rotaries: vec![], spindle: [0.0; 3] };
/// let tolerances = Tolerances { chord: 0.5, axis: 0.0 };
/// let (mut poses, mut joints) = ([Pose::default(); 3], [Joints::default(); 3]);
/// let answer = subdivide_strict_into(&chain, &[], &[], tolerances, &mut poses, &mut joints);
/// assert_eq!(answer.unwrap_err().number(), 19);
/// ```
pub fn subdivide_strict_into(
    chain: &Chain,
    poses: &[Pose],
    joints: &[Joints],
    tolerances: Tolerances,
    out_poses: &mut [Pose],
    out_joints: &mut [Joints],
) -> Result<usize, Refusal> {
    let out = (out_poses, out_joints);
    divided_into(
        flat::subdivide_strict,
        chain,
        poses,
        joints,
        tolerances,
        out,
    )
}

/// The poses solved by [`solve_path`] and then divided by [`subdivide_path`]. It makes these two calls because the
/// solved joints tell which poses were given. [`solve_and_divide_into`] makes the library's one call for both, which
/// is proved to give the same path, bit for bit, and the same refusals.
///
/// ```
/// use maztubel::{Carrier, Chain, Pose, Rotary, Start, Tolerances, solve_and_divide};
///
/// let chain = Chain {
///     rotaries: vec![Rotary {
///         letter: b'A',
///         carrier: Carrier::Table,
///         axis: [1.0, 0.0, 0.0],
///         pivot: [0.0; 3],
///         limits: None,
///         rest: 0.0,
///     }],
///     spindle: [0.0, 0.0, 1.0],
/// };
/// let poses = [
///     Pose { tip: [0.0, 0.0, 50.0], axis: [0.0, 0.0, 1.0] },
///     Pose { tip: [0.0, 30.0, 40.0], axis: [0.0, 0.6, 0.8] },
/// ];
/// let path = solve_and_divide(&chain, &poses, Start::AtZero, 1.0, Tolerances { chord: 0.01, axis: 1.0 })?;
/// assert_eq!(path.poses.len(), 2 + path.inserted);
/// assert!(path.inserted > 0);
/// # Ok::<(), maztubel::Refusal>(())
/// ```
pub fn solve_and_divide(
    chain: &Chain,
    poses: &[Pose],
    start: Start,
    cone: f64,
    tolerances: Tolerances,
) -> Result<Divided, Refusal> {
    let joints = solve_path(chain, poses, start, cone)?;
    subdivide_path(chain, poses, &joints, tolerances)
}

/// As [`solve_and_divide`], in two slices, with +0.0 behind the path; answers how many poses were inserted. What
/// [`solve_path_into`] refuses and keeps its slice with keeps both, every other refusal leaves both +0.0.
///
/// ```
/// use maztubel::{Chain, Joints, Pose, Start, Tolerances, solve_and_divide_into};
///
/// let chain = Chain { rotaries: vec![], spindle: [0.0; 3] };
/// let tolerances = Tolerances { chord: 0.5, axis: 0.5 };
/// let (mut poses, mut joints) = ([Pose::default(); 3], [Joints::default(); 3]);
/// let answer = solve_and_divide_into(&chain, &[], Start::AtZero, 1.0, tolerances, &mut poses, &mut joints);
/// assert_eq!(answer.unwrap_err().number(), 3);
/// ```
pub fn solve_and_divide_into(
    chain: &Chain,
    poses: &[Pose],
    start: Start,
    cone: f64,
    tolerances: Tolerances,
    out_poses: &mut [Pose],
    out_joints: &mut [Joints],
) -> Result<usize, Refusal> {
    let chain = chain.bytes();
    let told = told_of_poses(out_joints, |out_joints| {
        flat::solve_and_divide(
            &chain,
            flat::numbers(poses),
            start.numbers(),
            cone,
            tolerances.chord,
            tolerances.axis,
            flat::numbers_mut(out_poses),
            flat::numbers_mut(out_joints),
        )
    })?;
    Ok(told.count as usize)
}

/// 16 and 17 come before the first pose, where they keep the joints, and at a pose, where they clear them: a mark on the first
/// tells which. It is taken off again where it was kept.
fn told_of_poses(
    joints: &mut [Joints],
    ask: impl FnOnce(&mut [Joints]) -> Told,
) -> Result<Told, Refusal> {
    const MARK: f64 = -1.0;
    let before = joints.first().map(|first| first.position[0]);
    if let Some(first) = joints.first_mut() {
        first.position[0] = MARK;
    }
    let told = ask(joints);
    let kept = told.number != 0 && joints.first().is_none_or(|first| first.position[0] == MARK);
    if let (true, Some(first), Some(before)) = (kept, joints.first_mut(), before) {
        first.position[0] = before;
    }
    match told.number {
        0 => Ok(told),
        _ => Err(Refusal::told(told, !kept)),
    }
}
