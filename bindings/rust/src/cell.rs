//! Up to 16 paths that are divided side by side, in turns.

use crate::chain::Chain;
use crate::flat;
use crate::path::Tolerances;
use crate::pose::{Joints, Pose};
use crate::refusal::Refusal;
use std::fmt;

/// A dispatcher has at most so many paths at a time; they are numbered from 0.
pub const MOST_PATHS: usize = 16;

/// How many words and numbers the state has.
const WORDS: usize = 145;
const NUMBERS: usize = 368;

/// A dispatcher of up to [`MOST_PATHS`] paths, each in outputs of its own. A turn serves the path that has waited
/// longest with 64 tests of two neighbours and the poses that they insert. So a path that has not ended is served again
/// within 16 turns, and a path whose outputs come to each turn as [`Cell::admit`] or its last turn left them ends as
/// [`subdivide_path`](crate::subdivide_path) divides it alone, bit for bit, whatever the other paths do.
///
/// The state is the cell's own, from [`Cell::default`] on, and only its calls change it. The outputs stay the caller's.
///
/// ```
/// use maztubel::{Carrier, Cell, Chain, Joints, Pose, Rotary, Standing, Tolerances, subdivide_path};
///
/// let chain = Chain {
///     rotaries: vec![Rotary {
///         letter: b'A',
///         carrier: Carrier::Table,
///         axis: [1.0, 0.0, 0.0],
///         pivot: [0.0; 3],
///         limits: None,
///         rest: 0.0,
///     }],
///     spindle: [0.0, 0.0, 1.0],
/// };
/// let joints = [0.0, 30.0].map(|a| Joints { position: [0.0, 0.0, 50.0], angles: [a, 0.0] });
/// let poses = joints.map(|joints| maztubel::forward(&chain, &joints, 0.0).unwrap());
/// let tolerances = [0.5, 0.001].map(|chord| Tolerances { chord, axis: 1.0 });
///
/// let mut cell = Cell::default();
/// let mut outputs = vec![(vec![Pose::default(); 200], vec![Joints::default(); 200]); 2];
/// for (path, (out_poses, out_joints)) in outputs.iter_mut().enumerate() {
///     let number = cell.admit(&chain, &poses, &joints, tolerances[path], out_poses, out_joints)?;
///     assert_eq!(number, path);
/// }
/// while let Some(path) = cell.next() {
///     let (out_poses, out_joints) = &mut outputs[path];
///     let turned = cell.turn(out_poses, out_joints)?.unwrap();
///     if turned.standing == Standing::Divided {
///         let alone = subdivide_path(&chain, &poses, &joints, tolerances[path])?;
///         assert_eq!(turned.inserted as usize, alone.inserted);
///         assert_eq!(out_poses[..alone.poses.len()], alone.poses);
///     }
/// }
/// assert_eq!(cell.count(0).unwrap_err().number(), 33);
/// # Ok::<(), maztubel::Refusal>(())
/// ```
pub struct Cell {
    words: [u64; WORDS],
    numbers: [f64; NUMBERS],
}

/// What a turn has come to.
#[derive(Clone, Copy, Debug, PartialEq, Eq)]
pub struct Turned {
    /// The number of the path that was served.
    pub path: usize,
    /// How many poses are inserted in it so far.
    pub inserted: u64,
    /// What has become of it.
    pub standing: Standing,
}

/// What has become of a path in its turn.
#[derive(Clone, Copy, Debug, PartialEq, Eq)]
pub enum Standing {
    /// It waits for its next turn.
    Waits,
    /// It has ended and left: its outputs hold the divided path, with +0.0 behind it.
    Divided,
    /// It has ended with 27 or 28 and left: its outputs are +0.0.
    Refused(Refusal),
}

/// Without a path.
impl Default for Cell {
    fn default() -> Cell {
        Cell {
            words: [0; WORDS],
            numbers: [0.0; NUMBERS],
        }
    }
}

/// The numbers of the paths, in the order in which they are served, and how many poses are inserted in each.
impl fmt::Debug for Cell {
    fn fmt(&self, f: &mut fmt::Formatter) -> fmt::Result {
        let counts = (0..MOST_PATHS).filter_map(|path| Some((path, self.count(path).ok()?)));
        f.debug_struct("Cell")
            .field("next", &self.next())
            .field("inserted", &counts.collect::<Vec<_>>())
            .finish()
    }
}

impl Cell {
    /// Admits a path with its outputs, under the smallest number that no admitted path has. The outputs may have any
    /// space; the turns must be lent as much. Refused are a 17th path (32), whatever else is at fault, then what
    /// [`subdivide_path_into`](crate::subdivide_path_into) refuses before it tests two neighbours: less space than
    /// given poses (28) leaves both outputs +0.0, every other refusal keeps them, and none changes the cell.
    ///
    /// ```
    /// use maztubel::{Cell, Chain, Tolerances};
    ///
    /// let mut cell = Cell::default();
    /// let chain = Chain { rotaries: vec![], spindle: [0.0; 3] };
    /// let tolerances = Tolerances { chord: 0.5, axis: 0.5 };
    /// assert_eq!(cell.admit(&chain, &[], &[], tolerances, &mut [], &mut []).unwrap_err().number(), 3);
    /// assert_eq!(cell.next(), None);
    /// ```
    pub fn admit(
        &mut self,
        chain: &Chain,
        poses: &[Pose],
        joints: &[Joints],
        tolerances: Tolerances,
        out_poses: &mut [Pose],
        out_joints: &mut [Joints],
    ) -> Result<usize, Refusal> {
        let mut path = 0;
        let told = flat::admit(
            &mut self.words,
            &mut self.numbers,
            &chain.bytes(),
            flat::numbers(poses),
            flat::numbers(joints),
            tolerances.chord,
            tolerances.axis,
            flat::numbers_mut(out_poses),
            flat::numbers_mut(out_joints),
            &mut path,
        );
        told.served()?;
        Ok(path as usize)
    }

    /// The number of the path that is served next; none where no path is admitted.
    ///
    /// ```
    /// assert_eq!(maztubel::Cell::default().next(), None);
    /// ```
    pub fn next(&self) -> Option<usize> {
        let mut path = MOST_PATHS as u64;
        let told = flat::next(&self.words, &mut path);
        (told.number == 0 && path < MOST_PATHS as u64).then_some(path as usize)
    }

    /// Serves the path that [`Cell::next`] names, in its outputs. None, with nothing changed, where no path is
    /// admitted. Refused are outputs of other lengths than admitted (20), which changes nothing. A path that comes to
    /// 27 or 28 ends so, and the turn counts as one that was served.
    ///
    /// ```
    /// use maztubel::{Cell, Joints, Pose};
    ///
    /// let mut cell = Cell::default();
    /// assert_eq!(cell.turn(&mut [Pose::default(); 3], &mut [Joints::default(); 3]), Ok(None));
    /// ```
    pub fn turn(
        &mut self,
        out_poses: &mut [Pose],
        out_joints: &mut [Joints],
    ) -> Result<Option<Turned>, Refusal> {
        let (mut path, mut ended) = (MOST_PATHS as u64, 0);
        let told = flat::turn(
            &mut self.words,
            &mut self.numbers,
            flat::numbers_mut(out_poses),
            flat::numbers_mut(out_joints),
            &mut path,
            &mut ended,
        );
        let standing = match (ended, told.number) {
            (0, 0) => Standing::Waits,
            (_, 0) => Standing::Divided,
            (0, _) => return Err(Refusal::told(told, false)),
            _ => Standing::Refused(Refusal::told(told, false)),
        };
        let turned = Turned {
            path: path as usize,
            inserted: told.count,
            standing,
        };
        Ok((turned.path < MOST_PATHS).then_some(turned))
    }

    /// How many poses are inserted so far in the path of that number. 33 where no admitted path has it.
    ///
    /// ```
    /// assert_eq!(maztubel::Cell::default().count(7).unwrap_err().number(), 33);
    /// ```
    pub fn count(&self, path: usize) -> Result<u64, Refusal> {
        let told = flat::count(&self.words, path as u64);
        told.served()?;
        Ok(told.count)
    }
}
