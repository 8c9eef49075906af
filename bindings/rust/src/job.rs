//! Jobs from their bytes and to them, and the cable number of a path.

use crate::chain::Chain;
use crate::flat::{self, JobParts};
use crate::path::Tolerances;
use crate::pose::{Joints, Pose};
use crate::refusal::Refusal;

/// What the bytes of a job say (docs/FORMAT.md). The calls judge it: a chain or a number that none serves is read, but
/// not written.
#[derive(Clone, Debug, PartialEq)]
pub struct Job {
    /// The chain.
    pub chain: Chain,
    /// The poses, at most 1,362. A nan is read as a nan, whose bits are not kept.
    pub poses: Vec<Pose>,
    /// The cone about the singular direction, in degrees.
    pub cone: f64,
    /// The tolerances of division.
    pub tolerances: Tolerances,
}

impl Job {
    /// A job has at most so many bytes.
    pub const MOST_BYTES: usize = 65_536;

    /// The job that has these bytes. Refused are malformed bytes, with the offset of the first bad field, a count of rotaries other
    /// than 1 and 2, and a letter other than A, B and C, with the rotary.
    ///
    /// ```
    /// use maztubel::{Job, Start, solve_and_divide};
    ///
    /// let mut bytes = std::fs::read("../../examples/jobs/example.job").unwrap();
    /// let job = Job::read(&bytes)?;
    /// assert_eq!(job.poses[1].tip, [3.0, 2.0, 3.0]);
    /// let path = solve_and_divide(&job.chain, &job.poses, Start::AtZero, job.cone, job.tolerances)?;
    /// assert_eq!(path.inserted, 0);
    ///
    /// bytes[7] = 1;
    /// assert_eq!(
    ///     Job::read(&bytes).unwrap_err().to_string(),
    ///     "refused 29: the bytes of a chain, a job or a model must have the form of docs/FORMAT.md: offset 7"
    /// );
    /// # Ok::<(), maztubel::Refusal>(())
    /// ```
    pub fn read(bytes: &[u8]) -> Result<Job, Refusal> {
        let parts = parts(bytes)?;
        let mut poses = vec![Pose::default(); parts.count as usize];
        flat::job_poses(bytes, flat::numbers_mut(&mut poses)).served()?;
        Ok(Job {
            chain: Chain::from_bytes(
                &bytes[parts.chain_at as usize..][..parts.chain_length as usize],
            )?,
            poses,
            cone: parts.cone,
            tolerances: Tolerances {
                chord: parts.chord,
                axis: parts.axis,
            },
        })
    }

    /// The bytes of the job: chain, poses and trailer with nothing between them. [`Job::read`] of them gives the job
    /// again, bit for bit, and a file that was written so is written again to the same bytes. Refused are, in this
    /// order, a chain that cannot be served, the cone, a tolerance, a number of a pose that is not finite, and a size:
    /// of a pivot, of a rest angle, of a tip, or a job of more than [`Job::MOST_BYTES`].
    ///
    /// ```
    /// use maztubel::Job;
    ///
    /// let file = std::fs::read("../../examples/jobs/example.job").unwrap();
    /// let mut job = Job::read(&file)?;
    /// assert_eq!(job.to_bytes()?, file);
    ///
    /// job.cone = 11.0;
    /// assert_eq!(job.to_bytes().unwrap_err().number(), 18);
    /// # Ok::<(), maztubel::Refusal>(())
    /// ```
    pub fn to_bytes(&self) -> Result<Vec<u8>, Refusal> {
        let needed = self.chain.bytes().len() + size_of_val(&self.poses[..]) + TRAILER;
        let mut bytes = vec![0; needed.min(Job::MOST_BYTES)];
        let length = self.write_into(&mut bytes)?;
        bytes.truncate(length);
        Ok(bytes)
    }

    /// The same at the front of a slice, which is 28 where it is too short; answers how many bytes the job has. Those
    /// behind it stay, and a refusal keeps all.
    ///
    /// ```
    /// use maztubel::Job;
    ///
    /// let file = std::fs::read("../../examples/jobs/example.job").unwrap();
    /// let job = Job::read(&file)?;
    /// let mut bytes = [9; 300];
    /// assert_eq!(job.write_into(&mut bytes[..file.len() - 1]).unwrap_err().number(), 28);
    /// assert_eq!(bytes, [9; 300]);
    /// assert_eq!(job.write_into(&mut bytes)?, file.len());
    /// assert_eq!((&bytes[..file.len()], bytes[file.len()]), (&file[..], 9));
    /// # Ok::<(), maztubel::Refusal>(())
    /// ```
    pub fn write_into(&self, bytes: &mut [u8]) -> Result<usize, Refusal> {
        let Tolerances { chord, axis } = self.tolerances;
        let poses = flat::numbers(&self.poses);
        let told = flat::write_job(&self.chain.bytes(), poses, self.cone, chord, axis, bytes);
        told.served()?;
        Ok(told.count as usize)
    }
}

/// The bytes of a trailer.
const TRAILER: usize = 40;

/// The poses of [`Job::read`] alone, in a slice of at least as many, with +0.0 behind them; answers how many there are. A refusal
/// keeps the slice.
///
/// ```
/// use maztubel::{Pose, job_poses_into};
///
/// let bytes = std::fs::read("../../examples/jobs/example.job").unwrap();
/// let mut poses = [Pose::default(); 3];
/// assert_eq!(job_poses_into(&bytes, &mut poses)?, 2);
/// assert_eq!(poses[0].tip, [1.0, 2.0, 3.0]);
/// assert_eq!(job_poses_into(&bytes, &mut poses[..1]).unwrap_err().number(), 28);
/// # Ok::<(), maztubel::Refusal>(())
/// ```
pub fn job_poses_into(bytes: &[u8], poses: &mut [Pose]) -> Result<usize, Refusal> {
    let parts = parts(bytes)?;
    flat::job_poses(bytes, flat::numbers_mut(poses)).served()?;
    Ok(parts.count as usize)
}

fn parts(bytes: &[u8]) -> Result<JobParts, Refusal> {
    let mut parts = JobParts::default();
    flat::read_job(bytes, &mut parts).served()?;
    Ok(parts)
}

/// The cable number of the rotary with this index on a path: the largest whole k with 360 times k at most the size of the difference,
/// rounded once, of some of its angles and its rest angle; 0 on an empty path and for a rotary that the chain lacks.
///
/// ```
/// use maztubel::{Carrier, Chain, Joints, Rotary, cable_number};
///
/// let mut chain = Chain {
///     rotaries: vec![Rotary {
///         letter: b'C',
///         carrier: Carrier::Head,
///         axis: [0.0, 0.0, 1.0],
///         pivot: [0.0; 3],
///         limits: None,
///         rest: 0.0,
///     }],
///     spindle: [0.0, 0.0, 1.0],
/// };
/// let mut path = [90.0, -720.0].map(|angle| Joints { position: [0.0; 3], angles: [angle, 360.0] });
/// assert_eq!(cable_number(&chain, &path, 0), Ok(2));
/// assert_eq!(cable_number(&chain, &path, 1), Ok(0));
/// chain.rotaries[0].rest = 360.0;
/// assert_eq!(cable_number(&chain, &path, 0), Ok(3));
///
/// path[1].angles[0] = f64::NAN;
/// assert_eq!(cable_number(&chain, &path, 0).unwrap_err().number(), 16);
/// ```
pub fn cable_number(chain: &Chain, joints: &[Joints], rotary: usize) -> Result<u64, Refusal> {
    let mut number = 0;
    flat::cable_number(
        &chain.bytes(),
        flat::numbers(joints),
        rotary as u64,
        &mut number,
    )
    .served()?;
    Ok(number)
}
