//! Every entry of the static library over plain numbers and bytes, safe, as include/maztubel.h has it: a slice for each pointer
//! with its length, the lent numbers in the answer. Slices of any length may be lent: broken records are 20.
//!
//! The one module with unsafe code, beside the declarations that it calls.

use crate::model::Frame;
use crate::pose::{Joints, Pose};
use crate::raw::*;
use crate::refusal::Refusal;
use std::slice;

/// What a call answers.
#[derive(Clone, Copy, Debug, Default, PartialEq, Eq)]
#[must_use]
pub struct Told {
    /// 0, or the number of a refusal.
    pub number: u32,
    /// The rotary, the link, the pose or the offset that goes with the number, else 0.
    pub at: u64,
    /// With 24 the rotary's letter, else 0.
    pub letter: u8,
    /// How many joint sets `inverse` has, how many poses were inserted, by `turn` and `count` so far, or how many bytes
    /// `write_job` wrote; of the other calls 0.
    pub count: u64,
}

impl Told {
    /// An error where the number is not 0. Whether 16 and 17 are a pose's cannot be told from the number, and is not.
    ///
    /// ```
    /// let mut answer = 0.0;
    /// assert!(maztubel::flat::sine(0.5, &mut answer).served().is_ok());
    /// ```
    pub fn served(self) -> Result<(), Refusal> {
        match self.number {
            0 => Ok(()),
            _ => Err(Refusal::told(self, false)),
        }
    }
}

/// `choose`'s choice by the hint.
pub const NEAREST: u32 = 0;
/// `choose`'s choice of the first that is not negative.
pub const FIRST_POSITIVE: u32 = 1;
/// `choose`'s choice of the first that is not positive.
pub const FIRST_NEGATIVE: u32 = 2;

/// What the trailer of a job says.
#[derive(Clone, Copy, Debug, Default, PartialEq)]
pub struct JobParts {
    /// The offset of the chain.
    pub chain_at: u64,
    /// How many bytes the chain has, by its rotaries and by whether they have rest angles.
    pub chain_length: u64,
    /// The offset of the poses.
    pub poses_at: u64,
    /// How many poses there are.
    pub count: u64,
    /// The cone in degrees.
    pub cone: f64,
    /// The chord tolerance in mm.
    pub chord: f64,
    /// The axis tolerance in degrees.
    pub axis: f64,
}

/// `link_world` or `link_in_part`.
pub type FrameOf = fn(&[u8], &[u8], &[u8], &[f64], &[u8], &mut [f64]) -> Told;

/// A struct of f64 alone, in the order of the library's record.
///
/// # Safety
/// It is `repr(C)`, and every field is an f64 or an array of them.
pub(crate) unsafe trait Record {}

// SAFETY: each is declared so, beside its fields.
unsafe impl Record for Pose {}
unsafe impl Record for Joints {}
unsafe impl Record for Frame {}

pub(crate) fn numbers<R: Record>(records: &[R]) -> &[f64] {
    // SAFETY: here and below, the records are nothing but f64 without padding, as many as fill their size, and every bit pattern is
    // one; the borrow goes over.
    unsafe { slice::from_raw_parts(records.as_ptr().cast(), length::<R>(records)) }
}

pub(crate) fn numbers_mut<R: Record>(records: &mut [R]) -> &mut [f64] {
    let length = length::<R>(records);
    unsafe { slice::from_raw_parts_mut(records.as_mut_ptr().cast(), length) }
}

fn length<R>(records: &[R]) -> usize {
    size_of_val(records) / size_of::<f64>()
}

/// The sine of x radians: 17 for x outside -800 to 800.
///
/// ```
/// use maztubel::flat;
/// let mut answer = 9.0;
/// assert_eq!(flat::sine(0.0, &mut answer).number, 0);
/// assert_eq!(answer, 0.0);
/// ```
pub fn sine(x: f64, answer: &mut f64) -> Told {
    // SAFETY: here and below each pointer goes with its own length, and no two of what is lent overlap.
    let number = maztubel_sine(x, answer);
    Told {
        number,
        ..Told::default()
    }
}

/// The cosine of x radians: 17 for x outside -800 to 800.
///
/// ```
/// use maztubel::flat;
/// let mut answer = 9.0;
/// assert_eq!(flat::cosine(f64::NAN, &mut answer).number, 17);
/// assert_eq!(answer, 9.0);
/// ```
pub fn cosine(x: f64, answer: &mut f64) -> Told {
    let number = maztubel_cosine(x, answer);
    Told {
        number,
        ..Told::default()
    }
}

/// The angle of the point (x, y): 17 where one is not finite.
///
/// ```
/// use maztubel::flat;
/// let mut answer = 9.0;
/// assert_eq!(flat::arctangent(0.0, 1.0, &mut answer).number, 0);
/// assert_eq!(answer, 0.0);
/// ```
pub fn arctangent(y: f64, x: f64, answer: &mut f64) -> Told {
    let number = maztubel_arctangent(y, x, answer);
    Told {
        number,
        ..Told::default()
    }
}

/// The angle from 0 to pi whose cosine is c: 17 for c outside -1 to 1.
///
/// ```
/// use maztubel::flat;
/// let mut answer = 9.0;
/// assert_eq!(flat::arccosine(2.0, &mut answer).number, 17);
/// ```
pub fn arccosine(c: f64, answer: &mut f64) -> Told {
    let number = maztubel_arccosine(c, answer);
    Told {
        number,
        ..Told::default()
    }
}

/// The sine of each: 20 where the lengths differ, 17. A refusal keeps the answers.
///
/// ```
/// use maztubel::flat;
/// assert_eq!(flat::sines(&[0.0; 3], &mut [9.0; 2]).number, 20);
/// ```
pub fn sines(xs: &[f64], answers: &mut [f64]) -> Told {
    let number =
        unsafe { maztubel_sines(xs.as_ptr(), xs.len(), answers.as_mut_ptr(), answers.len()) };
    Told {
        number,
        ..Told::default()
    }
}

/// The cosine of each: 20 where the lengths differ, 17. A refusal keeps the answers.
///
/// ```
/// use maztubel::flat;
/// assert_eq!(flat::cosines(&[], &mut []).number, 0);
/// ```
pub fn cosines(xs: &[f64], answers: &mut [f64]) -> Told {
    let number =
        unsafe { maztubel_cosines(xs.as_ptr(), xs.len(), answers.as_mut_ptr(), answers.len()) };
    Told {
        number,
        ..Told::default()
    }
}

/// The angle of each point: 20 where the lengths differ, 17. A refusal keeps the answers.
///
/// ```
/// use maztubel::flat;
/// assert_eq!(flat::arctangents(&[0.0], &[0.0, 0.0], &mut [9.0]).number, 20);
/// ```
pub fn arctangents(ys: &[f64], xs: &[f64], answers: &mut [f64]) -> Told {
    let number = unsafe {
        maztubel_arctangents(
            ys.as_ptr(),
            ys.len(),
            xs.as_ptr(),
            xs.len(),
            answers.as_mut_ptr(),
            answers.len(),
        )
    };
    Told {
        number,
        ..Told::default()
    }
}

/// The angle of each cosine: 20 where the lengths differ, 17. A refusal keeps the answers.
///
/// ```
/// use maztubel::flat;
/// assert_eq!(flat::arccosines(&[2.0], &mut [9.0]).number, 17);
/// ```
pub fn arccosines(cs: &[f64], answers: &mut [f64]) -> Told {
    let number =
        unsafe { maztubel_arccosines(cs.as_ptr(), cs.len(), answers.as_mut_ptr(), answers.len()) };
    Told {
        number,
        ..Told::default()
    }
}

/// Whether the chain can be served.
///
/// ```
/// use maztubel::flat;
/// assert_eq!(flat::check_chain(&[]).number, 29);
/// assert_eq!(flat::check_chain(&[3]).number, 3);
/// ```
pub fn check_chain(chain: &[u8]) -> Told {
    let mut told = Told::default();
    told.number = unsafe {
        maztubel_check_chain(chain.as_ptr(), chain.len(), &mut told.at, &mut told.letter)
    };
    told
}

/// The pose, 6 numbers, at joints, 5 numbers. A refusal keeps it.
///
/// ```
/// use maztubel::flat;
/// assert_eq!(flat::forward(&[], &[0.0; 4], 0.0, &mut [9.0; 6]).number, 20);
/// ```
pub fn forward(chain: &[u8], joints: &[f64], tool_length: f64, pose: &mut [f64]) -> Told {
    let mut told = Told::default();
    told.number = unsafe {
        maztubel_forward(
            chain.as_ptr(),
            chain.len(),
            joints.as_ptr(),
            joints.len(),
            tool_length,
            pose.as_mut_ptr(),
            pose.len(),
            &mut told.at,
            &mut told.letter,
        )
    };
    told
}

/// Every joint set that reaches a pose, 250 numbers for 50 sets of 5, and their count. 21 and 22 leave +0.0, every other refusal
/// keeps the list.
///
/// ```
/// use maztubel::flat;
/// assert_eq!(flat::inverse(&[], &[0.0; 6], 0.0, &[0.0; 2], &mut [9.0; 250]).number, 29);
/// ```
pub fn inverse(
    chain: &[u8],
    pose: &[f64],
    tool_length: f64,
    hint: &[f64],
    list: &mut [f64],
) -> Told {
    let mut told = Told::default();
    told.number = unsafe {
        maztubel_inverse(
            chain.as_ptr(),
            chain.len(),
            pose.as_ptr(),
            pose.len(),
            tool_length,
            hint.as_ptr(),
            hint.len(),
            list.as_mut_ptr(),
            list.len(),
            &mut told.count,
            &mut told.at,
            &mut told.letter,
        )
    };
    told
}

/// One of them, 5 numbers, by [`NEAREST`], [`FIRST_POSITIVE`] or [`FIRST_NEGATIVE`]. 21 and 22 leave +0.0, every other refusal
/// keeps the joints.
///
/// ```
/// use maztubel::flat;
/// assert_eq!(flat::choose(&[], &[0.0; 6], 0.0, 3, &[0.0; 2], &mut [9.0; 5]).number, 20);
/// ```
pub fn choose(
    chain: &[u8],
    pose: &[f64],
    tool_length: f64,
    choice: u32,
    hint: &[f64],
    joints: &mut [f64],
) -> Told {
    let mut told = Told::default();
    told.number = unsafe {
        maztubel_choose(
            chain.as_ptr(),
            chain.len(),
            pose.as_ptr(),
            pose.len(),
            tool_length,
            choice,
            hint.as_ptr(),
            hint.len(),
            joints.as_mut_ptr(),
            joints.len(),
            &mut told.at,
            &mut told.letter,
        )
    };
    told
}

/// What [`choose`] gives, on the nearest teeth of a Hirth table: 19 for the tolerance before all else, then `choose`'s refusals,
/// then 31. 21 and 22 leave +0.0, every other refusal keeps the joints.
///
/// ```
/// use maztubel::flat;
/// assert_eq!(flat::choose_tooth(&[], &[], 0.0, 3, &[], 0.0, &mut []).number, 19);
/// assert_eq!(flat::choose_tooth(&[], &[0.0; 6], 0.0, 3, &[0.0; 2], 1.0, &mut [9.0; 5]).number, 20);
/// ```
pub fn choose_tooth(
    chain: &[u8],
    pose: &[f64],
    tool_length: f64,
    choice: u32,
    hint: &[f64],
    tolerance: f64,
    joints: &mut [f64],
) -> Told {
    let mut told = Told::default();
    told.number = unsafe {
        maztubel_choose_tooth(
            chain.as_ptr(),
            chain.len(),
            pose.as_ptr(),
            pose.len(),
            tool_length,
            choice,
            hint.as_ptr(),
            hint.len(),
            tolerance,
            joints.as_mut_ptr(),
            joints.len(),
            &mut told.at,
            &mut told.letter,
        )
    };
    told
}

/// Whether a chain with its name and its model can be served.
///
/// ```
/// use maztubel::flat;
/// assert_eq!(flat::check_model(b"mill", &[0], &[]).number, 3);
/// ```
pub fn check_model(name: &[u8], chain: &[u8], model: &[u8]) -> Told {
    let mut told = Told::default();
    told.number = unsafe {
        maztubel_check_model(
            name.as_ptr(),
            name.len(),
            chain.as_ptr(),
            chain.len(),
            model.as_ptr(),
            model.len(),
            &mut told.at,
            &mut told.letter,
        )
    };
    told
}

/// The frame, 12 numbers, of what a carrier names, in the machine. A refusal keeps it.
///
/// ```
/// use maztubel::flat;
/// assert_eq!(flat::link_world(b"mill", &[0], &[], &[0.0; 5], b"base", &mut [9.0; 12]).number, 3);
/// ```
pub fn link_world(
    name: &[u8],
    chain: &[u8],
    model: &[u8],
    joints: &[f64],
    carrier: &[u8],
    frame: &mut [f64],
) -> Told {
    let mut told = Told::default();
    told.number = unsafe {
        maztubel_link_world(
            name.as_ptr(),
            name.len(),
            chain.as_ptr(),
            chain.len(),
            model.as_ptr(),
            model.len(),
            joints.as_ptr(),
            joints.len(),
            carrier.as_ptr(),
            carrier.len(),
            frame.as_mut_ptr(),
            frame.len(),
            &mut told.at,
            &mut told.letter,
        )
    };
    told
}

/// The frame, 12 numbers, of what a carrier names, seen from the part. A refusal keeps it.
///
/// ```
/// use maztubel::flat;
/// assert_eq!(flat::link_in_part(b"mill", &[0], &[], &[0.0; 5], b"base", &mut [9.0; 11]).number, 20);
/// ```
pub fn link_in_part(
    name: &[u8],
    chain: &[u8],
    model: &[u8],
    joints: &[f64],
    carrier: &[u8],
    frame: &mut [f64],
) -> Told {
    let mut told = Told::default();
    told.number = unsafe {
        maztubel_link_in_part(
            name.as_ptr(),
            name.len(),
            chain.as_ptr(),
            chain.len(),
            model.as_ptr(),
            model.len(),
            joints.as_ptr(),
            joints.len(),
            carrier.as_ptr(),
            carrier.len(),
            frame.as_mut_ptr(),
            frame.len(),
            &mut told.at,
            &mut told.letter,
        )
    };
    told
}

/// The joints of every pose; the start is 5 numbers or none. A refusal at a pose leaves +0.0, every other one keeps the joints.
///
/// ```
/// use maztubel::flat;
/// assert_eq!(flat::solve_path(&[0], &[0.0; 6], &[], 1.0, &mut [9.0; 7]).number, 20);
/// ```
pub fn solve_path(
    chain: &[u8],
    poses: &[f64],
    start: &[f64],
    cone: f64,
    joints: &mut [f64],
) -> Told {
    let mut told = Told::default();
    told.number = unsafe {
        maztubel_solve_path(
            chain.as_ptr(),
            chain.len(),
            poses.as_ptr(),
            poses.len(),
            start.as_ptr(),
            start.len(),
            cone,
            joints.as_mut_ptr(),
            joints.len(),
            &mut told.at,
            &mut told.letter,
        )
    };
    told
}

/// Given poses with their joints, divided, and how many were inserted. 27 and 28 leave both outputs +0.0, every other refusal keeps
/// them.
///
/// ```
/// use maztubel::flat;
/// assert_eq!(flat::subdivide_path(&[0], &[], &[], 1.0, 0.0, &mut [], &mut []).number, 19);
/// ```
pub fn subdivide_path(
    chain: &[u8],
    poses: &[f64],
    joints: &[f64],
    chord: f64,
    axis: f64,
    out_poses: &mut [f64],
    out_joints: &mut [f64],
) -> Told {
    let entry = maztubel_subdivide_path;
    divided(
        entry,
        chain,
        poses,
        joints,
        [chord, axis],
        out_poses,
        out_joints,
    )
}

/// The same by the strict test, which holds both tolerances to one quarter and three quarters of the way too.
///
/// ```
/// use maztubel::flat;
/// assert_eq!(flat::subdivide_strict(&[0], &[], &[], 1.0, 0.0, &mut [], &mut []).number, 19);
/// ```
pub fn subdivide_strict(
    chain: &[u8],
    poses: &[f64],
    joints: &[f64],
    chord: f64,
    axis: f64,
    out_poses: &mut [f64],
    out_joints: &mut [f64],
) -> Told {
    let entry = maztubel_subdivide_strict;
    divided(
        entry,
        chain,
        poses,
        joints,
        [chord, axis],
        out_poses,
        out_joints,
    )
}

fn divided(
    entry: Dividing,
    chain: &[u8],
    poses: &[f64],
    joints: &[f64],
    [chord, axis]: [f64; 2],
    out_poses: &mut [f64],
    out_joints: &mut [f64],
) -> Told {
    let mut told = Told::default();
    told.number = unsafe {
        entry(
            chain.as_ptr(),
            chain.len(),
            poses.as_ptr(),
            poses.len(),
            joints.as_ptr(),
            joints.len(),
            chord,
            axis,
            out_poses.as_mut_ptr(),
            out_poses.len(),
            out_joints.as_mut_ptr(),
            out_joints.len(),
            &mut told.count,
            &mut told.at,
            &mut told.letter,
        )
    };
    told
}

/// A path solved and then divided, and how many poses were inserted. What `solve_path` refuses and keeps its joints with keeps both
/// outputs, every other refusal leaves them +0.0.
///
/// ```
/// use maztubel::flat;
/// assert_eq!(flat::solve_and_divide(&[0], &[], &[0.0], 1.0, 1.0, 1.0, &mut [], &mut []).number, 20);
/// ```
pub fn solve_and_divide(
    chain: &[u8],
    poses: &[f64],
    start: &[f64],
    cone: f64,
    chord: f64,
    axis: f64,
    out_poses: &mut [f64],
    out_joints: &mut [f64],
) -> Told {
    let mut told = Told::default();
    told.number = unsafe {
        maztubel_solve_and_divide(
            chain.as_ptr(),
            chain.len(),
            poses.as_ptr(),
            poses.len(),
            start.as_ptr(),
            start.len(),
            cone,
            chord,
            axis,
            out_poses.as_mut_ptr(),
            out_poses.len(),
            out_joints.as_mut_ptr(),
            out_joints.len(),
            &mut told.count,
            &mut told.at,
            &mut told.letter,
        )
    };
    told
}

/// The figures of the division of given poses with their joints, with no path written: how many poses are inserted, which also is
/// the count that is told, how many there are then, and how many forward evaluations its tests and insertions count. With a refusal
/// the figures are 0, but for the count so far at 27. Scratch for 10,000 joint sets of 5 numbers and as many tips of 3 is lent: less
/// is 28. The checks' refusals keep it, every other answer leaves +0.0 in all of it.
///
/// ```
/// use maztubel::flat;
/// let (mut poses, mut evaluations) = (9, 9);
/// let told = flat::quote(&[0], &[], &[], 1.0, 0.0, &mut [], &mut [], &mut poses, &mut evaluations);
/// assert_eq!((told.number, poses, evaluations), (19, 0, 0));
/// ```
pub fn quote(
    chain: &[u8],
    poses: &[f64],
    joints: &[f64],
    chord: f64,
    axis: f64,
    scratch_joints: &mut [f64],
    scratch_tips: &mut [f64],
    poses_out: &mut u64,
    evaluations: &mut u64,
) -> Told {
    let (entry, figures) = (maztubel_quote, [poses_out, evaluations]);
    let scratch = [scratch_joints, scratch_tips];
    quoted(entry, chain, poses, joints, [chord, axis], scratch, figures)
}

/// The same of the strict division, [`subdivide_strict`], of which a test counts five evaluations in place of three.
///
/// ```
/// use maztubel::flat;
/// let (mut poses, mut evaluations) = (9, 9);
/// let told = flat::quote_strict(&[0], &[], &[], 1.0, 0.0, &mut [], &mut [], &mut poses, &mut evaluations);
/// assert_eq!((told.number, poses, evaluations), (19, 0, 0));
/// ```
pub fn quote_strict(
    chain: &[u8],
    poses: &[f64],
    joints: &[f64],
    chord: f64,
    axis: f64,
    scratch_joints: &mut [f64],
    scratch_tips: &mut [f64],
    poses_out: &mut u64,
    evaluations: &mut u64,
) -> Told {
    let (entry, figures) = (maztubel_quote_strict, [poses_out, evaluations]);
    let scratch = [scratch_joints, scratch_tips];
    quoted(entry, chain, poses, joints, [chord, axis], scratch, figures)
}

fn quoted(
    entry: Quoting,
    chain: &[u8],
    poses: &[f64],
    joints: &[f64],
    [chord, axis]: [f64; 2],
    [scratch_joints, scratch_tips]: [&mut [f64]; 2],
    [poses_out, evaluations]: [&mut u64; 2],
) -> Told {
    let mut told = Told::default();
    told.number = unsafe {
        entry(
            chain.as_ptr(),
            chain.len(),
            poses.as_ptr(),
            poses.len(),
            joints.as_ptr(),
            joints.len(),
            chord,
            axis,
            scratch_joints.as_mut_ptr(),
            scratch_joints.len(),
            scratch_tips.as_mut_ptr(),
            scratch_tips.len(),
            &mut told.count,
            poses_out,
            evaluations,
            &mut told.at,
            &mut told.letter,
        )
    };
    told
}

/// Where a job has its chain and its poses, and what its trailer says else. A refusal keeps the parts.
///
/// ```
/// use maztubel::flat::{self, JobParts};
/// let mut parts = JobParts { count: 9, ..JobParts::default() };
/// assert_eq!(flat::read_job(&[0; 39], &mut parts).number, 29);
/// assert_eq!(flat::read_job(&[0; 41], &mut parts).number, 3);
/// assert_eq!(parts.count, 9);
/// ```
pub fn read_job(job: &[u8], parts: &mut JobParts) -> Told {
    let mut told = Told::default();
    told.number = unsafe {
        maztubel_read_job(
            job.as_ptr(),
            job.len(),
            &mut parts.chain_at,
            &mut parts.chain_length,
            &mut parts.poses_at,
            &mut parts.count,
            &mut parts.cone,
            &mut parts.chord,
            &mut parts.axis,
            &mut told.at,
        )
    };
    told
}

/// The poses of a job, 6 numbers each, with +0.0 behind them; the bits of a nan are not kept. A refusal keeps what is lent.
///
/// ```
/// use maztubel::flat;
/// assert_eq!(flat::job_poses(&[], &mut [9.0; 7]).number, 20);
/// ```
pub fn job_poses(job: &[u8], poses: &mut [f64]) -> Told {
    let mut told = Told::default();
    told.number = unsafe {
        maztubel_job_poses(
            job.as_ptr(),
            job.len(),
            poses.as_mut_ptr(),
            poses.len(),
            &mut told.at,
        )
    };
    told
}

/// A job written to the front of what is lent: the chain, the poses, 6 numbers each, and the trailer with the cone and
/// the two tolerances. How many bytes it has is the count. A refusal keeps what is lent, and has the count 0.
///
/// ```
/// use maztubel::flat;
/// let mut job = [9; 200];
/// assert_eq!(flat::write_job(&[0], &[0.0; 7], 1.0, 0.5, 0.5, &mut job).number, 20);
/// assert_eq!(flat::write_job(&[0], &[0.0; 6], 0.0, 0.5, 0.5, &mut job).number, 3);
/// assert_eq!(job, [9; 200]);
/// ```
pub fn write_job(
    chain: &[u8],
    poses: &[f64],
    cone: f64,
    chord: f64,
    axis: f64,
    job: &mut [u8],
) -> Told {
    let mut told = Told::default();
    told.number = unsafe {
        maztubel_write_job(
            chain.as_ptr(),
            chain.len(),
            poses.as_ptr(),
            poses.len(),
            cone,
            chord,
            axis,
            job.as_mut_ptr(),
            job.len(),
            &mut told.count,
            &mut told.at,
            &mut told.letter,
        )
    };
    told
}

/// The cable number of the rotary with this index on a path of joint sets, 5 numbers each. A refusal keeps it.
///
/// ```
/// use maztubel::flat;
/// let mut number = 9;
/// assert_eq!(flat::cable_number(&[0], &[0.0; 6], 0, &mut number).number, 20);
/// assert_eq!(flat::cable_number(&[0], &[0.0; 5], 0, &mut number).number, 3);
/// assert_eq!(number, 9);
/// ```
pub fn cable_number(chain: &[u8], joints: &[f64], rotary: u64, number: &mut u64) -> Told {
    let mut told = Told::default();
    told.number = unsafe {
        maztubel_cable_number(
            chain.as_ptr(),
            chain.len(),
            joints.as_ptr(),
            joints.len(),
            rotary,
            number,
            &mut told.at,
            &mut told.letter,
        )
    };
    told
}

/// The summary of joint sets, 5 numbers each: for every 64 of them the smallest of each number, then the largest of
/// each, by totalOrder. A refusal keeps it.
///
/// ```
/// use maztubel::flat;
/// let mut summary = [9.0; 10];
/// assert_eq!(flat::build_extremes(&[0.0; 4], &mut summary).number, 20);
/// assert_eq!(flat::build_extremes(&[1.0, 2.0, 3.0, 4.0, 36_001.0], &mut summary).number, 17);
/// assert_eq!(summary, [9.0; 10]);
/// ```
pub fn build_extremes(joints: &[f64], summary: &mut [f64]) -> Told {
    let number = unsafe {
        maztubel_build_extremes(
            joints.as_ptr(),
            joints.len(),
            summary.as_mut_ptr(),
            summary.len(),
        )
    };
    Told {
        number,
        ..Told::default()
    }
}

/// Replaces the joint set with this index by five numbers, and works its group of the summary out afresh. A refusal
/// keeps both.
///
/// ```
/// use maztubel::flat;
/// let (mut joints, mut summary) = ([0.0; 5], [0.0; 10]);
/// assert_eq!(flat::replace_joints(&mut joints, &mut summary, 1, &[1.0; 5]).number, 20);
/// assert_eq!(flat::replace_joints(&mut joints, &mut summary, 0, &[1.0; 5]).number, 0);
/// assert_eq!((joints, summary), ([1.0; 5], [1.0; 10]));
/// ```
pub fn replace_joints(joints: &mut [f64], summary: &mut [f64], index: u64, fresh: &[f64]) -> Told {
    let number = unsafe {
        maztubel_replace_joints(
            joints.as_mut_ptr(),
            joints.len(),
            summary.as_mut_ptr(),
            summary.len(),
            index,
            fresh.as_ptr(),
            fresh.len(),
        )
    };
    Told {
        number,
        ..Told::default()
    }
}

/// Whether a joint set has an angle of the rotary, 0 or 1, above the given one: 1 and the index of the first, or 0 and
/// 0. A refusal keeps both numbers.
///
/// ```
/// use maztubel::flat;
/// let (mut found, mut index) = (9, 9);
/// assert_eq!(flat::first_above(&[], &[], 2, 0.0, &mut found, &mut index).number, 20);
/// assert_eq!((found, index), (9, 9));
/// assert_eq!(flat::first_above(&[], &[], 1, 0.0, &mut found, &mut index).number, 0);
/// assert_eq!((found, index), (0, 0));
/// ```
pub fn first_above(
    joints: &[f64],
    summary: &[f64],
    rotary: u64,
    angle: f64,
    found: &mut u64,
    index: &mut u64,
) -> Told {
    let number = unsafe {
        maztubel_first_above(
            joints.as_ptr(),
            joints.len(),
            summary.as_ptr(),
            summary.len(),
            rotary,
            angle,
            found,
            index,
        )
    };
    Told {
        number,
        ..Told::default()
    }
}

/// Adds to the balance of a shop: 34 for a shop other than 0 to 31, 20 for other than 32 balances, 17 where the balance would be above
/// 1,000,000,000. A refusal keeps the balances.
///
/// ```
/// use maztubel::flat;
/// let mut balances = [0; 32];
/// assert_eq!(flat::grant(&mut balances, 32, 1).number, 34);
/// assert_eq!(flat::grant(&mut balances[..31], 0, 1).number, 20);
/// assert_eq!(flat::grant(&mut balances, 31, 1_000_000_001).number, 17);
/// assert_eq!(flat::grant(&mut balances, 31, 1_000_000_000).number, 0);
/// assert_eq!(balances[31], 1_000_000_000);
/// ```
pub fn grant(balances: &mut [u64], shop: u64, amount: u64) -> Told {
    let number = unsafe { maztubel_grant(balances.as_mut_ptr(), balances.len(), shop, amount) };
    Told {
        number,
        ..Told::default()
    }
}

/// As [`subdivide_path`], charged to a shop: the count is taken from its balance. 34 for a shop other than 0 to 31 and 20 for other than
/// 32 balances stand before all of its refusals and keep both outputs; 35 for a balance below the count stands behind them and leaves
/// both +0.0. A refusal keeps the balances.
///
/// ```
/// use maztubel::flat;
/// let mut balances = [0; 32];
/// let told = flat::divide_for(&mut balances, 32, &[0], &[], &[], 1.0, 0.0, &mut [], &mut []);
/// assert_eq!(told.number, 34);
/// let told = flat::divide_for(&mut balances, 31, &[0], &[], &[], 1.0, 0.0, &mut [], &mut []);
/// assert_eq!(told.number, 19);
/// ```
pub fn divide_for(
    balances: &mut [u64],
    shop: u64,
    chain: &[u8],
    poses: &[f64],
    joints: &[f64],
    chord: f64,
    axis: f64,
    out_poses: &mut [f64],
    out_joints: &mut [f64],
) -> Told {
    let mut told = Told::default();
    told.number = unsafe {
        maztubel_divide_for(
            balances.as_mut_ptr(),
            balances.len(),
            shop,
            chain.as_ptr(),
            chain.len(),
            poses.as_ptr(),
            poses.len(),
            joints.as_ptr(),
            joints.len(),
            chord,
            axis,
            out_poses.as_mut_ptr(),
            out_poses.len(),
            out_joints.as_mut_ptr(),
            out_joints.len(),
            &mut told.count,
            &mut told.at,
            &mut told.letter,
        )
    };
    told
}

/// Admits a path to a dispatcher of 145 words and 368 numbers, all zero while it has no path: its number from 0 to 15.
/// 20 where the state has another length, 32 where 16 paths are admitted, whatever else is at fault, then the refusals
/// of [`subdivide_path`] before its first test. With all of them the number is 16, and they keep the state, and both
/// outputs but for 28, which clears them.
///
/// ```
/// use maztubel::flat;
/// let (mut words, mut numbers) = ([0; 145], [0.0; 368]);
/// let mut path = 9;
/// let told = flat::admit(&mut words, &mut numbers, &[0], &[], &[], 1.0, 1.0, &mut [], &mut [], &mut path);
/// assert_eq!((told.number, path), (3, 16));
/// words[144] = 16;
/// let told = flat::admit(&mut words, &mut numbers, &[0], &[], &[], 1.0, 1.0, &mut [0.0], &mut [], &mut path);
/// assert_eq!((told.number, path), (32, 16));
/// ```
pub fn admit(
    words: &mut [u64],
    numbers: &mut [f64],
    chain: &[u8],
    poses: &[f64],
    joints: &[f64],
    chord: f64,
    axis: f64,
    out_poses: &mut [f64],
    out_joints: &mut [f64],
    path: &mut u64,
) -> Told {
    let mut told = Told::default();
    told.number = unsafe {
        maztubel_admit(
            words.as_mut_ptr(),
            words.len(),
            numbers.as_mut_ptr(),
            numbers.len(),
            chain.as_ptr(),
            chain.len(),
            poses.as_ptr(),
            poses.len(),
            joints.as_ptr(),
            joints.len(),
            chord,
            axis,
            out_poses.as_mut_ptr(),
            out_poses.len(),
            out_joints.as_mut_ptr(),
            out_joints.len(),
            path,
            &mut told.at,
            &mut told.letter,
        )
    };
    told
}

/// Which path of a dispatcher is served next; 16 where it has none, and with 20, where there are not 145 words.
///
/// ```
/// use maztubel::flat;
/// let mut path = 9;
/// assert_eq!((flat::next(&[0; 144], &mut path).number, path), (20, 16));
/// assert_eq!((flat::next(&[0; 145], &mut path).number, path), (0, 16));
/// ```
pub fn next(words: &[u64], path: &mut u64) -> Told {
    let number = unsafe { maztubel_next(words.as_ptr(), words.len(), path) };
    Told {
        number,
        ..Told::default()
    }
}

/// Serves the path that has waited longest, in its outputs: its number, 1 where it has ended, and how many poses are
/// inserted in it so far. Without a path the number is 16, and nothing changes; so it is with 20, where the state or the
/// outputs have another length. 27 and 28 end the path and clear its outputs.
///
/// ```
/// use maztubel::flat;
/// let (mut words, mut numbers) = ([0; 145], [0.0; 368]);
/// let (mut path, mut ended) = (9, 9);
/// let told = flat::turn(&mut words, &mut numbers, &mut [1.0], &mut [], &mut path, &mut ended);
/// assert_eq!((told.number, path, ended), (0, 16, 0));
/// ```
pub fn turn(
    words: &mut [u64],
    numbers: &mut [f64],
    out_poses: &mut [f64],
    out_joints: &mut [f64],
    path: &mut u64,
    ended: &mut u8,
) -> Told {
    let mut told = Told::default();
    told.number = unsafe {
        maztubel_turn(
            words.as_mut_ptr(),
            words.len(),
            numbers.as_mut_ptr(),
            numbers.len(),
            out_poses.as_mut_ptr(),
            out_poses.len(),
            out_joints.as_mut_ptr(),
            out_joints.len(),
            path,
            ended,
            &mut told.count,
        )
    };
    told
}

/// How many poses are inserted so far in the path of a number: 33 where no admitted path has it, whatever the words.
///
/// ```
/// use maztubel::flat;
/// assert_eq!(flat::count(&[0; 145], 0).number, 33);
/// assert_eq!(flat::count(&[], 16).number, 33);
/// ```
pub fn count(words: &[u64], path: u64) -> Told {
    let mut told = Told::default();
    told.number = unsafe { maztubel_count(words.as_ptr(), words.len(), path, &mut told.count) };
    told
}

/// Whether two links meet on the path of joint sets, 5 numbers each: 1, the index of the first joint set at which two do, and those of
/// the first two links; or four times 0. A refusal keeps the four numbers.
///
/// ```
/// use maztubel::flat;
/// let [mut found, mut pose, mut first, mut second] = [9; 4];
/// let told = flat::links_meet(b"mill", &[0], &[], &[0.0; 4], &mut found, &mut pose, &mut first, &mut second);
/// assert_eq!(told.number, 20);
/// let told = flat::links_meet(b"mill", &[0], &[], &[0.0; 5], &mut found, &mut pose, &mut first, &mut second);
/// assert_eq!(told.number, 3);
/// assert_eq!([found, pose, first, second], [9; 4]);
/// ```
pub fn links_meet(
    name: &[u8],
    chain: &[u8],
    model: &[u8],
    joints: &[f64],
    found: &mut u64,
    pose: &mut u64,
    first: &mut u64,
    second: &mut u64,
) -> Told {
    let mut told = Told::default();
    told.number = unsafe {
        maztubel_links_meet(
            name.as_ptr(),
            name.len(),
            chain.as_ptr(),
            chain.len(),
            model.as_ptr(),
            model.len(),
            joints.as_ptr(),
            joints.len(),
            found,
            pose,
            first,
            second,
            &mut told.at,
            &mut told.letter,
        )
    };
    told
}
