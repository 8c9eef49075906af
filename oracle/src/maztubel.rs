//! The exports of the crate `maztubel` over slices, each slot for a place, a letter or a count lent by the caller, so that it can stand
//! between guards. The declarations are those of bindings/rust.

use ::maztubel::raw::*;
pub use ::maztubel::raw::{
    maztubel_arccosine, maztubel_arctangent, maztubel_cosine, maztubel_sine,
};

/// An export of one argument, and of two: it answers 0 and writes the lent number, or refuses with a number and keeps it.
pub type OfOne = extern "C" fn(f64, &mut f64) -> u32;
pub type OfTwo = extern "C" fn(f64, f64, &mut f64) -> u32;

/// The same of slices, in Rust's own form.
pub type OfEach = fn(&[f64], &mut [f64]) -> u32;

pub fn sine(x: f64) -> Result<f64, u32> {
    told(|answer| maztubel_sine(x, answer))
}

pub fn cosine(x: f64) -> Result<f64, u32> {
    told(|answer| maztubel_cosine(x, answer))
}

pub fn arctangent(y: f64, x: f64) -> Result<f64, u32> {
    told(|answer| maztubel_arctangent(y, x, answer))
}

pub fn arccosine(c: f64) -> Result<f64, u32> {
    told(|answer| maztubel_arccosine(c, answer))
}

fn told(ask: impl FnOnce(&mut f64) -> u32) -> Result<f64, u32> {
    let mut answer = 0.0;
    match ask(&mut answer) {
        0 => Ok(answer),
        refusal => Err(refusal),
    }
}

pub fn sines(xs: &[f64], answers: &mut [f64]) -> u32 {
    // SAFETY: here and below each pointer goes with its own length, and no two of the slices overlap.
    unsafe { maztubel_sines(xs.as_ptr(), xs.len(), answers.as_mut_ptr(), answers.len()) }
}

pub fn cosines(xs: &[f64], answers: &mut [f64]) -> u32 {
    unsafe { maztubel_cosines(xs.as_ptr(), xs.len(), answers.as_mut_ptr(), answers.len()) }
}

pub fn arccosines(cs: &[f64], answers: &mut [f64]) -> u32 {
    unsafe { maztubel_arccosines(cs.as_ptr(), cs.len(), answers.as_mut_ptr(), answers.len()) }
}

pub fn arctangents(ys: &[f64], xs: &[f64], answers: &mut [f64]) -> u32 {
    unsafe {
        maztubel_arctangents(
            ys.as_ptr(),
            ys.len(),
            xs.as_ptr(),
            xs.len(),
            answers.as_mut_ptr(),
            answers.len(),
        )
    }
}

/// What the model check and the link frames are lent of a machine: its name, its chain and its model, in bytes.
#[derive(Clone, Copy)]
pub struct Machine<'a> {
    pub name: &'a [u8],
    pub chain: &'a [u8],
    pub model: &'a [u8],
}

pub fn check_chain(chain: &[u8], at: &mut u64, letter: &mut u8) -> u32 {
    unsafe { maztubel_check_chain(chain.as_ptr(), chain.len(), at, letter) }
}

pub fn check_model(machine: Machine, at: &mut u64, letter: &mut u8) -> u32 {
    let Machine { name, chain, model } = machine;
    unsafe {
        maztubel_check_model(
            name.as_ptr(),
            name.len(),
            chain.as_ptr(),
            chain.len(),
            model.as_ptr(),
            model.len(),
            at,
            letter,
        )
    }
}

pub fn forward(
    chain: &[u8],
    joints: &[f64],
    tool_length: f64,
    pose: &mut [f64],
    at: &mut u64,
    letter: &mut u8,
) -> u32 {
    unsafe {
        maztubel_forward(
            chain.as_ptr(),
            chain.len(),
            joints.as_ptr(),
            joints.len(),
            tool_length,
            pose.as_mut_ptr(),
            pose.len(),
            at,
            letter,
        )
    }
}

/// What inverse and choose are lent to read.
#[derive(Clone, Copy)]
pub struct Asked<'a> {
    pub chain: &'a [u8],
    pub pose: &'a [f64],
    pub tool_length: f64,
    pub hint: &'a [f64],
}

pub fn inverse(
    asked: Asked,
    list: &mut [f64],
    count: &mut u64,
    at: &mut u64,
    letter: &mut u8,
) -> u32 {
    unsafe {
        maztubel_inverse(
            asked.chain.as_ptr(),
            asked.chain.len(),
            asked.pose.as_ptr(),
            asked.pose.len(),
            asked.tool_length,
            asked.hint.as_ptr(),
            asked.hint.len(),
            list.as_mut_ptr(),
            list.len(),
            count,
            at,
            letter,
        )
    }
}

pub fn choose(asked: Asked, choice: u32, joints: &mut [f64], at: &mut u64, letter: &mut u8) -> u32 {
    unsafe {
        maztubel_choose(
            asked.chain.as_ptr(),
            asked.chain.len(),
            asked.pose.as_ptr(),
            asked.pose.len(),
            asked.tool_length,
            choice,
            asked.hint.as_ptr(),
            asked.hint.len(),
            joints.as_mut_ptr(),
            joints.len(),
            at,
            letter,
        )
    }
}

pub fn choose_tooth(
    asked: Asked,
    choice: u32,
    tolerance: f64,
    joints: &mut [f64],
    at: &mut u64,
    letter: &mut u8,
) -> u32 {
    unsafe {
        maztubel_choose_tooth(
            asked.chain.as_ptr(),
            asked.chain.len(),
            asked.pose.as_ptr(),
            asked.pose.len(),
            asked.tool_length,
            choice,
            asked.hint.as_ptr(),
            asked.hint.len(),
            tolerance,
            joints.as_mut_ptr(),
            joints.len(),
            at,
            letter,
        )
    }
}

pub fn link_world(
    machine: Machine,
    joints: &[f64],
    carrier: &[u8],
    frame: &mut [f64],
    at: &mut u64,
    letter: &mut u8,
) -> u32 {
    let Machine { name, chain, model } = machine;
    unsafe {
        maztubel_link_world(
            name.as_ptr(),
            name.len(),
            chain.as_ptr(),
            chain.len(),
            model.as_ptr(),
            model.len(),
            joints.as_ptr(),
            joints.len(),
            carrier.as_ptr(),
            carrier.len(),
            frame.as_mut_ptr(),
            frame.len(),
            at,
            letter,
        )
    }
}

pub fn link_in_part(
    machine: Machine,
    joints: &[f64],
    carrier: &[u8],
    frame: &mut [f64],
    at: &mut u64,
    letter: &mut u8,
) -> u32 {
    let Machine { name, chain, model } = machine;
    unsafe {
        maztubel_link_in_part(
            name.as_ptr(),
            name.len(),
            chain.as_ptr(),
            chain.len(),
            model.as_ptr(),
            model.len(),
            joints.as_ptr(),
            joints.len(),
            carrier.as_ptr(),
            carrier.len(),
            frame.as_mut_ptr(),
            frame.len(),
            at,
            letter,
        )
    }
}

/// What a path is solved from.
#[derive(Clone, Copy)]
pub struct Course<'a> {
    pub chain: &'a [u8],
    pub poses: &'a [f64],
    pub start: &'a [f64],
    pub cone: f64,
}

pub fn solve_path(course: Course, joints: &mut [f64], at: &mut u64, letter: &mut u8) -> u32 {
    unsafe {
        maztubel_solve_path(
            course.chain.as_ptr(),
            course.chain.len(),
            course.poses.as_ptr(),
            course.poses.len(),
            course.start.as_ptr(),
            course.start.len(),
            course.cone,
            joints.as_mut_ptr(),
            joints.len(),
            at,
            letter,
        )
    }
}

/// What is divided where nothing is solved.
#[derive(Clone, Copy)]
pub struct Solved<'a> {
    pub chain: &'a [u8],
    pub poses: &'a [f64],
    pub joints: &'a [f64],
}

/// What a division is lent to write to.
pub struct Lent<'a> {
    pub poses: &'a mut [f64],
    pub joints: &'a mut [f64],
    pub inserted: &'a mut u64,
    pub at: &'a mut u64,
    pub letter: &'a mut u8,
}

/// The tolerances are that of the chord and that of the axis.
pub fn subdivide_path(solved: Solved, tolerances: [f64; 2], lent: Lent) -> u32 {
    divide(maztubel_subdivide_path, solved, tolerances, lent)
}

pub fn subdivide_strict(solved: Solved, tolerances: [f64; 2], lent: Lent) -> u32 {
    divide(maztubel_subdivide_strict, solved, tolerances, lent)
}

fn divide(entry: Dividing, solved: Solved, [chord, axis]: [f64; 2], lent: Lent) -> u32 {
    unsafe {
        entry(
            solved.chain.as_ptr(),
            solved.chain.len(),
            solved.poses.as_ptr(),
            solved.poses.len(),
            solved.joints.as_ptr(),
            solved.joints.len(),
            chord,
            axis,
            lent.poses.as_mut_ptr(),
            lent.poses.len(),
            lent.joints.as_mut_ptr(),
            lent.joints.len(),
            lent.inserted,
            lent.at,
            lent.letter,
        )
    }
}

/// What a quotation is lent to work in, and for its figures.
pub struct Scratch<'a> {
    pub joints: &'a mut [f64],
    pub tips: &'a mut [f64],
    pub inserted: &'a mut u64,
    pub poses: &'a mut u64,
    pub evaluations: &'a mut u64,
    pub at: &'a mut u64,
    pub letter: &'a mut u8,
}

pub fn quote(solved: Solved, tolerances: [f64; 2], scratch: Scratch) -> u32 {
    figures(maztubel_quote, solved, tolerances, scratch)
}

pub fn quote_strict(solved: Solved, tolerances: [f64; 2], scratch: Scratch) -> u32 {
    figures(maztubel_quote_strict, solved, tolerances, scratch)
}

fn figures(entry: Quoting, solved: Solved, [chord, axis]: [f64; 2], scratch: Scratch) -> u32 {
    unsafe {
        entry(
            solved.chain.as_ptr(),
            solved.chain.len(),
            solved.poses.as_ptr(),
            solved.poses.len(),
            solved.joints.as_ptr(),
            solved.joints.len(),
            chord,
            axis,
            scratch.joints.as_mut_ptr(),
            scratch.joints.len(),
            scratch.tips.as_mut_ptr(),
            scratch.tips.len(),
            scratch.inserted,
            scratch.poses,
            scratch.evaluations,
            scratch.at,
            scratch.letter,
        )
    }
}

pub fn solve_and_divide(course: Course, tolerances: [f64; 2], lent: Lent) -> u32 {
    unsafe {
        maztubel_solve_and_divide(
            course.chain.as_ptr(),
            course.chain.len(),
            course.poses.as_ptr(),
            course.poses.len(),
            course.start.as_ptr(),
            course.start.len(),
            course.cone,
            tolerances[0],
            tolerances[1],
            lent.poses.as_mut_ptr(),
            lent.poses.len(),
            lent.joints.as_mut_ptr(),
            lent.joints.len(),
            lent.inserted,
            lent.at,
            lent.letter,
        )
    }
}

/// The places are that of the chain with its length, that of the poses and their count; the numbers are the cone and the two
/// tolerances.
pub fn read_job(job: &[u8], places: [&mut u64; 4], numbers: [&mut f64; 3], at: &mut u64) -> u32 {
    let [chain_at, chain_length, poses_at, count] = places;
    let [cone, chord, axis] = numbers;
    unsafe {
        maztubel_read_job(
            job.as_ptr(),
            job.len(),
            chain_at,
            chain_length,
            poses_at,
            count,
            cone,
            chord,
            axis,
            at,
        )
    }
}

pub fn job_poses(job: &[u8], poses: &mut [f64], at: &mut u64) -> u32 {
    unsafe { maztubel_job_poses(job.as_ptr(), job.len(), poses.as_mut_ptr(), poses.len(), at) }
}

/// What a job is written from; the numbers are the cone and the two tolerances.
#[derive(Clone, Copy)]
pub struct Parts<'a> {
    pub chain: &'a [u8],
    pub poses: &'a [f64],
    pub numbers: [f64; 3],
}

pub fn write_job(
    parts: Parts,
    job: &mut [u8],
    length: &mut u64,
    at: &mut u64,
    letter: &mut u8,
) -> u32 {
    let [cone, chord, axis] = parts.numbers;
    unsafe {
        maztubel_write_job(
            parts.chain.as_ptr(),
            parts.chain.len(),
            parts.poses.as_ptr(),
            parts.poses.len(),
            cone,
            chord,
            axis,
            job.as_mut_ptr(),
            job.len(),
            length,
            at,
            letter,
        )
    }
}

pub fn cable_number(
    chain: &[u8],
    joints: &[f64],
    rotary: u64,
    number: &mut u64,
    at: &mut u64,
    letter: &mut u8,
) -> u32 {
    unsafe {
        maztubel_cable_number(
            chain.as_ptr(),
            chain.len(),
            joints.as_ptr(),
            joints.len(),
            rotary,
            number,
            at,
            letter,
        )
    }
}

pub fn build_extremes(joints: &[f64], summary: &mut [f64]) -> u32 {
    unsafe {
        maztubel_build_extremes(
            joints.as_ptr(),
            joints.len(),
            summary.as_mut_ptr(),
            summary.len(),
        )
    }
}

pub fn replace_joints(joints: &mut [f64], summary: &mut [f64], index: u64, fresh: &[f64]) -> u32 {
    unsafe {
        maztubel_replace_joints(
            joints.as_mut_ptr(),
            joints.len(),
            summary.as_mut_ptr(),
            summary.len(),
            index,
            fresh.as_ptr(),
            fresh.len(),
        )
    }
}

pub fn first_above(
    joints: &[f64],
    summary: &[f64],
    rotary: u64,
    angle: f64,
    found: &mut u64,
    index: &mut u64,
) -> u32 {
    unsafe {
        maztubel_first_above(
            joints.as_ptr(),
            joints.len(),
            summary.as_ptr(),
            summary.len(),
            rotary,
            angle,
            found,
            index,
        )
    }
}

pub fn grant(balances: &mut [u64], shop: u64, amount: u64) -> u32 {
    unsafe { maztubel_grant(balances.as_mut_ptr(), balances.len(), shop, amount) }
}

pub fn divide_for(
    balances: &mut [u64],
    shop: u64,
    solved: Solved,
    tolerances: [f64; 2],
    lent: Lent,
) -> u32 {
    unsafe {
        maztubel_divide_for(
            balances.as_mut_ptr(),
            balances.len(),
            shop,
            solved.chain.as_ptr(),
            solved.chain.len(),
            solved.poses.as_ptr(),
            solved.poses.len(),
            solved.joints.as_ptr(),
            solved.joints.len(),
            tolerances[0],
            tolerances[1],
            lent.poses.as_mut_ptr(),
            lent.poses.len(),
            lent.joints.as_mut_ptr(),
            lent.joints.len(),
            lent.inserted,
            lent.at,
            lent.letter,
        )
    }
}

/// The state of a dispatcher.
pub struct Dispatcher<'a> {
    pub words: &'a mut [u64],
    pub numbers: &'a mut [f64],
}

/// The outputs are poses and joints.
pub fn admit(
    state: Dispatcher,
    solved: Solved,
    tolerances: [f64; 2],
    [out_poses, out_joints]: [&mut [f64]; 2],
    path: &mut u64,
    (at, letter): (&mut u64, &mut u8),
) -> u32 {
    unsafe {
        maztubel_admit(
            state.words.as_mut_ptr(),
            state.words.len(),
            state.numbers.as_mut_ptr(),
            state.numbers.len(),
            solved.chain.as_ptr(),
            solved.chain.len(),
            solved.poses.as_ptr(),
            solved.poses.len(),
            solved.joints.as_ptr(),
            solved.joints.len(),
            tolerances[0],
            tolerances[1],
            out_poses.as_mut_ptr(),
            out_poses.len(),
            out_joints.as_mut_ptr(),
            out_joints.len(),
            path,
            at,
            letter,
        )
    }
}

pub fn next(words: &[u64], path: &mut u64) -> u32 {
    unsafe { maztubel_next(words.as_ptr(), words.len(), path) }
}

/// Lent are the path's number, whether it has ended, and its count.
pub fn turn(
    state: Dispatcher,
    [out_poses, out_joints]: [&mut [f64]; 2],
    (path, ended, inserted): (&mut u64, &mut u8, &mut u64),
) -> u32 {
    unsafe {
        maztubel_turn(
            state.words.as_mut_ptr(),
            state.words.len(),
            state.numbers.as_mut_ptr(),
            state.numbers.len(),
            out_poses.as_mut_ptr(),
            out_poses.len(),
            out_joints.as_mut_ptr(),
            out_joints.len(),
            path,
            ended,
            inserted,
        )
    }
}

pub fn count(words: &[u64], path: u64, inserted: &mut u64) -> u32 {
    unsafe { maztubel_count(words.as_ptr(), words.len(), path, inserted) }
}

/// Lent are found, the pose and the two links.
pub fn links_meet(
    machine: Machine,
    joints: &[f64],
    [found, pose, first, second]: [&mut u64; 4],
    at: &mut u64,
    letter: &mut u8,
) -> u32 {
    let Machine { name, chain, model } = machine;
    unsafe {
        maztubel_links_meet(
            name.as_ptr(),
            name.len(),
            chain.as_ptr(),
            chain.len(),
            model.as_ptr(),
            model.len(),
            joints.as_ptr(),
            joints.len(),
            found,
            pose,
            first,
            second,
            at,
            letter,
        )
    }
}
