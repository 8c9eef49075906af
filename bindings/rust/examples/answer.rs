//! The answer to a job, as document 01 prints it: reads the job's bytes from standard input, with space for 700 poses.
//!
//!     cargo run --example answer < ../../examples/jobs/example.job

use maztubel::{Job, Joints, Pose, Refusal, Start, cable_number, solve_and_divide_into};
use std::fmt::Write;
use std::io::{self, Read};

const SPACE: usize = 700;

fn main() -> io::Result<()> {
    let mut bytes = Vec::new();
    io::stdin().read_to_end(&mut bytes)?;
    print!("{}", answer(&bytes));
    Ok(())
}

/// The lines of the answer.
pub fn answer(bytes: &[u8]) -> String {
    answered(bytes).unwrap_or_else(refused)
}

fn answered(bytes: &[u8]) -> Result<String, Refusal> {
    let job = Job::read(bytes)?;
    let (joints, inserted) = divided(&job)?;
    let turns = |rotary| cable_number(&job.chain, &joints, rotary);
    Ok(lines(&joints, inserted, [turns(0)?, turns(1)?]))
}

fn divided(job: &Job) -> Result<(Vec<Joints>, usize), Refusal> {
    let (mut poses, mut joints) = ([Pose::default(); SPACE], vec![Joints::default(); SPACE]);
    let inserted = solve_and_divide_into(
        &job.chain,
        &job.poses,
        Start::AtZero,
        job.cone,
        job.tolerances,
        &mut poses,
        &mut joints,
    )?;
    joints.truncate(job.poses.len() + inserted);
    Ok((joints, inserted))
}

fn refused(refusal: Refusal) -> String {
    match refusal.pose() {
        Some(pose) => format!("refused {} pose {pose}\n", refusal.number()),
        None => format!("refused {}\n", refusal.number()),
    }
}

fn lines(joints: &[Joints], inserted: usize, [first, second]: [u64; 2]) -> String {
    let mut text = format!(
        "poses {} inserted {inserted} turns {first} {second}\n",
        joints.len()
    );
    for (index, joints) in joints.iter().enumerate() {
        let numbers = joints.position.iter().chain(&joints.angles);
        let bits = numbers.fold(String::new(), |all, number| {
            format!("{all} {:016X}", number.to_bits())
        });
        writeln!(text, "{index}{bits}").expect("a String takes every text");
    }
    text
}
