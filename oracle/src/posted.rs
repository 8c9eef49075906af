//! The answer to a job as the program `post` must write it: by the Rust, whose sine, cosine, arctangent and arccosine are the
//! exported ones, and by document 01 where it adds to the Rust. What the bytes say is told by the reader of tools/job.

use crate::cables;
use crate::chains::Chain;
use crate::paths::{JOINTS, Path};
use crate::reading;
use crate::rust::ported;
use crate::solved;
use std::fmt::Write;

/// The program has space for so many poses.
const SPACE: usize = 700;

pub fn answer(bytes: &[u8]) -> String {
    let job = match job::read(bytes) {
        Ok(job) => job,
        Err(breach) => return format!("refused {}\n", breach.number),
    };
    let path = Path {
        chain: bytes[job.chain.clone()].to_vec(),
        poses: job.numbers(bytes),
        start: Vec::new(),
        cone: job.cone,
        room: JOINTS * SPACE,
    };
    match solved::expected(&path) {
        Err(refusal) if refusal.clears => {
            format!("refused {} pose {}\n", refusal.number, refusal.at)
        }
        Err(refusal) => format!("refused {}\n", refusal.number),
        Ok(joints) => divided(&path, &joints, [job.chord, job.axis]),
    }
}

fn divided(path: &Path, joints: &[f64], tolerances: [f64; 2]) -> String {
    if tolerances.iter().any(|x| !x.is_finite() || *x <= 0.0) {
        return "refused 19\n".to_owned();
    }
    let chain = reading::chain(&path.chain).expect("a chain that was served");
    let setup = ported::setup(&chain);
    match ported::subdivide_path(&setup, &path.poses, joints, tolerances) {
        Ok([_, sets]) if sets.len() <= JOINTS * SPACE => {
            lines(&chain, &sets, (sets.len() - joints.len()) / JOINTS)
        }
        Err(words) if words != "toolpath `p` inserts more than 10000 poses" => {
            panic!("the Rust refuses to divide with '{words}'")
        }
        _ => "refused 28\n".to_owned(),
    }
}

fn lines(chain: &Chain, joints: &[f64], inserted: usize) -> String {
    let sets = joints.chunks(JOINTS);
    let most_turns = |rotary: usize| {
        let winds = cables::winds(chain, joints, rotary);
        let most = winds.map(cables::turns).max().unwrap_or(0);
        if rotary < usize::from(chain.count) {
            most
        } else {
            0
        }
    };
    let mut text = format!(
        "poses {} inserted {inserted} turns {} {}\n",
        sets.len(),
        most_turns(0),
        most_turns(1)
    );
    for (index, set) in sets.enumerate() {
        let bits = set.iter().map(|x| format!(" {:016X}", x.to_bits()));
        writeln!(text, "{index}{}", bits.collect::<String>()).expect("a String takes every text");
    }
    text
}
