//! Closes the gaps of a job: reads its bytes from standard input, and writes them with nothing between chain, poses and
//! trailer.
//!
//!     cargo run --example rewrite < ../../examples/jobs/apart.job | ../../crates/post/out/post

use maztubel::{Job, Refusal};
use std::io::{self, Read, Write};
use std::process::ExitCode;

fn main() -> io::Result<ExitCode> {
    let mut bytes = Vec::new();
    io::stdin().read_to_end(&mut bytes)?;
    match rewritten(&bytes) {
        Ok(bytes) => {
            io::stdout().write_all(&bytes)?;
            Ok(ExitCode::SUCCESS)
        }
        Err(refusal) => {
            eprintln!("{refusal}");
            Ok(ExitCode::FAILURE)
        }
    }
}

fn rewritten(bytes: &[u8]) -> Result<Vec<u8>, Refusal> {
    Job::read(bytes)?.to_bytes()
}
