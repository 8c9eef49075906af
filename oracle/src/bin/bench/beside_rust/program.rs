//! The most memory that the program holds at once, on the largest job: 700 poses in 65,536 bytes. The program is held where it starts to
//! write, at a pipe that is full, and asked for its high-water mark there: the system keeps none of a process that has ended.

use super::exports::job;
use super::finishing::{CONE, Case};
use std::io::{self, Read, Write};
use std::path::Path;
use std::process::{Command, Stdio};
use std::time::Duration;
use std::{fs, mem, thread};

const POSES: usize = 700;
const JOB: usize = 65_536;
const TRAILER: usize = 40;
/// What a pipe holds.
const PIPE: usize = 65_536;

/// In bytes, or nothing where the program was not built.
pub fn peak(case: &Case) -> Option<u64> {
    let program = Path::new(env!("CARGO_MANIFEST_DIR")).join("../crates/post/out/post");
    if !program.is_file() {
        return None;
    }
    Some(held(&program, &largest_job(case)).expect("the program runs"))
}

fn held(program: &Path, job: &[u8]) -> io::Result<u64> {
    let (mut answer, mut full) = io::pipe()?;
    full.write_all(&[0; PIPE])?;
    let mut child = Command::new(program)
        .stdin(Stdio::piped())
        .stdout(full)
        .spawn()?;
    child.stdin.take().expect("a pipe").write_all(job)?;
    let status = format!("/proc/{}/status", child.id());
    let mut asleep = false;
    let peak = loop {
        let status = fs::read_to_string(&status)?;
        let state = field(&status, "State:");
        assert_ne!(state, "Z", "the program has ended");
        // Asleep twice: what it waits for is the pipe.
        if mem::replace(&mut asleep, state == "S") && asleep {
            break field(&status, "VmHWM:")
                .parse::<u64>()
                .map_err(io::Error::other)?;
        }
        thread::sleep(Duration::from_millis(20));
    };
    let mut text = Vec::new();
    answer.read_to_end(&mut text)?;
    child.wait()?;
    let served = format!("poses {POSES} inserted 0 ");
    assert!(
        text[PIPE..].starts_with(served.as_bytes()),
        "a job was not served"
    );
    Ok(1024 * peak)
}

/// The first word of a line.
fn field<'a>(status: &'a str, name: &str) -> &'a str {
    let line = status.lines().find_map(|line| line.strip_prefix(name));
    line.and_then(|line| line.split_whitespace().next())
        .unwrap_or("")
}

/// With tolerances that any path keeps, and zeros before the trailer.
fn largest_job(case: &Case) -> Vec<u8> {
    let mut bytes = job(&case.bytes, &case.poses[..6 * POSES], [CONE, 1e6, 1e6]);
    let trailer = bytes.split_off(bytes.len() - TRAILER);
    bytes.resize(JOB - TRAILER, 0);
    bytes.extend(trailer);
    bytes
}
