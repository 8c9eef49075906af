//! The program `post` as a process: bytes to its standard input, and what it writes to its standard output.

use std::io::{ErrorKind, Write};
use std::path::Path;
use std::process::{Command, Stdio};

/// What it wrote, and that it ended with status 0; else how it ended.
pub fn post(bytes: &[u8]) -> Result<String, String> {
    let program = Path::new(env!("CARGO_MANIFEST_DIR")).join("../crates/post/out/post");
    let mut process = Command::new(&program)
        .stdin(Stdio::piped())
        .stdout(Stdio::piped())
        .spawn()
        .unwrap_or_else(|error| panic!("{} does not start: {error}", program.display()));
    // It reads one byte more than a job may have, and a longer one's rest finds no reader.
    let mut stdin = process.stdin.take().expect("a standard input");
    match stdin.write_all(bytes) {
        Err(error) if error.kind() != ErrorKind::BrokenPipe => panic!("writing a job: {error}"),
        _ => drop(stdin),
    }
    let output = process.wait_with_output().expect("the program's output");
    let text = String::from_utf8_lossy(&output.stdout).into_owned();
    match output.status.code() {
        Some(0) => Ok(text),
        _ => Err(format!("{}, written: {text}", output.status)),
    }
}
