//! Turns the text of a job into its bytes, its bytes into text, and tells what a reader says of them.
//!
//!     job bytes < name.txt > name.job      through the library's writer, which judges the job
//!     job pack < name.txt > name.job       with nothing judged, for tests and for jobs that must be refused
//!     job text < name.job > name.txt
//!     job read < name.job
//!
//! Where the writer refuses the job, `job bytes` writes no byte but says the refusal's number and words, as in
//! `refused 18: the cone must be finite, above 0 and at most 10 degrees`; the status is then 1.
//!
//! # The text
//!
//! A line for each field, in the order of the bytes. What stands behind a `#` is a comment.
//!
//!     chain:                   here the chain starts, for chain-offset
//!     count 2                  a byte: how many rotaries
//!     zeros 7                  so many zero bytes
//!     letter A                 a byte, as a character
//!     carrier table            a byte: table, head, or its number
//!     limited yes              a byte: no, yes, or its number
//!     zeros 5
//!     axis 1 0 0               numbers, 8 bytes each
//!     pivot 0 0 -100
//!     limits -120 30
//!     rest 90                  with a word of 1: the rest angle
//!     ..                       the second rotary
//!     spindle 0 0 1
//!     poses:                   here the poses start, for pose-offset
//!     pose 1 2 3 0 0 1         the tip and the axis
//!     chain-offset chain       4 bytes: where `chain:` stands, or a number
//!     pose-offset poses        4 bytes: where `poses:` stands, or a number
//!     pose-count all           4 bytes: how many lines are a `pose`, or a number
//!     word 1                   4 bytes: 1 with rest angles, else 0
//!     cone 1
//!     chord 0.01
//!     axis-tolerance 0.5
//!
//! `job bytes` takes these lines in this order, and nothing between them: the writer leaves no gap. For `job pack` each
//! line stands for its bytes, so any file can be packed, a malformed one too, from these lines in any order, and from
//!
//!     bytes 01 FF              bytes in hexadecimal
//!     fill 100 00              so many of one byte
//!
//! A number is written in decimal, and stands for the nearest double; or as 16 hexadecimal digits, in capitals, for the
//! bits of one, the highest first, as answers are printed. A whole number that happens to have 16 digits has `.0`
//! behind it.
//!
//! `job text` writes decimal where that gives the same bits, hexadecimal for a nan and an infinity, and `bytes` or
//! `fill` for whatever no field stands for. `job pack` of it gives the same file again, whatever the file; `job bytes`
//! does of every file that the writer has written.

use job::{NotWritten, pack, read, text_of, write};
use std::io::{self, Read, Write};
use std::process::ExitCode;

fn main() -> ExitCode {
    let arguments: Vec<String> = std::env::args().skip(1).collect();
    let turn = match &arguments[..] {
        [command] if command == "bytes" => to_bytes,
        [command] if command == "pack" => to_packed,
        [command] if command == "text" => to_text,
        [command] if command == "read" => to_answer,
        _ => {
            eprintln!("job bytes | pack | text | read, from standard input to standard output");
            return ExitCode::FAILURE;
        }
    };
    match run(turn) {
        Ok(()) => ExitCode::SUCCESS,
        Err(words) => {
            eprintln!("{words}");
            ExitCode::FAILURE
        }
    }
}

type Turn = fn(Vec<u8>) -> Result<Vec<u8>, String>;

fn run(turn: Turn) -> Result<(), String> {
    let mut input = Vec::new();
    let told = |error: io::Error| error.to_string();
    io::stdin().read_to_end(&mut input).map_err(told)?;
    io::stdout().write_all(&turn(input)?).map_err(told)
}

fn to_bytes(input: Vec<u8>) -> Result<Vec<u8>, String> {
    write(&text(input)?).map_err(|why| match why {
        NotWritten::Fault(fault) => format!("{fault} (`job pack` takes lines in any order)"),
        NotWritten::Refused(refusal) => refusal.to_string(),
    })
}

fn to_packed(input: Vec<u8>) -> Result<Vec<u8>, String> {
    pack(&text(input)?).map_err(|fault| fault.to_string())
}

fn text(input: Vec<u8>) -> Result<String, String> {
    String::from_utf8(input).map_err(|error| error.to_string())
}

fn to_text(input: Vec<u8>) -> Result<Vec<u8>, String> {
    Ok(text_of(&input).into_bytes())
}

fn to_answer(input: Vec<u8>) -> Result<Vec<u8>, String> {
    let answer = match read(&input) {
        Ok(job) => format!("{} poses\n", job.poses.len() / job::POSE),
        Err(breach) => format!("{breach}\n"),
    };
    Ok(answer.into_bytes())
}
