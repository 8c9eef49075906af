//! Each refusal's number, name and text; and numbers that the crate does not know.

use maztubel::flat::Told;
use maztubel::{Place, Reason};
use std::collections::BTreeSet;
use std::fs;
use std::path::Path;

fn repository(file: &str) -> String {
    fs::read_to_string(
        Path::new(env!("CARGO_MANIFEST_DIR"))
            .join("../..")
            .join(file),
    )
    .unwrap()
}

/// `PoseUnreachable` as POSE_UNREACHABLE.
fn in_capitals(name: &str) -> String {
    let capitals = name.chars().map(|c| match c.is_uppercase() {
        true => format!("_{c}"),
        false => c.to_uppercase().to_string(),
    });
    capitals.collect::<String>()[1..].to_owned()
}

/// The names and numbers of crates/refusal, where they are written once: the causes, each with its number.
fn written() -> Vec<(String, u32)> {
    let cause = |line: &str| {
        let (name, number) = line.trim().strip_suffix(',')?.split_once(" = ")?;
        Some((in_capitals(name), number.parse().unwrap()))
    };
    let text = repository("crates/refusal/src/lib.rt");
    let (_, behind) = text.split_once("pub enum Cause {").unwrap();
    let (causes, _) = behind.split_once("\n}").unwrap();
    causes.lines().filter_map(cause).collect()
}

/// Name, number and comment of each refusal of the header, in its order.
fn declared() -> Vec<(String, u32, String)> {
    let header = repository("include/maztubel.h");
    let (_, behind) = header.split_once("MAZTUBEL_SERVED = 0,").unwrap();
    let (refusals, _) = behind.split_once("};").unwrap();
    let comments = refusals.split("/*").skip(1);
    comments
        .map(|part| {
            let (comment, constant) = part.split_once("*/").unwrap();
            let words: Vec<&str> = comment.split_whitespace().filter(|w| *w != "*").collect();
            let (name, number) = constant
                .trim()
                .trim_end_matches(',')
                .split_once(" = ")
                .unwrap();
            let name = name.strip_prefix("MAZTUBEL_").unwrap().to_owned();
            (name, number.parse().unwrap(), words.join(" "))
        })
        .collect()
}

/// crates/refusal may already have the numbers of calls that are not there yet.
#[test]
fn names_numbers_and_words_are_one_in_the_proved_code_the_header_and_here() {
    let (written, declared) = (written(), declared());
    assert!(29 <= declared.len() && declared.len() <= written.len());
    for (at, (_, number)) in written.iter().enumerate() {
        assert_eq!(*number, at as u32 + 1);
    }
    for (name, number, comment) in &declared {
        assert_eq!(&(name.clone(), *number), &written[*number as usize - 1]);
        let reason = Reason::from(*number);
        let capitals = in_capitals(&format!("{reason:?}"));
        assert_eq!((&capitals, reason.number()), (name, *number));
        assert_eq!(&reason.to_string(), comment);
    }
    let numbers: BTreeSet<u32> = declared.iter().map(|(_, number, _)| *number).collect();
    assert_eq!(numbers.len(), declared.len());
    for number in 1..=written.len() as u32 + 1 {
        let known = Reason::from(number) != Reason::Unknown(number);
        assert_eq!(known, numbers.contains(&number), "{number}");
    }
}

#[test]
fn each_text_says_what_must_hold() {
    let reasons: Vec<Reason> = declared()
        .iter()
        .map(|(_, n, _)| Reason::from(*n))
        .collect();
    let texts: BTreeSet<String> = reasons.iter().map(Reason::to_string).collect();
    assert_eq!(texts.len(), reasons.len());
    for text in texts {
        assert!(text.contains(" must "), "{text}");
    }
    let limits = "a rotary's limits must be finite, the lower below the upper";
    assert_eq!(Reason::from(8).to_string(), limits);
}

#[test]
fn a_number_that_the_crate_does_not_know() {
    let last = written().len() as u32;
    for number in [last + 1, 1000, u32::MAX] {
        let told = Told {
            number,
            at: 3,
            letter: b'A',
            count: 5,
        };
        let refusal = told.served().unwrap_err();
        assert_eq!(refusal.reason, Reason::Unknown(number));
        assert_eq!((refusal.number(), refusal.place), (number, Place::Whole));
        let text = format!("refused {number}: this version of the crate does not know the number");
        assert_eq!(refusal.to_string(), text);
    }
    assert_eq!(Reason::from(0), Reason::Unknown(0));
}
