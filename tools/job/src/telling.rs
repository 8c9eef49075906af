//! From bytes to text: named fields where they are, bytes elsewhere.

use crate::numbers::spelt;
use crate::reading::{POSE, ROTARY, Trailer, number};
use std::fmt::Write;

/// This many of one byte become a `fill`.
const RUN: usize = 16;

/// The text that stands for the bytes.
pub fn text_of(bytes: &[u8]) -> String {
    let mut text = String::new();
    match Trailer::of(bytes) {
        None => raw(&mut text, bytes),
        Some(trailer) => whole(&mut text, bytes, &trailer),
    }
    text
}

fn whole(text: &mut String, bytes: &[u8], trailer: &Trailer) {
    let chain = chain_end(bytes, trailer);
    let poses = poses_end(trailer, chain);
    let starts = [(trailer.chain, chain), (trailer.poses, poses)];
    let mut at = 0;
    while at < trailer.at {
        at = match (chain, poses) {
            (Some(end), _) if trailer.chain == at as u64 => {
                tell_chain(text, &bytes[at..end], trailer.rotary_length());
                end
            }
            (_, Some(end)) if trailer.poses == at as u64 => {
                tell_poses(text, &bytes[at..end]);
                end
            }
            _ => {
                let next = starts
                    .iter()
                    .filter(|(_, end)| end.is_some())
                    .map(|(start, _)| *start as usize);
                let next = next.filter(|start| *start > at).min().unwrap_or(trailer.at);
                raw(text, &bytes[at..next]);
                next
            }
        };
    }
    tell_trailer(
        text,
        bytes,
        trailer,
        [chain, poses].map(|end| end.is_some()),
    );
}

/// Where the chain ends, if it has 1 or 2 rotaries and lies before the trailer.
fn chain_end(bytes: &[u8], trailer: &Trailer) -> Option<usize> {
    let rotaries = trailer
        .rotaries(bytes)
        .filter(|rotaries| (1..=2).contains(rotaries))?;
    let end = trailer.chain as usize + trailer.chain_length(rotaries);
    (end <= trailer.at).then_some(end)
}

/// Where the poses end, if there are some, and they lie before the trailer and beside the chain.
fn poses_end(trailer: &Trailer, chain: Option<usize>) -> Option<usize> {
    let end = trailer.poses_end();
    let inside = trailer.count > 0 && end <= trailer.at as u64;
    let beside = chain.is_none_or(|chain| !trailer.overlaps(chain as u64));
    (inside && beside).then_some(end as usize)
}

fn line(text: &mut String, words: impl std::fmt::Display) {
    writeln!(text, "{words}").expect("a String takes every text");
}

fn numbers(text: &mut String, field: &str, bytes: &[u8]) {
    let words: Vec<String> = bytes
        .chunks_exact(8)
        .map(|eight| spelt(number(eight)))
        .collect();
    line(text, format_args!("{field} {}", words.join(" ")));
}

fn tell_chain(text: &mut String, chain: &[u8], rotary_length: usize) {
    line(text, "chain:");
    line(text, format_args!("count {}", chain[0]));
    zeros(text, &chain[1..8]);
    let spindle = chain.len() - 24;
    for rotary in chain[8..spindle].chunks_exact(rotary_length) {
        tell_rotary(text, rotary);
    }
    numbers(text, "spindle", &chain[spindle..]);
}

fn tell_rotary(text: &mut String, rotary: &[u8]) {
    match rotary[0] {
        b'#' => raw(text, &rotary[..1]),
        letter if letter.is_ascii_graphic() => {
            line(text, format_args!("letter {}", letter as char))
        }
        _ => raw(text, &rotary[..1]),
    }
    named(text, "carrier", rotary[1], ["table", "head"]);
    named(text, "limited", rotary[2], ["no", "yes"]);
    zeros(text, &rotary[3..8]);
    numbers(text, "axis", &rotary[8..32]);
    numbers(text, "pivot", &rotary[32..56]);
    numbers(text, "limits", &rotary[56..ROTARY]);
    if rotary.len() > ROTARY {
        numbers(text, "rest", &rotary[ROTARY..]);
    }
}

fn named(text: &mut String, field: &str, byte: u8, names: [&str; 2]) {
    match names.get(usize::from(byte)) {
        Some(name) => line(text, format_args!("{field} {name}")),
        None => line(text, format_args!("{field} {byte}")),
    }
}

fn zeros(text: &mut String, bytes: &[u8]) {
    match bytes.iter().all(|byte| *byte == 0) {
        true => line(text, format_args!("zeros {}", bytes.len())),
        false => raw(text, bytes),
    }
}

fn tell_poses(text: &mut String, poses: &[u8]) {
    line(text, "poses:");
    for pose in poses.chunks_exact(POSE) {
        numbers(text, "pose", pose);
    }
}

/// Words for the offsets where the text has their lines.
fn tell_trailer(text: &mut String, bytes: &[u8], trailer: &Trailer, [chain, poses]: [bool; 2]) {
    let mut four = |field: &str, value: u64, word: Option<&str>| match word {
        Some(word) => line(text, format_args!("{field} {word}")),
        None => line(text, format_args!("{field} {value}")),
    };
    four("chain-offset", trailer.chain, chain.then_some("chain"));
    four("pose-offset", trailer.poses, poses.then_some("poses"));
    four("pose-count", trailer.count, poses.then_some("all"));
    four("word", trailer.word, None);
    for (i, field) in ["cone", "chord", "axis-tolerance"].iter().enumerate() {
        line(
            text,
            format_args!("{field} {}", spelt(trailer.number(bytes, i))),
        );
    }
}

fn raw(text: &mut String, mut bytes: &[u8]) {
    while let [first, ..] = bytes {
        let same = bytes.iter().take_while(|byte| *byte == first).count();
        let taken = if same >= RUN {
            line(text, format_args!("fill {same} {first:02X}"));
            same
        } else {
            let taken = bytes.len().min(RUN);
            let words: Vec<String> = bytes[..taken]
                .iter()
                .map(|byte| format!("{byte:02X}"))
                .collect();
            line(text, format_args!("bytes {}", words.join(" ")));
            taken
        };
        bytes = &bytes[taken..];
    }
}
