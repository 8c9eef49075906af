//! The packer that is independent of the library: from text to bytes, line by line, with nothing judged. It is for
//! tests, which hold the library's writer to it, and for jobs that are damaged on purpose or refused, as most of
//! examples/jobs. Every other job is written by the library (writer.rs).

use crate::lines::{Fault, Line, lines};
use crate::numbers::number_in;

/// Fields that are numbers alone, with how many they have.
const NUMBERS: [(&str, usize); 9] = [
    ("axis", 3),
    ("pivot", 3),
    ("limits", 2),
    ("rest", 1),
    ("spindle", 3),
    ("pose", 6),
    ("cone", 1),
    ("chord", 1),
    ("axis-tolerance", 1),
];

/// Fields of four bytes, with the word that stands for what the rest of the text says.
const WORDS: [(&str, &str); 4] = [
    ("chain-offset", "chain"),
    ("pose-offset", "poses"),
    ("pose-count", "all"),
    ("word", ""),
];

#[derive(Default)]
struct Packed {
    bytes: Vec<u8>,
    chain: Option<usize>,
    poses: Option<usize>,
    count: usize,
    /// Where a field stands that the rest of the text decides, its word and its line.
    open: Vec<(usize, &'static str, usize)>,
}

/// The bytes that a text stands for, a job's or not.
pub fn pack(text: &str) -> Result<Vec<u8>, Fault> {
    let mut packed = Packed::default();
    for line in lines(text) {
        packed
            .field(&line)
            .ok_or_else(|| line.fault("is not understood"))?;
    }
    packed.close()
}

impl Packed {
    fn field(&mut self, line: &Line) -> Option<()> {
        let (&field, rest) = line.words.split_first()?;
        if let Some((_, count)) = NUMBERS.iter().find(|(name, _)| *name == field) {
            self.count += usize::from(field == "pose");
            return self.numbers(rest, *count);
        }
        if let Some((_, word)) = WORDS.iter().find(|(name, _)| *name == field) {
            return self.four(rest, word, line.number);
        }
        match (field, rest) {
            ("chain:", []) => self.chain = once(self.chain, self.bytes.len())?,
            ("poses:", []) => self.poses = once(self.poses, self.bytes.len())?,
            ("count", [number]) => self.bytes.push(number.parse().ok()?),
            ("letter", [letter]) => self.bytes.push(one_byte(letter)?),
            ("carrier", [word]) => self.bytes.push(named(word, ["table", "head"])?),
            ("limited", [word]) => self.bytes.push(named(word, ["no", "yes"])?),
            ("zeros", [count]) => self.fill(count, 0)?,
            ("fill", [count, byte]) => self.fill(count, hexadecimal(byte)?)?,
            ("bytes", [_, ..]) => {
                for byte in rest {
                    self.bytes.push(hexadecimal(byte)?);
                }
            }
            _ => return None,
        }
        Some(())
    }

    fn numbers(&mut self, words: &[&str], count: usize) -> Option<()> {
        if words.len() != count {
            return None;
        }
        for word in words {
            self.bytes.extend(number_in(word)?.to_le_bytes());
        }
        Some(())
    }

    fn four(&mut self, rest: &[&str], word: &'static str, line: usize) -> Option<()> {
        let [given] = rest else { return None };
        let number: u32 = if *given == word {
            self.open.push((self.bytes.len(), word, line));
            0
        } else {
            given.parse().ok()?
        };
        self.bytes.extend(number.to_le_bytes());
        Some(())
    }

    fn fill(&mut self, count: &str, byte: u8) -> Option<()> {
        let count: usize = count.parse().ok().filter(|count| *count <= 1 << 20)?;
        self.bytes.extend(std::iter::repeat_n(byte, count));
        Some(())
    }

    fn close(mut self) -> Result<Vec<u8>, Fault> {
        for (at, word, line) in self.open {
            let value = match word {
                "chain" => self.chain,
                "poses" => self.poses,
                _ => Some(self.count),
            };
            let value = value.and_then(|value| u32::try_from(value).ok());
            let value = value.ok_or_else(|| Fault {
                line,
                words: format!("there is no line '{word}:'"),
            })?;
            self.bytes[at..at + 4].copy_from_slice(&value.to_le_bytes());
        }
        Ok(self.bytes)
    }
}

/// A place that is not there yet.
fn once(before: Option<usize>, at: usize) -> Option<Option<usize>> {
    before.is_none().then_some(Some(at))
}

fn one_byte(letter: &str) -> Option<u8> {
    match letter.as_bytes() {
        [byte] => Some(*byte),
        _ => None,
    }
}

/// One of two words, or a number.
fn named(word: &str, names: [&str; 2]) -> Option<u8> {
    match names.iter().position(|name| *name == word) {
        Some(index) => Some(index as u8),
        None => word.parse().ok(),
    }
}

fn hexadecimal(word: &str) -> Option<u8> {
    if word.len() == 2 && word.bytes().all(|c| c.is_ascii_hexdigit()) {
        return u8::from_str_radix(word, 16).ok();
    }
    None
}
