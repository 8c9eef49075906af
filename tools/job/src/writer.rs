//! From text to bytes through the library: the lines become a job, which its proved writer judges and writes. So a text
//! says every field in the writer's order, with nothing between chain, poses and trailer.

use crate::lines::{Fault, Line, lines};
use crate::numbers::number_in;
use crate::reading::Trailer;
use maztubel::{Carrier, Chain, Job, Limits, Pose, Refusal, Rotary, Tolerances};
use std::fmt;
use std::vec::IntoIter;

/// Why there are no bytes: a line that no written job has, or what the writer answers.
#[derive(Clone, Debug, PartialEq, Eq)]
pub enum NotWritten {
    Fault(Fault),
    Refused(Refusal),
}

impl fmt::Display for NotWritten {
    fn fmt(&self, f: &mut fmt::Formatter) -> fmt::Result {
        match self {
            NotWritten::Fault(fault) => fault.fmt(f),
            NotWritten::Refused(refusal) => refusal.fmt(f),
        }
    }
}

impl From<Fault> for NotWritten {
    fn from(fault: Fault) -> NotWritten {
        NotWritten::Fault(fault)
    }
}

impl From<Refusal> for NotWritten {
    fn from(refusal: Refusal) -> NotWritten {
        NotWritten::Refused(refusal)
    }
}

/// The bytes that the library writes for the job of a text. They are those that the text stands for: a text whose
/// trailer says anything else has a fault.
pub fn write(text: &str) -> Result<Vec<u8>, NotWritten> {
    let (job, claims) = Walk::along(text).job()?;
    let bytes = job.to_bytes()?;
    let trailer = Trailer::of(&bytes).expect("a job has a trailer");
    let words = [trailer.chain, trailer.poses, trailer.count, trailer.word];
    for ((line, claimed), word) in claims.iter().zip(words) {
        if claimed.is_some_and(|claimed| claimed != word) {
            return Err(line
                .fault(format_args!("stands where the writer has {word}"))
                .into());
        }
    }
    Ok(bytes)
}

/// A field of the trailer, with its number where the text gives one.
type Claim<'a> = (Line<'a>, Option<u64>);

/// The lines that are left, and the number of the last.
struct Walk<'a> {
    rest: IntoIter<Line<'a>>,
    last: usize,
    /// Whether rotaries have rest angles: the trailer's word is 1.
    rested: bool,
}

impl<'a> Walk<'a> {
    fn along(text: &'a str) -> Walk<'a> {
        let all: Vec<Line> = lines(text).collect();
        Walk {
            last: all.last().map_or(0, |line| line.number),
            rested: all.iter().any(|line| line.words == ["word", "1"]),
            rest: all.into_iter(),
        }
    }

    fn job(&mut self) -> Result<(Job, [Claim<'a>; 4]), Fault> {
        let chain = self.chain()?;
        let poses_at = if self.comes("poses:") {
            self.label("poses:")?;
            "poses"
        } else {
            ""
        };
        let mut poses = Vec::new();
        while self.comes("pose") {
            let [x, y, z, i, j, k] = self.numbers("pose")?;
            poses.push(Pose {
                tip: [x, y, z],
                axis: [i, j, k],
            });
        }
        let claims = [
            self.claim("chain-offset", "chain")?,
            self.claim("pose-offset", poses_at)?,
            self.claim("pose-count", "all")?,
            self.claim("word", "")?,
        ];
        let [cone] = self.numbers("cone")?;
        let [chord] = self.numbers("chord")?;
        let [axis] = self.numbers("axis-tolerance")?;
        if let Some(line) = self.rest.next() {
            return Err(line.fault("stands behind the job's last line"));
        }
        let tolerances = Tolerances { chord, axis };
        Ok((
            Job {
                chain,
                poses,
                cone,
                tolerances,
            },
            claims,
        ))
    }

    fn chain(&mut self) -> Result<Chain, Fault> {
        self.label("chain:")?;
        let count = self.word("count", |word| word.parse::<u8>().ok())?;
        self.word("zeros", |word| (word == "7").then_some(()))?;
        let rotaries: Result<Vec<Rotary>, Fault> = (0..count).map(|_| self.rotary()).collect();
        Ok(Chain {
            rotaries: rotaries?,
            spindle: self.numbers("spindle")?,
        })
    }

    fn rotary(&mut self) -> Result<Rotary, Fault> {
        let letter = self.word("letter", |word| match word.as_bytes() {
            [letter] => Some(*letter),
            _ => None,
        })?;
        let carrier = self.word("carrier", |word| match word {
            "table" => Some(Carrier::Table),
            "head" => Some(Carrier::Head),
            _ => None,
        })?;
        let limited = self.word("limited", |word| match word {
            "no" => Some(false),
            "yes" => Some(true),
            _ => None,
        })?;
        self.word("zeros", |word| (word == "5").then_some(()))?;
        Ok(Rotary {
            letter,
            carrier,
            axis: self.numbers("axis")?,
            pivot: self.numbers("pivot")?,
            limits: self.limits(limited)?,
            rest: self.rest_angle()?,
        })
    }

    /// Without limits the two numbers are +0.0.
    fn limits(&mut self, limited: bool) -> Result<Option<Limits>, Fault> {
        if limited {
            let [min, max] = self.numbers("limits")?;
            return Ok(Some(Limits { min, max }));
        }
        let line = self.field("limits")?;
        match numbers_in(&line) {
            Some([0, 0]) => Ok(None),
            _ => Err(other(&line)),
        }
    }

    fn rest_angle(&mut self) -> Result<f64, Fault> {
        if !self.rested {
            return Ok(0.0);
        }
        let [rest] = self.numbers("rest")?;
        Ok(rest)
    }

    /// A whole number, or the word that stands for whatever the writer has there.
    fn claim(&mut self, field: &str, word: &str) -> Result<Claim<'a>, Fault> {
        let line = self.field(field)?;
        match line.words[..] {
            [_, given] if given == word => Ok((line, None)),
            [_, given] => match given.parse::<u32>() {
                Ok(number) => Ok((line, Some(number.into()))),
                Err(_) => Err(other(&line)),
            },
            _ => Err(other(&line)),
        }
    }

    fn numbers<const N: usize>(&mut self, field: &str) -> Result<[f64; N], Fault> {
        let line = self.field(field)?;
        let bits = numbers_in(&line).ok_or_else(|| other(&line))?;
        Ok(bits.map(f64::from_bits))
    }

    /// What the one word behind a field means.
    fn word<T>(&mut self, field: &str, meaning: fn(&str) -> Option<T>) -> Result<T, Fault> {
        let line = self.field(field)?;
        match line.words[..] {
            [_, word] => meaning(word),
            _ => None,
        }
        .ok_or_else(|| other(&line))
    }

    fn label(&mut self, label: &str) -> Result<(), Fault> {
        let line = self.field(label)?;
        match line.words[..] {
            [_] => Ok(()),
            _ => Err(other(&line)),
        }
    }

    fn comes(&self, field: &str) -> bool {
        let next = self.rest.as_slice().first();
        next.is_some_and(|line| line.words[0] == field)
    }

    /// The next line, which must have this field.
    fn field(&mut self, field: &str) -> Result<Line<'a>, Fault> {
        match self.rest.next() {
            Some(line) if line.words[0] == field => Ok(line),
            Some(line) => Err(line.fault(format_args!("stands where the writer has '{field}'"))),
            None => Err(Fault {
                line: self.last + 1,
                words: format!("the text ends where the writer has '{field}'"),
            }),
        }
    }
}

/// The bits of the numbers behind a field, if there are so many.
fn numbers_in<const N: usize>(line: &Line) -> Option<[u64; N]> {
    let bits = |word: &&str| number_in(word).map(f64::to_bits);
    let all: Option<Vec<u64>> = line.words[1..].iter().map(bits).collect();
    all?.try_into().ok()
}

fn other(line: &Line) -> Fault {
    line.fault("is not what the writer has there")
}
