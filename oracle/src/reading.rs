//! Bytes read as document 01 has them, for the answers that are expected: a chain's, and a model's. Where a field is bad its
//! offset is the answer; what a check of the Rust refuses later is no concern here.

use crate::chains::{Chain, Rotary};
use crate::models::{BOX, CYLINDER, Link};

/// What is read, or the offset of the first bad field.
pub type Read<T> = Result<T, usize>;

/// A chain alone in its bytes. Of a count other than 1 or 2 nothing more is read: the chain check refuses it.
pub fn chain(bytes: &[u8]) -> Read<Chain> {
    let count = *bytes.first().ok_or(0usize)?;
    let mut chain = Chain {
        count,
        ..Chain::default()
    };
    if count != 1 && count != 2 {
        return Ok(chain);
    }
    let rotaries = usize::from(count);
    chain.rested = bytes.len() == 32 + 80 * rotaries;
    let spindle = 8 + chain.record() * rotaries;
    if bytes.len() != spindle + 24 {
        return Err(0);
    }
    zeros(bytes, 1..8)?;
    for i in 0..rotaries {
        let start = 8 + chain.record() * i;
        chain.rotaries[i] = rotary(bytes, start)?;
        if chain.rested {
            [chain.rotaries[i].rest] = numbers(bytes, start + 72);
        }
    }
    chain.spindle = numbers(bytes, spindle);
    Ok(chain)
}

/// The rotary that begins at `start`, without its rest angle. Its letter is not judged.
fn rotary(bytes: &[u8], start: usize) -> Read<Rotary> {
    let carrier = zero_or_one(bytes, start + 1)?;
    let limited = zero_or_one(bytes, start + 2)?;
    zeros(bytes, start + 3..start + 8)?;
    let limits: [f64; 2] = numbers(bytes, start + 56);
    for (limit, at) in limits.iter().zip([start + 56, start + 64]) {
        if limited == 0 && limit.to_bits() != 0 {
            return Err(at);
        }
    }
    Ok(Rotary {
        letter: bytes[start],
        carrier,
        limited,
        zeros: [0; 5],
        axis: numbers(bytes, start + 8),
        pivot: numbers(bytes, start + 32),
        limits,
        rest: 0.0,
    })
}

fn zeros(bytes: &[u8], mut places: std::ops::Range<usize>) -> Read<()> {
    match places.find(|&at| bytes[at] != 0) {
        Some(at) => Err(at),
        None => Ok(()),
    }
}

fn zero_or_one(bytes: &[u8], at: usize) -> Read<u8> {
    match bytes[at] {
        byte @ (0 | 1) => Ok(byte),
        _ => Err(at),
    }
}

fn numbers<const N: usize>(bytes: &[u8], start: usize) -> [f64; N] {
    std::array::from_fn(|i| {
        let at = start + 8 * i;
        f64::from_le_bytes(bytes[at..at + 8].try_into().expect("8 bytes"))
    })
}

/// Links to the end of the bytes.
pub fn model(bytes: &[u8]) -> Read<Vec<Link>> {
    let mut cursor = Cursor { bytes, at: 0 };
    let mut links = Vec::new();
    while cursor.at < bytes.len() {
        links.push(cursor.link()?);
    }
    Ok(links)
}

struct Cursor<'a> {
    bytes: &'a [u8],
    at: usize,
}

impl<'a> Cursor<'a> {
    fn link(&mut self) -> Read<Link> {
        let name = self.text()?.to_vec();
        let carrier = self.text()?.to_vec();
        let kind_at = self.at;
        let kind = self.take(1, kind_at)?[0];
        if kind != BOX && kind != CYLINDER {
            return Err(kind_at);
        }
        let mut numbers = [0.0; 8];
        for (i, number) in numbers.iter_mut().enumerate() {
            let at = self.at;
            let bits = u64::from_le_bytes(self.take(8, at)?.try_into().expect("8 bytes"));
            if kind == BOX && i >= 6 && bits != 0 {
                return Err(at);
            }
            *number = f64::from_bits(bits);
        }
        Ok(Link {
            name,
            carrier,
            kind,
            numbers,
        })
    }

    /// A text that passes the end is its length's fault.
    fn text(&mut self) -> Read<&'a [u8]> {
        let field = self.at;
        let length = u16::from_le_bytes(self.take(2, field)?.try_into().expect("2 bytes"));
        self.take(usize::from(length), field)
    }

    /// The next bytes, or the fault of the field at `field` where there are fewer.
    fn take(&mut self, length: usize, field: usize) -> Read<&'a [u8]> {
        let taken = self.bytes.get(self.at..self.at + length).ok_or(field)?;
        self.at += length;
        Ok(taken)
    }
}

#[cfg(test)]
mod tests {
    use super::*;
    use crate::chains::sound;
    use crate::models;
    use crate::random::Random;

    #[test]
    fn a_chain_is_read_as_it_was_written() {
        let mut random = Random::new(1);
        for _ in 0..1000 {
            let written = sound(&mut random);
            let read = chain(&written.bytes()).expect("a sound chain");
            assert_eq!(read.bytes(), written.bytes());
        }
    }

    /// Each byte of a chain without limits, in turn, made a bad one, with rest angles and without.
    #[test]
    fn a_chain_faults_at_its_bad_byte() {
        let mut sound = sound(&mut Random::new(1));
        sound.count = 2;
        for rotary in &mut sound.rotaries {
            (rotary.limited, rotary.limits) = (0, [0.0; 2]);
        }
        for rested in [false, true] {
            sound.rested = rested;
            let (record, length) = (sound.record(), sound.bytes().len());
            for at in 1..length {
                let mut bytes = sound.bytes();
                bytes[at] = 0xFF;
                let place = (at - at.min(8)) % record;
                let expected = match (at, place) {
                    (..8, _) => Err(at),
                    _ if at >= length - 24 => Ok(()),
                    (_, 1..8) => Err(at),
                    (_, 56..72) => Err(at / 8 * 8),
                    _ => Ok(()),
                };
                assert_eq!(chain(&bytes).map(|_| ()), expected, "byte {at}");
            }
            assert_eq!(chain(&sound.bytes()[..length - 1]), Err(0));
        }
        assert_eq!(chain(&[]), Err(0));
        assert_eq!(chain(&[7]).map(|chain| chain.count), Ok(7));
    }

    /// A cylinder and a box, cut at each place: the fault is the field that the cut goes through, a text's at its length.
    #[test]
    fn a_model_faults_where_it_is_cut() {
        let link = |kind| Link {
            name: b"ab".to_vec(),
            carrier: b"base".to_vec(),
            kind,
            numbers: [0.0; 8],
        };
        let links = [link(CYLINDER), link(BOX)];
        let bytes = models::bytes(&links);
        assert_eq!(model(&bytes).as_deref(), Ok(&links[..]));
        for cut in 0..bytes.len() {
            let (start, rest) = (cut / 75 * 75, cut % 75);
            let field = match rest {
                0..4 => 0,
                4..10 => 4,
                10 => 10,
                _ => 11 + (rest - 11) / 8 * 8,
            };
            let expected = if rest == 0 {
                Ok(start / 75)
            } else {
                Err(start + field)
            };
            assert_eq!(model(&bytes[..cut]).map(|links| links.len()), expected);
        }
    }

    #[test]
    fn an_unused_number_is_positive_zero() {
        let mut link = Link {
            kind: BOX,
            ..Link::default()
        };
        for slot in [7, 6] {
            link.numbers[slot] = -0.0;
            assert_eq!(model(&models::bytes(&[link.clone()])), Err(5 + 8 * slot));
        }
    }
}
