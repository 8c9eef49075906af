//! Models as document 01 writes them in bytes, and random ones: up to two links more than a model may have, with names, carriers
//! and solids of every kind that is served, damaged in one field or in several, and cut anywhere.

use crate::angles::{signed, within};
use crate::chains::{self, push_numbers, usable_axis};
use crate::floats::{self, subnormal};
use crate::numbers::{damages, not_finite};
use crate::random::Random;

/// The longest name that is served.
const MOST_NAME: usize = 256;

pub const BOX: u8 = 0;
pub const CYLINDER: u8 = 1;

/// The fields of a link, as they stand in the bytes.
#[derive(Clone, Debug, Default, PartialEq)]
pub struct Link {
    pub name: Vec<u8>,
    pub carrier: Vec<u8>,
    pub kind: u8,
    /// A box's least and largest corner and two that are unused, or a cylinder's base, axis, radius and length.
    pub numbers: [f64; 8],
}

pub fn bytes(links: &[Link]) -> Vec<u8> {
    let mut bytes = Vec::new();
    for link in links {
        push_text(&mut bytes, &link.name);
        push_text(&mut bytes, &link.carrier);
        bytes.push(link.kind);
        push_numbers(&mut bytes, &link.numbers);
    }
    bytes
}

fn push_text(bytes: &mut Vec<u8>, text: &[u8]) {
    let length = u16::try_from(text.len()).expect("a text that its length can tell");
    bytes.extend(length.to_le_bytes());
    bytes.extend(text);
}

/// A model's bytes: mostly of whole links.
pub fn model_bytes(random: &mut Random) -> Vec<u8> {
    let mut bytes = bytes(&model(random));
    if random.below(10) == 0 {
        spoil(&mut bytes, random);
    }
    bytes
}

/// Links that are served, but for two that are too many, and for letters that the chain lacks.
pub fn sound_model(random: &mut Random) -> Vec<Link> {
    (0..count(random)).map(|i| sound(i, random)).collect()
}

/// Links, sound or damaged.
fn model(random: &mut Random) -> Vec<Link> {
    let mut links = sound_model(random);
    if links.is_empty() {
        return links;
    }
    for _ in 0..damages(random) {
        let i = random.below(links.len() as u64) as usize;
        damage(&mut links, i, random);
    }
    if random.below(16) == 0 {
        let i = random.below(links.len() as u64) as usize;
        breach(&mut links[i], random);
    }
    links
}

fn count(random: &mut Random) -> u8 {
    let many = random.below(67) as u8;
    match random.below(16) {
        0 | 1 => 0,
        2..=11 => 1 + many % 5,
        12 => many,
        13 => 6 + many % 8,
        _ => random.one_of(&[63, 64, 64, 64, 65, 66]),
    }
}

/// A link that is served, under a name that no other index gives.
fn sound(index: u8, random: &mut Random) -> Link {
    let mut name = some_bytes(random.below(8) as usize, random);
    if random.below(64) == 0 {
        name.resize(MOST_NAME - 1, b'n');
    }
    name.push(index);
    let (kind, numbers) = match random.below(2) {
        0 => (BOX, sound_box(random)),
        _ => (CYLINDER, sound_cylinder(random)),
    };
    Link {
        name,
        carrier: sound_carrier(random).to_vec(),
        kind,
        numbers,
    }
}

/// A name: of a length that is served, or of none that is.
pub fn name(random: &mut Random) -> Vec<u8> {
    let length = match random.below(24) {
        0 => 0,
        1 => MOST_NAME + 1 + random.below(100) as usize,
        2 => MOST_NAME,
        3 => 1 + random.below(MOST_NAME as u64) as usize,
        _ => 1,
    };
    some_bytes(length, random)
}

fn some_bytes(length: usize, random: &mut Random) -> Vec<u8> {
    (0..length).map(|_| random.bits() as u8).collect()
}

/// Base, table or head; a letter only seldom, since the chain may lack it.
fn sound_carrier(random: &mut Random) -> &'static [u8] {
    match random.below(64) {
        0 => letter(random),
        _ => random.one_of(&[b"base".as_slice(), b"table", b"head"]),
    }
}

fn letter(random: &mut Random) -> &'static [u8] {
    random.one_of(&[b"A".as_slice(), b"B", b"C"])
}

/// The carrier that a frame is asked of: every kind that is served, or one that never is.
pub fn carrier(random: &mut Random) -> Vec<u8> {
    match random.below(8) {
        0..=2 => sound_carrier(random).to_vec(),
        3..=6 => letter(random).to_vec(),
        _ => unknown_carrier(random),
    }
}

fn unknown_carrier(random: &mut Random) -> Vec<u8> {
    const NONE: [&[u8]; 16] = [
        b"",
        b"D",
        b"Z",
        b"a",
        b"b",
        b"@",
        b"AB",
        b"A ",
        b"Base",
        b"bas",
        b"basee",
        b"tabl",
        b"tables",
        b"hea",
        b"head\0",
        b"\xC3\x89",
    ];
    match random.below(4) {
        0 => {
            let length = random.one_of(&[1, 1, 4, 5, 300]);
            some_bytes(length, random)
        }
        _ => random.one_of(&NONE).to_vec(),
    }
}

fn sound_box(random: &mut Random) -> [f64; 8] {
    let mut numbers = [0.0; 8];
    for i in 0..3 {
        let least = coordinate(random);
        numbers[i] = least;
        numbers[i + 3] = match random.below(8) {
            0 => least.next_up(),
            1 => f64::MAX,
            _ => least + 1.0 + within(1000.0, random).abs(),
        };
    }
    numbers
}

fn sound_cylinder(random: &mut Random) -> [f64; 8] {
    let [x, y, z] = [(); 3].map(|()| coordinate(random));
    let mut axis = usable_axis(random);
    if axis.iter().all(|&x| x == 0.0) {
        axis[2] = 1.0;
    }
    let [i, j, k] = axis;
    let [radius, length] = [(); 2].map(|()| match random.below(8) {
        0 => subnormal(random).abs().next_up(),
        1 => f64::MAX,
        _ => 0.5 + within(1000.0, random).abs(),
    });
    [x, y, z, i, j, k, radius, length]
}

fn coordinate(random: &mut Random) -> f64 {
    match random.below(8) {
        0 => 0.0,
        1 => -0.0,
        2 => subnormal(random),
        3 => within(1e12, random).round(),
        _ => within(1000.0, random),
    }
}

/// Changes a field so that a check of the model refuses it.
fn damage(links: &mut [Link], i: usize, random: &mut Random) {
    let earlier = links[random.below(i as u64 + 1) as usize].name.clone();
    let link = &mut links[i];
    match random.below(8) {
        0 => link.name.clear(),
        1 => link
            .name
            .resize(random.one_of(&[257, 257, 300, 65_535]), b'n'),
        2 | 3 => link.name = earlier,
        4 => link.carrier = unknown_carrier(random),
        5 => link.carrier = letter(random).to_vec(),
        _ => damage_solid(link, random),
    }
}

fn damage_solid(link: &mut Link, random: &mut Random) {
    let used = if link.kind == BOX { 6 } else { 8 };
    let slot = random.below(used) as usize;
    match (random.below(4), link.kind) {
        (0, _) => link.numbers[slot] = not_finite(random),
        (1, _) => link.numbers[slot] = floats::any(random),
        (_, BOX) => {
            let i = slot % 3;
            let least = link.numbers[i];
            link.numbers[i + 3] = random.one_of(&[least, least.next_down(), -least, -f64::MAX]);
        }
        (2, _) => {
            let bad = [0.0, -0.0, -1.0, -f64::from_bits(1)];
            link.numbers[6 + slot % 2] = random.one_of(&bad);
        }
        _ => {
            let bad = chains::axis(random);
            let scale = random.one_of(&[0.0, 1.0, 1e200, 1e-100]);
            link.numbers[3..6].copy_from_slice(&bad.map(|x| x * scale));
        }
    }
}

/// Changes a field to one that the bytes of a link may not have.
fn breach(link: &mut Link, random: &mut Random) {
    if link.kind == BOX && random.below(4) > 0 {
        let slot = 6 + random.below(2) as usize;
        link.numbers[slot] = match random.below(4) {
            0 => signed(1.0, random),
            1 => not_finite(random),
            _ => -0.0,
        };
    } else {
        link.kind = 2 + random.below(254) as u8;
    }
}

/// Cuts the bytes anywhere, puts some behind them, or changes one.
fn spoil(bytes: &mut Vec<u8>, random: &mut Random) {
    let place = random.below(bytes.len() as u64 + 1) as usize;
    match random.below(4) {
        0 | 1 => bytes.truncate(place),
        2 => {
            let length = 1 + random.below(90) as usize;
            bytes.extend(some_bytes(length, random));
        }
        _ => {
            if let Some(byte) = bytes.get_mut(place) {
                *byte = random.bits() as u8;
            }
        }
    }
}
