//! Links that meet on a path: what document 02 says of touching balls, of the order of poses and pairs, of carriers, of empty paths
//! and models, and of what is refused in which order; and the same answer wherever the inputs stand.

mod common;

#[path = "../examples/near_table.rs"]
#[allow(dead_code)]
mod near_table;

use common::fenced::{FLUSHES, Fenced};
use common::*;
use maztubel::{
    Carrier, Chain, Joints, Link, Machine, Meeting, Mount, Refusal, Solid, flat, links_meet,
};
use std::fs;
use std::path::Path;

/// A ball of just this radius about a point: a cylinder too short to count.
fn ball(name: u8, mount: Mount, middle: [f64; 3], radius: f64) -> Link {
    let solid = Solid::Cylinder {
        base: middle,
        axis: Z,
        radius,
        length: 1e-200,
    };
    Link {
        name: vec![name],
        mount,
        solid,
    }
}

/// A table C about z.
fn machine(links: Vec<Link>) -> Machine {
    Machine {
        name: b"mill".to_vec(),
        chain: Chain {
            rotaries: vec![rotary(b'C', Carrier::Table, Z)],
            spindle: Z,
        },
        links,
    }
}

fn at(x: f64) -> Joints {
    Joints {
        position: [x, 0.0, 0.0],
        angles: [0.0; 2],
    }
}

fn met(pose: usize, links: [usize; 2]) -> Result<Option<Meeting>, Refusal> {
    Ok(Some(Meeting { pose, links }))
}

fn number(answer: Result<Option<Meeting>, Refusal>) -> u32 {
    answer.unwrap_err().number()
}

/// The tool is a ball on the head, the plate one on the table, with a radius of 3 each.
fn two() -> Machine {
    machine(vec![
        ball(b'p', Mount::Table, [0.0; 3], 3.0),
        ball(b't', Mount::Head, [0.0; 3], 3.0),
    ])
}

#[test]
fn touching() {
    assert_eq!(links_meet(&two(), &[at(6.0)]), Ok(None));
    assert_eq!(links_meet(&two(), &[at(6f64.next_up())]), Ok(None));
    assert_eq!(links_meet(&two(), &[at(6f64.next_down())]), met(0, [0, 1]));
    assert_eq!(links_meet(&two(), &[at(-5.0)]), met(0, [0, 1]));
}

/// The first pose counts before the first pair, and the earlier link before the later.
#[test]
fn the_first() {
    let links = vec![
        ball(b'a', Mount::Base, [100.0, 0.0, 0.0], 1.0),
        ball(b'b', Mount::Base, [200.0, 0.0, 0.0], 1.0),
        ball(b'c', Mount::Table, [200.0, 0.0, 0.0], 1.0),
        ball(b'd', Mount::Head, [0.0; 3], 1.0),
        ball(b'e', Mount::Head, [0.0; 3], 2.0),
    ];
    let apart = machine(
        links[..4]
            .iter()
            .filter(|link| link.name != b"c")
            .cloned()
            .collect(),
    );
    assert_eq!(links_meet(&apart, &[at(0.0), at(150.0)]), Ok(None));
    assert_eq!(
        links_meet(&apart, &[at(0.0), at(200.0), at(100.0)]),
        met(1, [1, 2])
    );
    let all = machine(links);
    assert_eq!(links_meet(&all, &[at(100.0)]), met(0, [0, 3]));
    assert_eq!(links_meet(&all, &[at(0.0)]), met(0, [1, 2]));
}

/// Links of one carrier never meet; those of two carriers of one body do.
#[test]
fn carriers() {
    let both = |first, second| {
        machine(vec![
            ball(b'a', first, [0.0; 3], 1.0),
            ball(b'b', second, [0.0; 3], 1.0),
        ])
    };
    let letter = Mount::Rotary(b'C');
    for mount in [Mount::Base, Mount::Table, Mount::Head, letter] {
        assert_eq!(links_meet(&both(mount, mount), &[at(0.0)]), Ok(None));
    }
    assert_eq!(
        links_meet(&both(Mount::Table, letter), &[at(9.0)]),
        met(0, [0, 1])
    );
    assert_eq!(
        links_meet(&both(letter, Mount::Base), &[at(9.0)]),
        met(0, [0, 1])
    );
}

/// A middle goes with its table: at a quarter turn it stands elsewhere.
#[test]
fn middles_are_placed() {
    let machine = machine(vec![
        ball(b'p', Mount::Table, [10.0, 0.0, 0.0], 1.0),
        ball(b't', Mount::Head, [0.0; 3], 1.0),
    ]);
    let turned = |x, y, c| Joints {
        position: [x, y, 0.0],
        angles: [c, 0.0],
    };
    let path = [
        turned(10.0, 0.0, 90.0),
        turned(0.0, 10.0, 0.0),
        turned(0.0, 10.0, 90.0),
    ];
    assert_eq!(links_meet(&machine, &path), met(2, [0, 1]));
}

/// The ball of a box and of a cylinder, whose radii are 3 and 5.
#[test]
fn solids() {
    let solid = |name, mount, solid| Link {
        name: vec![name],
        mount,
        solid,
    };
    let of_box = Solid::Box {
        min: [1.0, 1.0, 1.0],
        max: [3.0, 5.0, 5.0],
    };
    let cylinder = Solid::Cylinder {
        base: [0.0, 3.0, -1.0],
        axis: [0.0, 0.0, 2.0],
        radius: 3.0,
        length: 8.0,
    };
    let machine = machine(vec![
        solid(b'b', Mount::Base, of_box),
        solid(b'c', Mount::Head, cylinder),
    ]);
    assert_eq!(links_meet(&machine, &[at(10.0), at(-6.0)]), Ok(None));
    assert_eq!(links_meet(&machine, &[at(-6.0), at(9.5)]), met(1, [0, 1]));
}

#[test]
fn none() {
    assert_eq!(links_meet(&two(), &[]), Ok(None));
    assert_eq!(links_meet(&machine(vec![]), &[at(0.0)]), Ok(None));
    let one = machine(two().links[..1].to_vec());
    assert_eq!(links_meet(&one, &[at(0.0)]), Ok(None));
    let all = (0..64).map(|i| ball(i, Mount::Head, [0.0; 3], 1.0));
    assert_eq!(links_meet(&machine(all.collect()), &[at(0.0)]), Ok(None));
}

/// More joint sets than any call with poses takes.
#[test]
fn long_paths() {
    let mut path = vec![at(100.0); 110_000];
    assert_eq!(links_meet(&two(), &path), Ok(None));
    path.push(at(0.0));
    assert_eq!(links_meet(&two(), &path), met(110_000, [0, 1]));
}

/// Each refusal of the question itself, the earlier one where there are two.
#[test]
fn refusals() {
    let beyond = 100_000f64.next_up();
    let mut large = two();
    large.links[1] = ball(b't', Mount::Head, [0.0, -beyond, 0.0], 3.0);
    assert_eq!(number(links_meet(&large, &[])), 17);
    assert_eq!(number(links_meet(&large, &[at(f64::NAN)])), 16);
    large.links[0].mount = Mount::Rotary(b'A');
    assert_eq!(number(links_meet(&large, &[at(f64::NAN)])), 12);
    large.chain.rotaries.clear();
    assert_eq!(number(links_meet(&large, &[at(f64::NAN)])), 3);
    assert_eq!(number(links_meet(&two(), &[at(10_000_000.1)])), 17);
    let mut far = two();
    far.chain.rotaries[0].pivot = [beyond, 0.0, 0.0];
    assert_eq!(number(links_meet(&far, &[])), 17);
}

/// Every number of a solid at 100,000 is served, and refused a place beyond, but for a cylinder's axis.
#[test]
fn sizes_of_solids() {
    let numbers = |kind: u8, slot: usize, x: f64| {
        let mut all = match kind {
            0 => [-1.0, -1.0, -1.0, 1.0, 1.0, 1.0, 0.0, 0.0],
            _ => [0.0, 0.0, 0.0, 0.0, 0.0, 1.0, 1.0, 1.0],
        };
        all[slot] = if kind == 0 && slot < 3 { -x } else { x };
        let model = [
            b"\x01\0a\x04\0base".to_vec(),
            vec![kind],
            all.map(f64::to_le_bytes).concat(),
        ];
        let chain = table_a().bytes();
        let [mut found, mut pose, mut first, mut second] = [9; 4];
        flat::links_meet(
            b"mill",
            &chain,
            &model.concat(),
            &[],
            &mut found,
            &mut pose,
            &mut first,
            &mut second,
        )
        .number
    };
    let beyond = 100_000f64.next_up();
    for slot in 0..6 {
        assert_eq!((numbers(0, slot, 1e5), numbers(0, slot, beyond)), (0, 17));
    }
    for slot in 0..8 {
        let axis = (3..6).contains(&slot);
        let refused = if axis { 0 } else { 17 };
        assert_eq!(
            (numbers(1, slot, 1e5), numbers(1, slot, beyond)),
            (0, refused)
        );
    }
}

/// Model and joints against a wall at either end.
#[test]
fn against_walls() {
    let machine = two();
    let (chain, model) = (machine.chain.bytes(), machine.model_bytes());
    let joints = [[6.0, 0.0, 0.0, 0.0, 0.0], [5.0, 0.0, 0.0, 0.0, 0.0]].concat();
    let (mut bytes, mut numbers) = (Fenced::new(model.len()), Fenced::new(8 * joints.len()));
    for flush in FLUSHES {
        let (model, joints) = (bytes.lend(&model, flush), numbers.lend(&joints, flush));
        let [mut found, mut pose, mut first, mut second] = [9; 4];
        let told = flat::links_meet(
            b"mill",
            &chain,
            model,
            joints,
            &mut found,
            &mut pose,
            &mut first,
            &mut second,
        );
        assert_eq!(
            (told.number, [found, pose, first, second]),
            (0, [1, 1, 0, 1])
        );
    }
}

/// The picture in docs is the example's.
#[test]
fn the_picture() {
    let drawn = Path::new(env!("CARGO_MANIFEST_DIR")).join("../../docs/meeting.svg");
    assert_eq!(
        fs::read_to_string(drawn).unwrap(),
        near_table::picture().unwrap()
    );
}
