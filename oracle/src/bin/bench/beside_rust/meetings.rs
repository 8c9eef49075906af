//! links_meet on a path on which no two links meet, so that every pair is tested at every pose: through the export, beside plain Rust
//! that works the balls out once, asks the untouched `link_world` for each carrier's frame once a pose, and goes over the pairs.

use super::forwards::{HEAD, TABLE, chain, joint_sets};
use crate::rows::{GROWN, Row, Section};
use crate::timing::of_both;
use oracle::chains::Chain;
use oracle::maztubel::{self, Machine};
use oracle::meetings::{Ball, ball, gap, mapped};
use oracle::models::{self, BOX, CYLINDER, Link};
use oracle::random::Random;
use oracle::rust::untouched;
use oracle::{reference, rust};
use std::hint::black_box;

const POSES: usize = 1000;

/// Poses in all rounds.
const CALLS: usize = 400 * POSES;

const NAME: &[u8] = b"mill";

/// A head A and a table C: every carrier has a frame of its own.
const CARRIERS: [&[u8]; 5] = [b"base", b"table", b"head", b"A", b"C"];

pub fn section() -> Section {
    let row = |links| beside(&format!("a pose, {links} links"), links, POSES);
    Section {
        title: "Links that meet",
        unit: "Best of many rounds over a path of 1,000 joint sets on which none meet, ns a pose:",
        other: "Rust",
        rows: vec![row(2), row(10).asked("at most 2,000 ns"), row(64)],
    }
}

pub fn grown() -> Vec<Row> {
    GROWN
        .map(|poses| beside("a pose, 10 links", 10, poses))
        .to_vec()
}

fn beside(words: &str, links: usize, poses: usize) -> Row {
    let chain = chain(&[HEAD, TABLE]);
    let links: Vec<Link> = (0..links).map(link).collect();
    let joints = joint_sets(poses, &mut Random::new(4));
    let model = models::bytes(&links);
    let bytes = chain.bytes();
    let port = || {
        let machine = Machine {
            name: NAME,
            chain: &bytes,
            model: &model,
        };
        assert!(!exported(machine, black_box(joints.as_flattened())));
    };
    let rust = || assert_eq!(plain(&chain, &links, black_box(&joints)), None);
    let [port, rust] = of_both(CALLS, poses, port, rust);
    Row::new("links_meet", words, poses, port, rust)
}

/// Small, and far from those of other carriers.
fn link(index: usize) -> Link {
    let carrier = index % CARRIERS.len();
    let far = 20_000.0 * carrier as f64;
    let near = 5.0 * (index / CARRIERS.len()) as f64;
    let (kind, numbers) = match index % 2 {
        0 => (BOX, [far, near, 0.0, far + 3.0, near + 2.0, 1.0, 0.0, 0.0]),
        _ => (CYLINDER, [far, near, 0.0, 0.3, 0.4, 0.5, 2.0, 7.0]),
    };
    Link {
        name: vec![b'l', index as u8],
        carrier: CARRIERS[carrier].to_vec(),
        kind,
        numbers,
    }
}

fn exported(machine: Machine, joints: &[f64]) -> bool {
    let [mut found, mut pose, mut first, mut second] = [9; 4];
    let (mut at, mut letter) = (9, 9);
    let lent = [&mut found, &mut pose, &mut first, &mut second];
    let told = maztubel::links_meet(machine, joints, lent, &mut at, &mut letter);
    assert_eq!(told, 0, "the path was refused");
    found == 1
}

/// With the Rust's own check of the machine first.
#[inline(never)]
fn plain(chain: &Chain, links: &[Link], joints: &[[f64; 5]]) -> Option<[usize; 3]> {
    let whole = untouched::kinematics(&rust::Machine {
        name_length: NAME.len(),
        chain,
        links,
    });
    untouched::check(&whole).expect("a machine that is served");
    let bare = untouched::kinematics(&reference::bare(chain));
    let balls: Vec<Ball> = links.iter().map(ball).collect();
    let carriers = CARRIERS.map(|carrier| std::str::from_utf8(carrier).expect("a text"));
    let mut spots = vec![[0.0; 3]; links.len()];
    for (pose, set) in joints.iter().enumerate() {
        let frames = carriers.map(|carrier| {
            let frame = untouched::link_world(&bare, set, carrier);
            frame.expect("a carrier that the chain has")
        });
        for (index, (spot, ball)) in spots.iter_mut().zip(&balls).enumerate() {
            *spot = mapped(&frames[index % CARRIERS.len()], ball.middle);
        }
        if let Some([first, second]) = first_pair(links, &balls, &spots) {
            return Some([pose, first, second]);
        }
    }
    None
}

fn first_pair(links: &[Link], balls: &[Ball], spots: &[[f64; 3]]) -> Option<[usize; 2]> {
    for first in 0..links.len() {
        for second in first + 1..links.len() {
            let sum = balls[first].radius + balls[second].radius;
            let apart = first % CARRIERS.len() != second % CARRIERS.len();
            if apart && gap(spots[first], spots[second]) < sum {
                return Some([first, second]);
            }
        }
    }
    None
}
