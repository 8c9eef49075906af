//! What `links_meet` is given, drawn at random: machines of a usual size whose links meet now and then, balls that touch or miss by
//! one place, solids at the ends of what is served, and inputs that are refused.

use crate::angles::{signed, within};
use crate::chains::{self, Chain, chain_bytes, direction, slot};
use crate::joints::{MOST_ANGLE, MOST_POSITION, joints as one_set};
use crate::meetings::{Case, MOST_SOLID, SET, ball, frame, gap, mapped};
use crate::models::{self, BOX, CYLINDER, Link, model_bytes, name};
use crate::numbers::{not_finite, refused};
use crate::random::Random;
use crate::reference::bare;
use crate::rust::ported;

/// Machines are about so large, in mm.
const USUAL: f64 = 300.0;

/// The most links that a model may have.
const MOST_LINKS: usize = 64;

pub fn drawn(random: &mut Random) -> Case {
    match random.below(16) {
        0..=2 => touching(random),
        3..=4 => at_the_ends(random),
        5..=8 => harmed(random),
        _ => case(&chain(random), random),
    }
}

/// More joint sets than any call with poses takes, of which the last one alone may meet.
pub fn long(random: &mut Random) -> Case {
    let chain = chain(random);
    let links = [link(0, b"head", 1.0, random), link(1, b"base", 1.0, random)];
    let still = [5000.0, 0.0, 0.0, 10.0, 20.0];
    let mut joints = still.repeat(110_000);
    joints.extend(set(random));
    Case {
        model: models::bytes(&links),
        joints,
        ..named(&chain)
    }
}

fn named(chain: &Chain) -> Case {
    Case {
        name: b"n".to_vec(),
        chain: chain.bytes(),
        ..Case::default()
    }
}

/// Mostly with usual axes and pivots.
fn chain(random: &mut Random) -> Chain {
    let mut chain = chains::sound(random);
    if random.below(16) == 0 {
        return chain;
    }
    for rotary in &mut chain.rotaries {
        rotary.axis = match random.below(2) {
            0 => direction(random),
            _ => {
                let mut axis = [0.0; 3];
                axis[slot(random)] = signed(1.0, random);
                axis
            }
        };
        rotary.pivot = [(); 3].map(|()| within(USUAL, random).round());
    }
    chain.spindle = [0.0, 0.0, 1.0];
    chain
}

fn case(chain: &Chain, random: &mut Random) -> Case {
    let links = links(chain, random);
    let poses = random.one_of(&[0, 1, 1, 2, 3, 4, 5, 8]);
    Case {
        model: models::bytes(&links),
        joints: (0..poses).flat_map(|_| set(random)).collect(),
        ..named(chain)
    }
}

fn links(chain: &Chain, random: &mut Random) -> Vec<Link> {
    let count = match random.below(32) {
        0 => MOST_LINKS,
        1 => random.below(MOST_LINKS as u64) as usize,
        _ => random.one_of(&[0, 1, 2, 2, 2, 3, 4, 5, 7, 10]),
    };
    let size = 150.0 * 0.5f64.powi(random.below(8) as i32);
    let all = (0..count).map(|index| {
        let carrier = carrier(chain, random);
        link(index as u8, &carrier, size, random)
    });
    all.collect()
}

/// One that the chain has.
fn carrier(chain: &Chain, random: &mut Random) -> Vec<u8> {
    let rotary = random.below(u64::from(chain.count)) as usize;
    match random.below(5) {
        0 => b"base".to_vec(),
        1 => b"table".to_vec(),
        2 => b"head".to_vec(),
        _ => vec![chain.rotaries[rotary].letter],
    }
}

/// A solid of about a size, in the middle of the machine.
fn link(index: u8, carrier: &[u8], size: f64, random: &mut Random) -> Link {
    let middle = [(); 3].map(|()| within(USUAL, random));
    let mut some = || size * (0.1 + within(1.0, random).abs());
    let [x, y, z] = middle;
    let [a, b, c] = [some(), some(), some()];
    let numbers = [x - a, y - b, z - c, x + a, y + b, z + c, 0.0, 0.0];
    let link = Link {
        name: vec![b'l', index],
        carrier: carrier.to_vec(),
        kind: BOX,
        numbers,
    };
    match random.below(2) {
        0 => link,
        _ => {
            let scale = random.one_of(&[1.0, 1.0, 1.0, 1e6, 1e-9]);
            let [i, j, k] = direction(random).map(|x| x * scale);
            Link {
                kind: CYLINDER,
                numbers: [x, y, z, i, j, k, a, b],
                ..link
            }
        }
    }
}

fn set(random: &mut Random) -> [f64; SET] {
    let angle = |random: &mut Random| match random.below(4) {
        0 => 90.0 * random.below(9) as f64 - 360.0,
        1 => within(MOST_ANGLE, random),
        _ => within(180.0, random),
    };
    let [x, y, z] = [(); 3].map(|()| within(USUAL, random));
    [x, y, z, angle(random), angle(random)]
}

/// At one of the poses the balls of two links have just the sum of their radii between them, or a place more or less.
fn touching(random: &mut Random) -> Case {
    let chain = chain(random);
    let drawn = case(&chain, random);
    let mut links = links(&chain, random);
    let poses = drawn.joints.len() / SET;
    let rust = ported::kinematics(&bare(&chain));
    if links.len() < 2 || poses == 0 || ported::check(&rust).is_err() {
        return drawn;
    }
    let first = random.below(links.len() as u64 - 1) as usize;
    let second = first + 1 + random.below((links.len() - 1 - first) as u64) as usize;
    if random.below(2) == 0 {
        send_away(&mut links, [first, second]);
    }
    let set = &drawn.joints[SET * random.below(poses as u64) as usize..][..SET];
    let middles = [first, second].map(|i| ball(&links[i]).middle);
    let frames = [first, second].map(|i| frame(&rust, set, &links[i].carrier));
    let between = gap(
        mapped(&frames[0], middles[0]),
        mapped(&frames[1], middles[1]),
    );
    let sum = random.one_of(&[between, between, between.next_up(), between.next_down()]);
    let some = between * (0.1 + within(0.8, random).abs());
    if let Some(rest) = rest(sum, some) {
        make_round(&mut links[first], middles[0], some);
        make_round(&mut links[second], middles[1], rest);
    }
    Case {
        model: models::bytes(&links),
        ..drawn
    }
}

/// All but two, and from each other.
fn send_away(links: &mut [Link], but: [usize; 2]) {
    for (index, link) in links.iter_mut().enumerate() {
        if !but.contains(&index) {
            make_round(link, [5e4, 1e3 * index as f64, 0.0], 1.0);
        }
    }
}

/// A cylinder so short that its ball has just its radius, and its base for a middle.
fn make_round(link: &mut Link, [x, y, z]: [f64; 3], radius: f64) {
    link.kind = CYLINDER;
    link.numbers = [x, y, z, 0.0, 0.0, 1.0, radius, 1e-200];
}

/// What makes the sum together with `some`, rounded.
fn rest(sum: f64, some: f64) -> Option<f64> {
    let near = sum - some;
    let near = [near, near.next_up(), near.next_down()];
    near.into_iter()
        .find(|rest| *rest > 0.0 && some + rest == sum)
}

/// A number of a solid is as large as it may be, or a place larger; or an axis is larger by far, which is served.
fn at_the_ends(random: &mut Random) -> Case {
    let chain = chain(random);
    let mut links = links(&chain, random);
    let drawn = case(&chain, random);
    if links.is_empty() {
        return drawn;
    }
    let at = random.below(links.len() as u64) as usize;
    let link = &mut links[at];
    let most = random.one_of(&[MOST_SOLID, MOST_SOLID, MOST_SOLID.next_up(), 1e150]);
    match (link.kind, random.below(8)) {
        (BOX, 0..4) => link.numbers[slot(random)] = -most,
        (BOX, _) => link.numbers[3 + slot(random)] = most,
        (_, 0..2) => link.numbers[slot(random)] = signed(most, random),
        (_, 2..4) => link.numbers[3 + slot(random)] = signed(most, random),
        (_, 4..6) => link.numbers[6] = most,
        _ => link.numbers[7] = most,
    }
    Case {
        model: models::bytes(&links),
        ..drawn
    }
}

/// Some of the inputs are damaged, so that the order of the checks shows.
fn harmed(random: &mut Random) -> Case {
    let chain = chain(random);
    let mut case = case(&chain, random);
    if random.below(4) == 0 {
        case.name = name(random);
    }
    if random.below(3) == 0 {
        case.chain = chain_bytes(random);
    }
    if random.below(2) == 0 {
        case.model = model_bytes(random);
    }
    for _ in 0..random.below(3) {
        harm(&mut case.joints, random);
    }
    case
}

fn harm(joints: &mut Vec<f64>, random: &mut Random) {
    let length = joints.len() as u64;
    if length == 0 || random.below(8) == 0 {
        let more = one_set(random);
        return joints.extend(more);
    }
    let place = random.below(length) as usize;
    let most = match place % SET {
        0..3 => MOST_POSITION,
        _ => MOST_ANGLE,
    };
    match random.below(8) {
        0 => joints.truncate(place),
        1..=3 => joints[place] = not_finite(random),
        4 => joints[place] = signed(most, random),
        _ => joints[place] = refused(most, random),
    }
}
