//! Which links meet first on a path, as document 02 has it: the checks in its order, the balls in its rounded steps, the frames that
//! the Rust's `link_world` gives, and three plain loops. Nothing here is taken from the proved code but sine and cosine, in the Rust.

use crate::calls::{Guarded, LENT_AT, LENT_LETTER};
use crate::chains::Chain;
use crate::maztubel::{self, Machine};
use crate::models::{BOX, Link};
use crate::original::ported::kinematics::Kinematics;
use crate::reading;
use crate::reference::{
    LENGTHS_DIFFER, NOT_FINITE, Refusal, TOO_LARGE, bare, chain_fits, exceeds, finite, joints_fit,
    malformed, refusal, refused,
};
use crate::rust::{self, ported};
use std::fmt;

/// A solid's coordinates, radius and length may be as large as this.
pub const MOST_SOLID: f64 = 100_000.0;

pub const SET: usize = 5;

type Vector = [f64; 3];

/// All inputs of a call.
#[derive(Clone, Default)]
pub struct Case {
    pub name: Vec<u8>,
    pub chain: Vec<u8>,
    pub model: Vec<u8>,
    pub joints: Vec<f64>,
}

/// The pose, the earlier link and the later one.
pub type Meeting = [usize; 3];

pub type Answer = Result<Option<Meeting>, Refusal>;

/// A case behind its checks.
pub struct Checked {
    pub chain: Chain,
    pub links: Vec<Link>,
    pub balls: Vec<Ball>,
    /// Where each ball's middle is at each pose.
    pub poses: Vec<Vec<Vector>>,
}

pub fn expected(case: &Case) -> Answer {
    Ok(checked(case)?.search(|gap, sum| gap < sum).meeting)
}

/// In this order: 20, 29 of the chain and of the model, the Rust's own check of name, chain and model, 16 and 17.
pub fn checked(case: &Case) -> Result<Checked, Refusal> {
    if !case.joints.len().is_multiple_of(SET) {
        return refused(LENGTHS_DIFFER);
    }
    let chain = reading::chain(&case.chain).map_err(malformed)?;
    let links = reading::model(&case.model).map_err(malformed)?;
    let machine = rust::Machine {
        name_length: case.name.len(),
        chain: &chain,
        links: &links,
    };
    ported::check(&ported::kinematics(&machine)).map_err(|words| refusal(&words, &machine))?;
    if !finite(&case.joints) {
        return refused(NOT_FINITE);
    }
    let fit = chain_fits(&chain) && case.joints.chunks(SET).all(joints_fit);
    if !fit || !links.iter().all(solid_fits) {
        return refused(TOO_LARGE);
    }
    let rust = ported::kinematics(&bare(&chain));
    let balls: Vec<Ball> = links.iter().map(ball).collect();
    let sets = case.joints.chunks(SET);
    let poses = sets.map(|set| placed(&rust, set, &links, &balls)).collect();
    Ok(Checked {
        chain,
        links,
        balls,
        poses,
    })
}

/// A cylinder's axis has no limit, and a box has six numbers.
fn solid_fits(link: &Link) -> bool {
    let numbers = &link.numbers;
    let mut held = numbers[..3].iter().chain(match link.kind {
        BOX => &numbers[3..6],
        _ => &numbers[6..],
    });
    !held.any(|&x| exceeds(x, MOST_SOLID))
}

#[derive(Clone, Copy, Debug, PartialEq)]
pub struct Ball {
    pub middle: Vector,
    pub radius: f64,
}

/// Of a box its middle and half its diagonal; of a cylinder the middle of its length, and the root of the radius squared plus half
/// the length squared.
pub fn ball(link: &Link) -> Ball {
    let [x, y, z, i, j, k, radius, length] = link.numbers;
    let (first, second) = ([x, y, z], [i, j, k]);
    if link.kind == BOX {
        return Ball {
            middle: [0, 1, 2].map(|i| first[i] + (second[i] - first[i]) * 0.5),
            radius: gap(second, first) * 0.5,
        };
    }
    let half = length * 0.5;
    let over = 1.0 / norm(second);
    Ball {
        middle: [0, 1, 2].map(|i| first[i] + second[i] * over * half),
        radius: (radius * radius + half * half).sqrt(),
    }
}

pub fn gap(p: Vector, q: Vector) -> f64 {
    norm([0, 1, 2].map(|i| p[i] - q[i]))
}

fn norm([x, y, z]: Vector) -> f64 {
    (x * x + y * y + z * z).sqrt()
}

/// Every middle at a joint set, each by its own carrier's frame. A frame is asked for once.
fn placed(rust: &Kinematics, set: &[f64], links: &[Link], balls: &[Ball]) -> Vec<Vector> {
    let mut frames: Vec<(&[u8], Vec<f64>)> = Vec::new();
    let mut spots = Vec::with_capacity(links.len());
    for (link, ball) in links.iter().zip(balls) {
        let known = frames
            .iter()
            .position(|(carrier, _)| *carrier == link.carrier);
        let place = known.unwrap_or_else(|| {
            frames.push((&link.carrier, frame(rust, set, &link.carrier)));
            frames.len() - 1
        });
        spots.push(mapped(&frames[place].1, ball.middle));
    }
    spots
}

/// The origin and the three axes.
pub fn frame(rust: &Kinematics, set: &[f64], carrier: &[u8]) -> Vec<f64> {
    let carrier = std::str::from_utf8(carrier).expect("a carrier that passed the check");
    ported::link_world(rust, set, carrier).expect("a link that passed the check")
}

pub fn mapped(frame: &[f64], [x, y, z]: Vector) -> Vector {
    [0, 1, 2].map(|i| frame[i] + (frame[3 + i] * x + frame[6 + i] * y + frame[9 + i] * z))
}

/// What a search came to, and what it met on its way.
#[derive(Default)]
pub struct Search {
    pub meeting: Option<Meeting>,
    /// All that meet at that pose.
    pub there: Vec<[usize; 2]>,
    /// Of the pairs up to that pose, whether one has a gap of just the sum of its radii; of a place less; of a place more.
    pub touching: bool,
    pub just_nearer: bool,
    pub just_apart: bool,
    /// Whether two balls of one carrier lie in each other.
    pub of_one_carrier: bool,
}

impl Checked {
    /// Whether two links of different carriers move as one at a joint set.
    pub fn one_body(&self, set: &[f64], pair: [usize; 2]) -> bool {
        let rust = ported::kinematics(&bare(&self.chain));
        let [first, second] = pair.map(|i| frame(&rust, set, &self.links[i].carrier));
        first == second
    }

    /// Whether a cylinder's axis has a component beyond what a coordinate may have.
    pub fn long_axis(&self) -> bool {
        let axis = |link: &Link| {
            link.kind != BOX && link.numbers[3..6].iter().any(|&x| exceeds(x, MOST_SOLID))
        };
        self.links.iter().any(axis)
    }

    /// Over poses, earlier links and later ones, as far as the first pose at which two meet.
    pub fn search(&self, meets: impl Fn(f64, f64) -> bool) -> Search {
        let mut search = Search::default();
        for (pose, spots) in self.poses.iter().enumerate() {
            for first in 0..self.links.len() {
                for second in first + 1..self.links.len() {
                    let gap = gap(spots[first], spots[second]);
                    let sum = self.balls[first].radius + self.balls[second].radius;
                    if self.links[first].carrier == self.links[second].carrier {
                        search.of_one_carrier |= gap < sum;
                        continue;
                    }
                    search.touching |= gap == sum;
                    search.just_nearer |= gap.next_up() == sum;
                    search.just_apart |= gap == sum.next_up();
                    if meets(gap, sum) {
                        search.there.push([first, second]);
                    }
                }
            }
            if let Some(&[first, second]) = search.there.first() {
                search.meeting = Some([pose, first, second]);
                break;
            }
        }
        search
    }
}

/// What a call answered, and what stood afterwards in all that it was lent, between guards.
#[derive(Clone, Debug, PartialEq)]
pub struct Told {
    pub number: u32,
    /// Found, the pose, the earlier link and the later one.
    pub lent: [[u64; 3]; 4],
    pub at: [u64; 3],
    pub letter: [u8; 3],
}

impl fmt::Display for Told {
    fn fmt(&self, f: &mut fmt::Formatter<'_>) -> fmt::Result {
        let Told {
            number,
            lent,
            at,
            letter,
        } = self;
        write!(
            f,
            "number {number}, lent {lent:X?}, at {at:X?}, letter {letter:X?}"
        )
    }
}

/// Calls the export. Each input stands between guards too, and all must stand as it did afterwards.
pub fn ask(case: &Case) -> Told {
    let bytes = [&case.name, &case.chain, &case.model].map(|bytes| Guarded::bytes(bytes));
    let joints = Guarded::numbers(&case.joints);
    let [name, chain, model] = bytes.each_ref().map(Guarded::inner);
    let mut lent = [[LENT_AT; 3]; 4];
    let (mut at, mut letter) = ([LENT_AT; 3], [LENT_LETTER; 3]);
    let number = maztubel::links_meet(
        Machine { name, chain, model },
        joints.inner(),
        lent.each_mut().map(|slot| &mut slot[1]),
        &mut at[1],
        &mut letter[1],
    );
    let kept = joints.kept() && bytes.iter().all(Guarded::<u8>::kept);
    assert!(kept, "an input was written to: {case}");
    Told {
        number,
        lent,
        at,
        letter,
    }
}

/// What the call tells where it answers as it must.
pub fn telling(answer: &Answer) -> Told {
    let (number, at, lent) = match answer {
        Ok(Some([pose, first, second])) => (0, 0, [1, *pose as u64, *first as u64, *second as u64]),
        Ok(None) => (0, 0, [0; 4]),
        Err(refusal) => (refusal.number, refusal.at, [LENT_AT; 4]),
    };
    Told {
        number,
        lent: lent.map(|n| [LENT_AT, n, LENT_AT]),
        at: [LENT_AT, at, LENT_AT],
        letter: [LENT_LETTER, 0, LENT_LETTER],
    }
}

/// Every input as bits.
impl fmt::Display for Case {
    fn fmt(&self, f: &mut fmt::Formatter<'_>) -> fmt::Result {
        for (words, bytes) in [
            ("name", &self.name),
            ("chain", &self.chain),
            ("model", &self.model),
        ] {
            let digits: String = bytes.iter().map(|byte| format!("{byte:02X}")).collect();
            write!(f, "{words} [{digits}] ")?;
        }
        let joints = self.joints.iter().map(|x| format!("{:016X}", x.to_bits()));
        write!(f, "joints [{}]", joints.collect::<Vec<_>>().join(" "))
    }
}

#[cfg(test)]
mod tests {
    use super::*;
    use crate::models::CYLINDER;

    fn link(kind: u8, numbers: [f64; 8]) -> Link {
        Link {
            kind,
            numbers,
            ..Link::default()
        }
    }

    /// By hand: a box of 2 by 4 by 4, whose half diagonal is 3, and a cylinder with a half length of 4 and a rim 5 away.
    #[test]
    fn balls() {
        let of_box = ball(&link(BOX, [1.0, 1.0, 1.0, 3.0, 5.0, 5.0, 0.0, 0.0]));
        assert_eq!(
            of_box,
            Ball {
                middle: [2.0, 3.0, 3.0],
                radius: 3.0
            }
        );
        let of_cylinder = ball(&link(CYLINDER, [1.0, 2.0, 3.0, 0.0, -7.0, 0.0, 3.0, 8.0]));
        assert_eq!(
            of_cylinder,
            Ball {
                middle: [1.0, -2.0, 3.0],
                radius: 5.0
            }
        );
    }

    /// The axis alone has no limit.
    #[test]
    fn sizes() {
        let fits = |kind, slot: usize, x| {
            let mut numbers = [1.0; 8];
            numbers[slot] = x;
            solid_fits(&link(kind, numbers))
        };
        for slot in 0..8 {
            let beyond = -MOST_SOLID.next_up();
            assert!(fits(BOX, slot, -MOST_SOLID) && fits(CYLINDER, slot, MOST_SOLID));
            assert_eq!(fits(BOX, slot, beyond), slot >= 6);
            assert_eq!(fits(CYLINDER, slot, beyond), (3..6).contains(&slot));
        }
    }
}
