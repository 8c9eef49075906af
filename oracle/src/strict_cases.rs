//! What a strict division is given: divisions as they are drawn elsewhere, and two neighbours, or three to and fro,
//! about which the strict test and the old one part. Waists, of which the middle is right and a quarter wrong; whole
//! turns; tolerances that are just the gap at a quarter, or the next double below; and joints that do not change under
//! tips that lie apart.

use crate::angles::{signed, within};
use crate::chains::Chain;
use crate::divided::MOST_INSERTED;
use crate::divisions::{Division, From};
use crate::lean::Vector;
use crate::machines::{machine, usual};
use crate::paths::{JOINTS, MOST_TIP, POSE};
use crate::random::Random;
use crate::rust::ported;
use crate::stricts::{Expected, QUARTERS, expected, expected_within, items};
use crate::walks::{poses_of, walk};

/// The smallest tolerance that is drawn, but for gaps.
const LEAST: f64 = 1e-9;

/// One that nothing breaks.
const AMPLE: f64 = 1e9;

/// So many times wider tolerances are tried.
const TRIES: usize = 40;

/// With what is expected. Mostly such that few poses are inserted: where there are more the tolerances become wider.
pub fn drawn(random: &mut Random) -> (Division, Expected) {
    let mut division = any(random);
    let most = match random.below(512) {
        0..=7 => MOST_INSERTED,
        8..=47 => 300,
        _ => 48,
    };
    for _ in 0..TRIES {
        if let Some(expected) = expected_within(&division, QUARTERS, most) {
            return (division, expected);
        }
        let wider = |x: f64| (16.0 * x).clamp(LEAST, f64::MAX);
        division.tolerances = division.tolerances.map(wider);
    }
    let expected = expected(&division);
    (division, expected)
}

/// One in two is a division of given joints as it is drawn elsewhere.
fn any(random: &mut Random) -> Division {
    match random.below(8) {
        0..=3 => {
            let [_, division] = Division::drawn(random);
            division
        }
        4 | 5 => Pair::waist(random).with_part_of_a_gap(random),
        6 => Pair::any(random).at_a_border(random),
        _ => match random.below(2) {
            0 => Pair::unchanged(random).with_part_of_a_gap(random),
            _ => Pair::turned(random).with_part_of_a_gap(random),
        },
    }
}

/// Behind the last pose the first rotary turns twice: the old test passes that.
pub fn with_two_turns(mut division: Division) -> Division {
    if let From::Joints(joints) = &mut division.from {
        let (poses, count) = (division.poses.len(), joints.len());
        division.poses.extend_from_within(poses - POSE..);
        joints.extend_from_within(count - JOINTS..);
        joints[count + 3] += 720.0;
    }
    division
}

/// Two poses with their joints on a machine.
struct Pair {
    chain: Chain,
    poses: Vec<f64>,
    joints: Vec<f64>,
}

impl Pair {
    /// Joints with the poses that they reach.
    fn reached(chain: Chain, joints: Vec<f64>) -> Self {
        let poses = poses_of(&chain, &joints);
        Pair {
            chain,
            poses,
            joints,
        }
    }

    fn any(random: &mut Random) -> Self {
        match random.below(3) {
            0 => Pair::waist(random),
            1 => Pair::turned(random),
            _ => Pair::wide(random),
        }
    }

    /// Both angles by much, on which the axis goes far from the great circle.
    fn wide(random: &mut Random) -> Self {
        let from = start(random);
        let by = [(); 2].map(|()| within(400.0, random));
        Pair::reached(machine(random), [from, on(from, by)].concat())
    }

    fn waist(random: &mut Random) -> Self {
        match random.below(3) {
            0 => Pair::bend(random),
            1 => Pair::moved_to_the_middle(random),
            _ => Pair::moved_apart(random),
        }
    }

    /// A table C that turns by some degrees while the tip goes on by `way` beside its axis: at such a distance the tip
    /// crosses the chord in the middle.
    fn bend(random: &mut Random) -> Self {
        let mut chain = usual(random);
        chain.count = 1;
        chain.rotaries[0].carrier = 0;
        chain.rotaries[0].axis = [0.0, 0.0, 1.0];
        let [x, y, _] = chain.rotaries[0].pivot;
        let degrees = 30.0 + within(320.0, random).abs();
        let way = 5.0 + within(100.0, random).abs();
        let aside = 0.5 * way / (degrees / 4.0).to_radians().tan();
        let z = within(50.0, random);
        let set = |side: f64| {
            [
                x + side * way * 0.5,
                y - aside,
                z,
                side * degrees * 0.5,
                0.0,
            ]
        };
        Pair::reached(chain, [set(-1.0), set(1.0)].concat())
    }

    /// The tips moved by what the middle is off.
    fn moved_to_the_middle(random: &mut Random) -> Self {
        let from = start(random);
        let by = [(); 2].map(|()| within(120.0, random));
        let mut pair = Pair::reached(machine(random), [from, on(from, by)].concat());
        let middle: Vec<f64> = (0..JOINTS)
            .map(|i| pair.joints[i] + (pair.joints[JOINTS + i] - pair.joints[i]) * 0.5)
            .collect();
        let reached = poses_of(&pair.chain, &middle);
        let off: Vector =
            std::array::from_fn(|i| reached[i] - 0.5 * (pair.poses[i] + pair.poses[POSE + i]));
        pair.move_tips([off, off]);
        pair
    }

    /// The tips moved to opposite sides.
    fn moved_apart(random: &mut Random) -> Self {
        let size = random.one_of(&[1e-6, 0.01, 1.0, 20.0]);
        let by = [(); 2].map(|()| within(size, random));
        let from = start(random);
        let to = match random.below(2) {
            0 => on(from, by),
            _ => std::array::from_fn(|i| from[i] + random.one_of(&[0.0, 1.2e-12, 1.8e-12, 3e-12])),
        };
        let mut pair = Pair::reached(machine(random), [from, to].concat());
        let off: Vector = [(); 3].map(|()| within(size, random));
        pair.move_tips([off, off.map(|x| -x)]);
        pair
    }

    /// By whole turns, the position still.
    fn turned(random: &mut Random) -> Self {
        let chain = machine(random);
        let from = start(random);
        let mut turns = || {
            let turns = random.one_of(&[0.0, 1.0, 2.0, 2.0, 2.0, 3.0, 4.0, 4.0, 6.0, 8.0]);
            signed(360.0 * turns, random)
        };
        let by = [turns(), turns()];
        let from = from.map(f64::round);
        Pair::reached(chain, [from, on(from, by)].concat())
    }

    /// Joints that do not change, and tips apart.
    fn unchanged(random: &mut Random) -> Self {
        let from = start(random);
        let to = from.map(|x| x + random.one_of(&[0.0, 0.0, 1e-13, -2e-13]));
        let mut pair = Pair::reached(machine(random), [from, to].concat());
        let off = [(); 2].map(|()| [(); 3].map(|()| within(30.0, random)));
        pair.move_tips(off);
        pair
    }

    fn move_tips(&mut self, by: [Vector; 2]) {
        for (pose, by) in self.poses.chunks_mut(POSE).zip(by) {
            for (x, by) in pose.iter_mut().zip(by) {
                *x = (*x + by).clamp(-MOST_TIP, MOST_TIP);
            }
        }
    }

    /// The gaps of the tip and of the axis at one quarter, the middle and three quarters.
    fn gaps(&self) -> [[f64; 2]; 3] {
        let rust = ported::setup(&self.chain).kinematics;
        let items = items(&self.poses, &self.joints);
        let gaps = rust.gaps_at(items[0], items[1], [0.25, 0.5, 0.75]);
        gaps.unwrap_or([[1.0; 2]; 3])
    }

    /// Tolerances that are parts of the largest gaps at a quarter, or more.
    fn with_part_of_a_gap(self, random: &mut Random) -> Division {
        let [first, _, last] = self.gaps();
        let mut tolerance = |slot: usize| {
            let part = random.one_of(&[0.05, 0.3, 0.7, 0.99, 1.5, 1e6]);
            (part * first[slot].max(last[slot])).max(LEAST)
        };
        let tolerances = [tolerance(0), tolerance(1)];
        self.division(tolerances, random)
    }

    /// Of the tip or of the axis the tolerance is the larger gap at a quarter to the last bit, or the next double
    /// below.
    fn at_a_border(self, random: &mut Random) -> Division {
        let [first, _, last] = self.gaps();
        let slot = random.below(2) as usize;
        let gap = first[slot].max(last[slot]);
        let mut tolerances = [AMPLE; 2];
        tolerances[slot] = random.one_of(&[gap, gap.next_down()]);
        if tolerances[slot] < LEAST {
            tolerances[slot] = LEAST;
        }
        self.division(tolerances, random)
    }

    /// The two, or to and fro.
    fn division(mut self, tolerances: [f64; 2], random: &mut Random) -> Division {
        if random.below(4) == 0 {
            self.poses.extend_from_within(..POSE);
            self.joints.extend_from_within(..JOINTS);
        }
        Division {
            chain: self.chain.bytes(),
            poses: self.poses,
            from: From::Joints(self.joints),
            tolerances,
        }
    }
}

fn start(random: &mut Random) -> [f64; JOINTS] {
    match random.below(4) {
        0 => {
            let set = walk(1, random);
            let near = |i: usize| set[i].clamp(-1000.0, 1000.0);
            std::array::from_fn(near)
        }
        _ => {
            let [x, y, z] = [(); 3].map(|()| within(300.0, random));
            let [first, second] = [(); 2].map(|()| within(100.0, random));
            [x, y, z, first, second]
        }
    }
}

/// A little farther, the angles by so much.
fn on(from: [f64; JOINTS], [first, second]: [f64; 2]) -> [f64; JOINTS] {
    let [x, y, z, one, other] = from;
    [x, y, z, one + first, other + second]
}
