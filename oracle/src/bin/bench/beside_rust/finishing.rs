//! The path that is solved and divided, and the three calls on it, of the port and of the untouched Rust: passes to and fro over a part,
//! the tool tilted by 10 to 40 degrees. The tolerances are such that about as many poses are inserted as given, but for the longest
//! paths: no more than 10,000 may be.

use super::forwards::{HEAD, TABLE, rotary};
use oracle::chains::Chain;
use oracle::maztubel::{self, Course, Dispatcher, Lent, Scratch, Solved};
use oracle::original::untouched::kinematics::{FiveAxisSetup, Joints, ToolPose};
use oracle::quotes::Quote;
use oracle::rust::untouched;
use std::hint::black_box;

/// As many poses are inserted at most, of the 10,000 that may be.
const MOST_INSERTED: usize = 8000;
/// The space of an output, in poses beyond the given ones.
const MORE_SPACE: usize = 10_000;
pub const CONE: f64 = 1.0;

/// The one that stands for all, and another.
pub const TABLES: (&str, [u8; 2]) = ("tables A and C", [TABLE, TABLE]);
pub const HEAD_AND_TABLE: (&str, [u8; 2]) = ("a head A and a table C", [HEAD, TABLE]);

/// A path with its joints, and tolerances for it.
pub struct Case {
    pub words: &'static str,
    pub chain: Chain,
    pub bytes: Vec<u8>,
    pub poses: Vec<f64>,
    pub joints: Vec<f64>,
    pub tolerances: [f64; 2],
    pub inserted: usize,
}

/// What an export is lent to write to.
pub struct Space {
    poses: Vec<f64>,
    joints: Vec<f64>,
    inserted: u64,
    at: u64,
    letter: u8,
}

/// What the Rust is handed.
pub struct Handed {
    setup: FiveAxisSetup,
    poses: Vec<ToolPose>,
    joints: Vec<Joints>,
    tolerances: [f64; 2],
}

/// A call of the port, which says 0, and the Rust's, which says how many poses come out.
pub struct Entry {
    pub name: &'static str,
    pub port: fn(&Case, &mut Space) -> u32,
    pub rust: fn(&Handed) -> usize,
    /// Numbers of the outputs that the answer fills.
    pub lent: fn(&Case) -> usize,
}

pub const SOLVE: Entry = Entry {
    name: "solve_path",
    port: Case::solve,
    rust: |handed| handed.solve().len(),
    lent: |case| 5 * case.given(),
};
pub const SUBDIVIDE: Entry = Entry {
    name: "subdivide_path",
    port: Case::subdivide,
    rust: |handed| handed.subdivide(&handed.joints),
    lent: Case::divided_numbers,
};
pub const BOTH: Entry = Entry {
    name: "solve_and_divide",
    port: Case::solve_and_divide,
    rust: |handed| handed.subdivide(&handed.solve()),
    lent: Case::divided_numbers,
};

impl Case {
    /// About as many poses are inserted as given, where they may be.
    pub fn new(machine: (&'static str, [u8; 2]), count: usize) -> Self {
        let case = Case::inserting(machine, count, count.min(MOST_INSERTED));
        let rusts = case.handed().subdivide(&case.handed().joints) - case.given();
        assert_eq!(rusts, case.inserted, "the Rust inserts another number");
        case
    }

    /// The untouched Rust may insert a few more or fewer: deep down a gap is as large as a tolerance to the last bits.
    pub fn inserting(
        (words, carriers): (&'static str, [u8; 2]),
        count: usize,
        wanted: usize,
    ) -> Self {
        let (chain, poses) = (chain(carriers), poses(count));
        let setup = untouched::setup(&chain);
        let joints = untouched::solve_path(&setup, &poses, &[], CONE);
        let mut case = Case {
            words,
            bytes: chain.bytes(),
            chain,
            poses,
            joints: joints.expect("a path that is solved"),
            tolerances: [1.0; 2],
            inserted: 0,
        };
        case.tighten(wanted);
        case
    }

    /// None are inserted: every gap is well within.
    pub fn passing(machine: (&'static str, [u8; 2]), count: usize) -> Self {
        let mut case = Case::inserting(machine, count, 0);
        case.tolerances = case.tolerances.map(|x| 4.0 * x);
        case
    }

    pub fn given(&self) -> usize {
        self.poses.len() / 6
    }

    fn divided_numbers(&self) -> usize {
        (6 + 5) * (self.given() + self.inserted)
    }

    /// How many pairs of neighbours are tested.
    pub fn tests(&self) -> usize {
        self.given() - 1 + 2 * self.inserted
    }

    /// The tolerances under which about so many poses are inserted, by bisection.
    fn tighten(&mut self, wanted: usize) {
        let mut space = self.space(MORE_SPACE);
        let [mut tight, mut loose] = [1e-9f64, 10.0];
        for _ in 0..40 {
            let middle = (tight * loose).sqrt();
            self.tolerances = [middle, 10.0 * middle];
            let served = self.subdivide(&mut space) == 0;
            match served && space.inserted as usize <= wanted {
                true => loose = middle,
                false => tight = middle,
            }
        }
        // A little looser, so that no gap is as large as a tolerance to the last bits, in which libm differs.
        self.tolerances = [1.000_001 * loose, 10.000_01 * loose];
        assert_eq!(self.subdivide(&mut space), 0, "a path was refused");
        self.inserted = space.inserted as usize;
    }

    /// As it is where the time is taken.
    pub fn ample_space(&self) -> Space {
        self.space(MORE_SPACE)
    }

    /// No more than the answer takes.
    pub fn least_space(&self) -> Space {
        self.space(self.inserted)
    }

    fn space(&self, more: usize) -> Space {
        let count = self.given() + more;
        Space {
            poses: vec![0.0; 6 * count],
            joints: vec![0.0; 5 * count],
            inserted: 0,
            at: 0,
            letter: 0,
        }
    }

    pub fn handed(&self) -> Handed {
        Handed {
            setup: untouched::setup(&self.chain),
            poses: self.poses.chunks(6).map(untouched::tool_pose).collect(),
            joints: self.joints.chunks(5).map(untouched::joint_set).collect(),
            tolerances: self.tolerances,
        }
    }

    fn course(&self) -> Course<'_> {
        Course {
            chain: &self.bytes,
            poses: black_box(&self.poses),
            start: &[],
            cone: CONE,
        }
    }

    /// The space that is not needed is not lent.
    fn solve(&self, space: &mut Space) -> u32 {
        let joints = &mut space.joints[..5 * self.given()];
        maztubel::solve_path(self.course(), joints, &mut space.at, &mut space.letter)
    }

    fn solved(&self) -> Solved<'_> {
        Solved {
            chain: &self.bytes,
            poses: black_box(&self.poses),
            joints: &self.joints,
        }
    }

    pub fn subdivide(&self, space: &mut Space) -> u32 {
        maztubel::subdivide_path(self.solved(), self.tolerances, space.lent())
    }

    pub fn subdivide_strict(&self, space: &mut Space) -> u32 {
        maztubel::subdivide_strict(self.solved(), self.tolerances, space.lent())
    }

    /// Answers how many poses are inserted.
    pub fn quote(&self, scratch: &mut [Vec<f64>; 2]) -> usize {
        self.quote_by(maztubel::quote, scratch)
    }

    pub fn quote_strict(&self, scratch: &mut [Vec<f64>; 2]) -> usize {
        self.quote_by(maztubel::quote_strict, scratch)
    }

    fn quote_by(&self, quote: Quote, scratch: &mut [Vec<f64>; 2]) -> usize {
        let [joints, tips] = scratch;
        let [mut inserted, mut poses, mut evaluations, mut at] = [0; 4];
        let scratch = Scratch {
            joints,
            tips,
            inserted: &mut inserted,
            poses: &mut poses,
            evaluations: &mut evaluations,
            at: &mut at,
            letter: &mut 0,
        };
        let number = quote(self.solved(), self.tolerances, scratch);
        assert_eq!(number, 0, "a path was refused");
        inserted as usize
    }

    /// Charged to the first shop.
    pub fn divide_for(&self, balances: &mut [u64], space: &mut Space) -> u32 {
        let solved = Solved {
            chain: &self.bytes,
            poses: black_box(&self.poses),
            joints: &self.joints,
        };
        maztubel::divide_for(balances, 0, solved, self.tolerances, space.lent())
    }

    /// To a dispatcher.
    pub fn admit(&self, state: Dispatcher, space: &mut Space) -> u32 {
        let outputs = [&mut space.poses[..], &mut space.joints[..]];
        let (path, place) = (&mut space.inserted, (&mut space.at, &mut space.letter));
        maztubel::admit(state, self.solved(), self.tolerances, outputs, path, place)
    }

    fn solve_and_divide(&self, space: &mut Space) -> u32 {
        maztubel::solve_and_divide(self.course(), self.tolerances, space.lent())
    }
}

impl Space {
    /// A turn of the path that has these outputs; whether it has ended.
    pub fn turn(&mut self, state: Dispatcher) -> bool {
        let (mut path, mut ended) = (0, 0);
        let outputs = [&mut self.poses[..], &mut self.joints[..]];
        let number = maztubel::turn(state, outputs, (&mut path, &mut ended, &mut self.inserted));
        assert_eq!(number, 0, "a turn was refused");
        ended == 1
    }

    /// What the last call inserted.
    pub fn inserted(&self) -> usize {
        self.inserted as usize
    }

    fn lent(&mut self) -> Lent<'_> {
        Lent {
            poses: &mut self.poses,
            joints: &mut self.joints,
            inserted: &mut self.inserted,
            at: &mut self.at,
            letter: &mut self.letter,
        }
    }
}

impl Handed {
    fn solve(&self) -> Vec<Joints> {
        let joints = untouched::solve(&self.setup, black_box(&self.poses), None, CONE);
        black_box(joints.expect("a path that is solved"))
    }

    fn subdivide(&self, joints: &[Joints]) -> usize {
        let (poses, [chord, axis]) = (black_box(&self.poses), self.tolerances);
        let divided = untouched::subdivide(&self.setup, "p", poses, joints, chord, axis);
        let divided = black_box(divided.expect("a path that is divided"));
        divided.1.len()
    }
}

/// A within its limits about x, C about z.
fn chain(carriers: [u8; 2]) -> Chain {
    let mut chain = Chain {
        count: 2,
        zeros: [0; 7],
        rotaries: [
            rotary(b'A', carriers[0], [1.0, 0.0, 0.0]),
            rotary(b'C', carriers[1], [0.0, 0.0, 1.0]),
        ],
        spindle: [0.0, 0.0, 1.0],
        ..Chain::default()
    };
    (chain.rotaries[0].limited, chain.rotaries[0].limits) = (1, [-120.0, 120.0]);
    chain
}

fn poses(count: usize) -> Vec<f64> {
    let pose = |i: usize| {
        let (pass, along) = (i / 250, i % 250);
        let along = if pass % 2 == 0 { along } else { 249 - along };
        let (x, y) = (along as f64 * 0.5 - 60.0, pass as f64 * 0.3);
        let tilt = (25.0 + 15.0 * (i as f64 / 100.0).sin()).to_radians();
        let round = (90.0 * (i as f64 / 700.0).sin()).to_radians();
        let (sine, cosine) = tilt.sin_cos();
        let axis = [sine * round.cos(), sine * round.sin(), cosine];
        [x, y, 10.0 * sine, axis[0], axis[1], axis[2]]
    };
    (0..count).flat_map(pose).collect()
}
