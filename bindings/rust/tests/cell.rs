//! Many paths in turns: what document 02 says of numbers, turns, ends and other contents.

mod common;

#[path = "../examples/cell.rs"]
#[allow(dead_code)]
mod drawn_cell;

use common::*;
use maztubel::{
    Cell, Divided, Joints, MOST_INSERTED, MOST_PATHS, Place, Pose, Refusal, Standing, Tolerances,
    Turned, flat, subdivide_path,
};
use std::fs;
use std::path::Path;

/// Poses along an arc with joints for them.
fn path() -> (Vec<Pose>, Vec<Joints>) {
    let set = |i: usize| Joints {
        position: [i as f64, 0.0, 50.0],
        angles: [10.0 * i as f64, 0.0],
    };
    (arc(4), (0..4).map(set).collect())
}

/// Tighter by the number.
fn tolerances(path: usize) -> Tolerances {
    Tolerances {
        chord: 0.1 / f64::powi(2.0, path as i32),
        axis: 1.0,
    }
}

fn alone(path_tolerances: Tolerances) -> Divided {
    let (poses, joints) = path();
    subdivide_path(&tables(), &poses, &joints, path_tolerances).unwrap()
}

/// The outputs of a path, filled with something.
#[derive(Clone)]
struct Outputs {
    poses: Vec<Pose>,
    joints: Vec<Joints>,
}

impl Outputs {
    fn new(space: usize) -> Self {
        let joints = Joints {
            position: [9.0; 3],
            angles: [9.0; 2],
        };
        Outputs {
            poses: vec![pose([9.0; 3], [9.0; 3]); space],
            joints: vec![joints; space],
        }
    }

    fn admit(&mut self, cell: &mut Cell, tolerances: Tolerances) -> Result<usize, Refusal> {
        let (poses, joints) = path();
        let (out_poses, out_joints) = (&mut self.poses, &mut self.joints);
        cell.admit(
            &tables(),
            &poses,
            &joints,
            tolerances,
            out_poses,
            out_joints,
        )
    }

    fn turn(&mut self, cell: &mut Cell) -> Result<Option<Turned>, Refusal> {
        cell.turn(&mut self.poses, &mut self.joints)
    }

    /// Whether they hold the divided path, and +0.0 behind it.
    fn hold(&self, divided: &Divided) -> bool {
        let count = divided.poses.len();
        let rest = self.poses[count..]
            .iter()
            .all(|pose| *pose == Pose::default());
        let sets = self.joints[count..]
            .iter()
            .all(|set| *set == Joints::default());
        self.poses[..count] == divided.poses
            && self.joints[..count] == divided.joints
            && rest
            && sets
    }

    fn are_cleared(&self) -> bool {
        self.hold(&Divided::default())
    }
}

/// 16 paths in turns end as each does alone, each served again within 16 turns; a 17th is 32.
#[test]
fn sixteen_paths() {
    let mut cell = Cell::default();
    let mut outputs = vec![Outputs::new(2000); MOST_PATHS];
    for (number, outputs) in outputs.iter_mut().enumerate() {
        assert_eq!(outputs.admit(&mut cell, tolerances(number)), Ok(number));
    }
    let mut more = Outputs::new(0);
    assert_eq!(
        more.admit(&mut cell, tolerances(0)).unwrap_err().number(),
        32
    );
    let (mut since, mut ended) = ([0; MOST_PATHS], 0);
    while let Some(number) = cell.next() {
        let before = cell.count(number).unwrap();
        let turned = outputs[number].turn(&mut cell).unwrap().unwrap();
        assert_eq!(turned.path, number);
        assert!(before <= turned.inserted && turned.inserted <= before + 64);
        since = since.map(|turns| turns + 1);
        assert!(since[number] <= 16);
        since[number] = 0;
        match turned.standing {
            Standing::Waits => assert_eq!(cell.count(number), Ok(turned.inserted)),
            Standing::Divided => {
                let divided = alone(tolerances(number));
                assert!(outputs[number].hold(&divided));
                assert_eq!(turned.inserted, divided.inserted as u64);
                assert_eq!(cell.count(number).unwrap_err().number(), 33);
                ended += 1;
            }
            Standing::Refused(refusal) => panic!("{refusal}"),
        }
    }
    assert_eq!(ended, MOST_PATHS);
    assert_eq!(more.turn(&mut cell), Ok(None));
}

/// A path that has ended leaves its number, and the smallest that is free comes next.
#[test]
fn numbers_come_again() {
    let mut cell = Cell::default();
    let wide = Tolerances {
        chord: 1e6,
        axis: 180.0,
    };
    let chords = [tolerances(8), wide, wide, tolerances(8)];
    let mut outputs = vec![Outputs::new(500); 4];
    for (number, outputs) in outputs.iter_mut().enumerate() {
        assert_eq!(outputs.admit(&mut cell, chords[number]), Ok(number));
    }
    for (number, outputs) in outputs.iter_mut().enumerate().take(3) {
        assert_eq!(cell.next(), Some(number));
        outputs.turn(&mut cell).unwrap();
    }
    for number in [1, 2, 4] {
        assert_eq!(Outputs::new(500).admit(&mut cell, wide), Ok(number));
    }
    assert_eq!(cell.next(), Some(3));
}

#[test]
fn numbers_that_no_path_has() {
    let mut cell = Cell::default();
    Outputs::new(10).admit(&mut cell, tolerances(0)).unwrap();
    assert_eq!(cell.count(0), Ok(0));
    for path in [1, 15, 16, usize::MAX] {
        let refusal = cell.count(path).unwrap_err();
        assert_eq!((refusal.number(), refusal.place), (33, Place::Whole));
    }
}

/// Outputs of other lengths are 20, and nothing moves.
#[test]
fn other_lengths() {
    let mut cell = Cell::default();
    let mut outputs = [Outputs::new(300), Outputs::new(301)];
    for outputs in &mut outputs {
        outputs.admit(&mut cell, tolerances(8)).unwrap();
    }
    let before = outputs[1].clone();
    assert_eq!(outputs[1].turn(&mut cell).unwrap_err().number(), 20);
    assert!(outputs[1].poses == before.poses && outputs[1].joints == before.joints);
    assert_eq!(cell.next(), Some(0));
    let turned = outputs[0].turn(&mut cell).unwrap().unwrap();
    assert_eq!((turned.path, cell.next()), (0, Some(1)));
}

/// What a path is lent in place of its own changes no other path, and the path still ends.
#[test]
fn other_contents() {
    for number in [f64::NAN, f64::INFINITY, 1e300, -0.0] {
        let mut cell = Cell::default();
        let mut outputs = [Outputs::new(400), Outputs::new(400)];
        for outputs in &mut outputs {
            outputs.admit(&mut cell, tolerances(8)).unwrap();
        }
        outputs[0].poses.fill(pose([number; 3], [number; 3]));
        outputs[0].joints.fill(Joints {
            position: [number; 3],
            angles: [number; 2],
        });
        let mut turns = 0;
        while let Some(path) = cell.next() {
            outputs[path].turn(&mut cell).unwrap();
            turns += 1;
        }
        assert!(turns < 30);
        assert!(outputs[1].hold(&alone(tolerances(8))));
    }
}

/// Less space than given poses: 28, cleared outputs and no number. Less than is inserted: the path ends with 28, and
/// with 27 where more than 10,000 poses would be.
#[test]
fn ends_with_a_refusal() {
    let mut cell = Cell::default();
    let mut short = Outputs::new(3);
    let refusal = short.admit(&mut cell, tolerances(0)).unwrap_err();
    assert_eq!((refusal.number(), refusal.place), (28, Place::Inserted(0)));
    assert!(short.are_cleared());
    assert_eq!(cell.next(), None);
    let finest = Tolerances {
        chord: 1e-12,
        axis: 1e-9,
    };
    for (space, number, inserted) in [(10, 28, 6), (4 + MOST_INSERTED, 27, MOST_INSERTED as u64)] {
        let mut outputs = Outputs::new(space);
        assert_eq!(outputs.admit(&mut cell, finest), Ok(0));
        let mut turned = outputs.turn(&mut cell).unwrap().unwrap();
        while turned.standing == Standing::Waits {
            turned = outputs.turn(&mut cell).unwrap().unwrap();
        }
        let Standing::Refused(refusal) = turned.standing else {
            panic!("{turned:?}");
        };
        assert_eq!((refusal.number(), turned.inserted), (number, inserted));
        assert_eq!(refusal.place, Place::Inserted(inserted));
        assert!(outputs.are_cleared());
        assert_eq!(cell.next(), None);
    }
}

/// How many turns a path of so many equal poses takes: each pair is a test that passes.
fn turns_of(count: usize) -> usize {
    let (poses, joints) = path();
    let (poses, joints) = (vec![poses[0]; count], vec![joints[0]; count]);
    let (mut out_poses, mut out_joints) = (poses.clone(), joints.clone());
    let mut cell = Cell::default();
    let admitted = cell.admit(
        &tables(),
        &poses,
        &joints,
        tolerances(0),
        &mut out_poses,
        &mut out_joints,
    );
    assert_eq!(admitted, Ok(0));
    let mut turns = 0;
    while cell.next().is_some() {
        cell.turn(&mut out_poses, &mut out_joints).unwrap();
        turns += 1;
    }
    assert!(out_poses == poses && out_joints == joints);
    turns
}

#[test]
fn tests_of_a_turn() {
    let counts = [0, 1, 2, 64, 65, 66, 129, 130];
    assert_eq!(counts.map(turns_of), [1, 1, 1, 1, 1, 2, 2, 3]);
}

/// The order of an admission's checks, and states of other lengths or with other words.
#[test]
fn forged_states() {
    let admit = |words: &mut [u64], numbers: &mut [f64]| {
        let (poses, joints) = (&mut [0.0; 7], &mut [0.0; 5]);
        flat::admit(
            words,
            numbers,
            &[],
            &[],
            &[],
            0.0,
            0.0,
            poses,
            joints,
            &mut 0,
        )
        .number
    };
    for (waiting, number) in [(0, 20), (15, 20), (16, 32), (17, 32), (u64::MAX, 32)] {
        let (mut words, mut numbers) = ([0; 145], [0.0; 368]);
        words[144] = waiting;
        let before = words;
        assert_eq!(admit(&mut words, &mut numbers), number);
        assert_eq!(admit(&mut words, &mut numbers[1..]), 20);
        assert_eq!(admit(&mut words[1..], &mut numbers), 20);
        assert_eq!(words, before);
        let (mut path, mut ended) = (7, 7);
        let next = flat::next(&words, &mut path).number;
        assert_eq!(next, if waiting > 16 { 20 } else { 0 });
        let told = flat::turn(
            &mut words,
            &mut numbers,
            &mut [0.0; 6],
            &mut [0.0; 5],
            &mut path,
            &mut ended,
        );
        let number = if waiting == 0 { 0 } else { 20 };
        assert_eq!((told.number, path, ended, told.count), (number, 16, 0, 0));
        assert_eq!(words, before);
        assert_eq!(flat::count(&words, 16).number, 33);
    }
}

/// The picture in docs is the example's.
#[test]
fn the_picture() {
    let drawn = Path::new(env!("CARGO_MANIFEST_DIR")).join("../../docs/cell.svg");
    assert_eq!(
        fs::read_to_string(drawn).unwrap(),
        drawn_cell::picture().unwrap()
    );
}
