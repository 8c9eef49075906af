//! The strict division beside the old one: what it divides that the old one lets pass, what both have in common, and
//! its refusals.

mod common;

#[path = "../examples/waist.rs"]
#[allow(dead_code)]
mod waist;

use common::*;
use maztubel::*;
use std::fs;
use std::path::Path;

const TOLERANCES: Tolerances = Tolerances {
    chord: 0.5,
    axis: 0.5,
};

fn set(position: [f64; 3], c: f64) -> Joints {
    Joints {
        position,
        angles: [0.0, c],
    }
}

/// Joints with the poses that they reach on the two tables.
fn reached(joints: Vec<Joints>) -> (Vec<Pose>, Vec<Joints>) {
    let pose = |joints: &Joints| forward(&tables(), joints, 0.0).unwrap();
    (joints.iter().map(pose).collect(), joints)
}

/// The table C turns by half a turn while the tip goes on by 40 mm, 20 mm beside the axis: on its way the tip crosses
/// the chord in the middle, and is more than 3 mm off at both quarters.
fn half_a_turn() -> (Vec<Pose>, Vec<Joints>) {
    reached(vec![
        set([-20.0, -20.0, 10.0], -90.0),
        set([20.0, -20.0, 10.0], 90.0),
    ])
}

/// A tip that stays 20 mm beside the axis of a table that turns.
fn turned(degrees: f64) -> (Vec<Pose>, Vec<Joints>) {
    reached([0.0, degrees].map(|c| set([20.0, 0.0, 5.0], c)).to_vec())
}

/// How far the tip is from the chord at a part of the way between the first two poses.
fn gap((poses, joints): &(Vec<Pose>, Vec<Joints>), part: f64) -> f64 {
    let lerp = |from: f64, to: f64| from + (to - from) * part;
    let between = Joints {
        position: [0, 1, 2].map(|i| lerp(joints[0].position[i], joints[1].position[i])),
        angles: [0, 1].map(|i| lerp(joints[0].angles[i], joints[1].angles[i])),
    };
    let tip = forward(&tables(), &between, 0.0).unwrap().tip;
    let off = [0, 1, 2].map(|i| tip[i] - lerp(poses[0].tip[i], poses[1].tip[i]));
    off.iter().map(|x| x * x).sum::<f64>().sqrt()
}

type Given<'a> = &'a (Vec<Pose>, Vec<Joints>);

fn old((poses, joints): Given, tolerances: Tolerances) -> Divided {
    subdivide_path(&tables(), poses, joints, tolerances).unwrap()
}

fn strict((poses, joints): Given, tolerances: Tolerances) -> Divided {
    subdivide_strict(&tables(), poses, joints, tolerances).unwrap()
}

#[test]
fn a_waist_is_divided() {
    let given = half_a_turn();
    assert!(gap(&given, 0.5) < 1e-12);
    assert!([0.25, 0.75].iter().all(|&part| gap(&given, part) > 3.0));
    assert_eq!(old(&given, TOLERANCES).inserted, 0);
    let divided = strict(&given, TOLERANCES);
    assert_eq!(divided.inserted, 7);
    assert_eq!(divided.given, [0, 8]);
    for at in 0..8 {
        let pair = (
            divided.poses[at..at + 2].to_vec(),
            divided.joints[at..at + 2].to_vec(),
        );
        let parts = [0.25, 0.5, 0.75];
        assert!(parts.iter().all(|&part| gap(&pair, part) <= 0.5));
    }
}

/// After two whole turns the tip is back at the middle, and opposite at the quarters; after four it is back at all
/// three.
#[test]
fn whole_turns() {
    let counts = |degrees: f64| {
        let given = turned(degrees);
        [old, strict].map(|divide| divide(&given, TOLERANCES).inserted)
    };
    let [passes, divides] = counts(720.0);
    assert_eq!(passes, 0);
    assert!(divides > 0);
    assert_eq!(counts(1440.0), [0, 0]);
    let [one, other] = counts(90.0);
    assert!(0 < one && one <= other);
}

/// Bit for bit and in order, with the given poses.
#[test]
fn the_old_division_stands_in_the_strict_one() {
    let arcs = [2, 3, 8].map(|count| {
        let poses = arc(count);
        let joints = solve_path(&tables(), &poses, Start::AtZero, 1.0).unwrap();
        (poses, joints)
    });
    let others = [half_a_turn(), turned(720.0), turned(100.0)];
    for given in arcs.iter().chain(&others) {
        for chord in [10.0, 0.5, 0.05, 0.01] {
            let tolerances = Tolerances { chord, axis: 1.0 };
            let [fewer, more] = [old, strict].map(|divide| divide(given, tolerances));
            let mut among = more.joints.iter().zip(&more.poses);
            let mut found = fewer.joints.iter().zip(&fewer.poses);
            assert!(found.all(|item| among.any(|other| other == item)));
            assert!(fewer.inserted <= more.inserted);
            assert_eq!(strict(&(more.poses, more.joints), tolerances).inserted, 0);
        }
    }
}

/// Where the joints do not differ, however far the tips are apart.
#[test]
fn unchanged_joints_pass() {
    let given = (arc(2), vec![Joints::default(); 2]);
    assert_eq!(strict(&given, TOLERANCES).inserted, 0);
}

/// As the old call, number by number and place by place; but for the count that the space has room for.
#[test]
fn refusals_are_the_old_ones() {
    let (poses, joints) = half_a_turn();
    let mut broken = joints.clone();
    broken[1].angles[1] = f64::NAN;
    let mut far = joints.clone();
    far[1].angles[1] = 36_001.0;
    let mut unserved = tables();
    unserved.rotaries[1].letter = b'D';
    let mut parallel = tables();
    parallel.rotaries[1].axis = parallel.rotaries[0].axis;
    let loose = Tolerances {
        chord: 0.0,
        ..TOLERANCES
    };
    let finest = Tolerances {
        chord: 1e-9,
        axis: 1.0,
    };
    let cases = [
        (19, &unserved, &joints[1..], loose),
        (20, &unserved, &joints[1..], TOLERANCES),
        (4, &unserved, &broken[..], TOLERANCES),
        (30, &parallel, &broken[..], TOLERANCES),
        (16, &tables(), &broken[..], TOLERANCES),
        (17, &tables(), &far[..], TOLERANCES),
        (27, &tables(), &joints[..], finest),
    ];
    for (number, chain, joints, tolerances) in cases {
        let refusal = subdivide_strict(chain, &poses, joints, tolerances).unwrap_err();
        assert_eq!(refusal.number(), number);
        if number != 27 {
            let other = subdivide_path(chain, &poses, joints, tolerances);
            assert_eq!(other.unwrap_err(), refusal);
        }
    }
}

/// 28 with what there was space for, and both slices cleared.
#[test]
fn space() {
    let (poses, joints) = half_a_turn();
    for space in 0..=9 {
        let mut out_poses = vec![pose([7.25; 3], [7.25; 3]); space];
        let mut out_joints = vec![set([7.25; 3], 7.25); space + 1];
        let (out_poses, out_joints) = (&mut out_poses, &mut out_joints);
        let told = subdivide_strict_into(
            &tables(),
            &poses,
            &joints,
            TOLERANCES,
            out_poses,
            out_joints,
        );
        if space == 9 {
            assert_eq!(told, Ok(7));
            continue;
        }
        let refusal = told.unwrap_err();
        let inserted = space.saturating_sub(2) as u64;
        assert_eq!(
            (refusal.number(), refusal.place),
            (28, Place::Inserted(inserted))
        );
        assert!(out_poses.iter().all(|pose| *pose == Pose::default()));
        assert!(out_joints.iter().all(|set| *set == Joints::default()));
    }
}

/// docs/waist.svg is what the example draws.
#[test]
fn the_picture_is_the_librarys() {
    let drawn = Path::new(env!("CARGO_MANIFEST_DIR")).join("../../docs/waist.svg");
    assert_eq!(
        fs::read_to_string(drawn).unwrap(),
        waist::picture().unwrap()
    );
}
