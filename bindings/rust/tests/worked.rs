//! The worked numbers of document 01, as far as a call shows them.

mod common;

use common::*;
use maztubel::*;

const TOLERANCES: Tolerances = Tolerances {
    chord: 0.5,
    axis: 0.5,
};

fn from(angle: f64) -> Start {
    Start::From(Joints {
        position: [0.0; 3],
        angles: [angle, 0.0],
    })
}

/// A turn of C, with the spindle along x, that points the tool along `axis`.
fn turned(axis: [f64; 3], start: Start) -> Result<f64, Refusal> {
    let joints = solve_path(&head_c(X, None), &[pose([0.0; 3], axis)], start, 1.0)?;
    Ok(joints[0].angles[0])
}

#[test]
fn the_example() {
    let poses = [pose([1.0, 2.0, 3.0], Z), pose([3.0, 2.0, 3.0], Z)];
    let path = solve_and_divide(&head_c(Z, None), &poses, Start::AtZero, 1.0, TOLERANCES).unwrap();
    assert_eq!(path.inserted, 0);
    let bits: Vec<[u64; 5]> = path
        .joints
        .iter()
        .map(|j| {
            let [x, y, z] = j.position.map(f64::to_bits);
            [x, y, z, j.angles[0].to_bits(), j.angles[1].to_bits()]
        })
        .collect();
    let yz = [0x4000000000000000, 0x4008000000000000, 0, 0];
    let line = |x| [x, yz[0], yz[1], yz[2], yz[3]];
    assert_eq!(bits, [line(0x3FF0000000000000), line(0x4008000000000000)]);
    assert_eq!(path.poses, poses);
}

#[test]
fn unwinding() {
    assert_eq!(turned(X, from(180.0)), Ok(360.0));
    assert_eq!(turned(X, from(-180.0)), Ok(-360.0));
    assert_eq!(turned(X, from(179.0)), Ok(0.0));
    assert_eq!(turned([-1.0, 0.0, 0.0], Start::AtZero), Ok(-180.0));
    let ten = 10f64.to_radians();
    let angle = turned([ten.cos(), ten.sin(), 0.0], from(370.0)).unwrap();
    assert!((angle - 370.0).abs() < 1e-9);
}

#[test]
fn wraps() {
    let angles = |limits| {
        let list = inverse(
            &head_c(X, limits),
            &pose([0.0; 3], [-1.0, 0.0, 0.0]),
            0.0,
            [0.0; 2],
        );
        let angles: Vec<f64> = list.unwrap().iter().map(|j| j.angles[0]).collect();
        angles
    };
    assert_eq!(angles(None), [180.0]);
    assert_eq!(
        angles(Some([-900.0, 900.0])),
        [-180.0, 180.0, -540.0, 540.0, 900.0]
    );
    let beyond = inverse(
        &head_c(X, Some([1000.0, 1001.0])),
        &pose([0.0; 3], X),
        0.0,
        [0.0; 2],
    );
    assert_eq!(beyond.unwrap_err().reason, Reason::OutsideLimits);
}

#[test]
fn the_second_hint_counts() {
    let chain = head_c(X, Some([-360.0, 360.0]));
    let nearest = |hint| {
        let target = pose([0.0; 3], [-1.0, 0.0, 0.0]);
        choose(&chain, &target, 0.0, Choice::Nearest(hint))
            .unwrap()
            .angles[0]
    };
    assert_eq!(nearest([170.0, 0.0]), 180.0);
    assert_eq!(nearest([170.0, 1e4]), -180.0);
    assert_eq!(nearest([170.0, 349.0]), 180.0);
    assert_eq!(nearest([170.0, 350.0]), -180.0);
}

#[test]
fn cones() {
    let number =
        |cone| solve_path(&head_c(Z, None), &[], Start::AtZero, cone).map_err(|r| r.number());
    assert_eq!(number(10.0), Ok(vec![]));
    assert_eq!(number(10.000000000000002), Err(18));
    assert_eq!(number(0.0), Err(18));
}

#[test]
fn half_a_turn_leaves_its_limits() {
    let chain = head_c(X, Some([0.0, 180.0]));
    let target = pose([0.0; 3], [-1.0, 0.0, 0.0]);
    assert_eq!(
        inverse(&chain, &target, 0.0, [0.0; 2]).unwrap()[0].angles[0],
        180.0
    );
    let refusal = solve_path(&chain, &[target], Start::AtZero, 1.0).unwrap_err();
    assert_eq!(refusal.place, Place::Axis(0, b'C'));
    assert_eq!(refusal.number(), 24);
}

/// The midpoint of 1 and 3 is 2, and its pose is forward's.
#[test]
fn a_midpoint() {
    let joints = [1.0, 3.0].map(|x| Joints {
        position: [x, 0.0, 0.0],
        angles: [0.0; 2],
    });
    let poses = [pose([1.0, 0.0, 0.0], Z), pose([3.0, 1.0, 0.0], Z)];
    let path = subdivide_path(
        &head_c(Z, None),
        &poses,
        &joints,
        Tolerances {
            chord: 0.4,
            axis: 1.0,
        },
    )
    .unwrap();
    assert_eq!(path.joints[1].position, [2.0, 0.0, 0.0]);
    assert_eq!(path.poses[1], pose([2.0, 0.0, 0.0], Z));
    assert_eq!(path.poses[0], poses[0]);
    assert_eq!(path.poses.last(), poses.last());
    assert_eq!(path.poses.len(), 2 + path.inserted);
}

/// The smallest case that tells the Euclidean gap from the five numbers' differences.
#[test]
fn the_gap_of_positions() {
    let mut chain = head_c(Z, None);
    chain.rotaries[0].carrier = Carrier::Table;
    chain.rotaries[0].pivot = [1e5; 3];
    let poses = [pose([0.0; 3], Z), pose([1.8e-12; 3], Z)];
    let path = solve_and_divide(
        &chain,
        &poses,
        Start::AtZero,
        1.0,
        Tolerances {
            chord: 1e-13,
            axis: 1.0,
        },
    )
    .unwrap();
    assert_eq!(path.inserted, 1);
    assert_eq!(
        path.joints[1].position.map(f64::to_bits),
        [0x3D6FAA7AB552A552; 3]
    );
    assert_eq!(path.poses[1].tip, [0.0; 3]);
}

#[test]
fn solved_then_divided_is_the_call_of_both() {
    let (chain, poses) = (tables(), arc(9));
    let tolerances = Tolerances {
        chord: 0.01,
        axis: 0.5,
    };
    let apart = solve_and_divide(&chain, &poses, Start::AtZero, 1.0, tolerances).unwrap();
    assert!(apart.inserted > 0);
    let space = apart.poses.len();
    let (mut out_poses, mut out_joints) =
        (vec![Pose::default(); space], vec![Joints::default(); space]);
    let both = solve_and_divide_into(
        &chain,
        &poses,
        Start::AtZero,
        1.0,
        tolerances,
        &mut out_poses,
        &mut out_joints,
    );
    assert_eq!(both, Ok(apart.inserted));
    assert_eq!((out_poses, out_joints), (apart.poses, apart.joints));
}

#[test]
fn zeros_of_the_four_functions() {
    let bits = |answer: Result<f64, Refusal>| answer.unwrap().to_bits();
    assert_eq!(bits(sine(-0.0)), (-0f64).to_bits());
    assert_eq!(bits(cosine(-0.0)), 1f64.to_bits());
    assert_eq!(bits(arctangent(0.0, -0.0)), 0x400921FB54442D18);
    assert_eq!(bits(arctangent(-0.0, -0.0)), 0xC00921FB54442D18);
    assert_eq!(bits(arctangent(-0.0, 0.0)), (-0f64).to_bits());
    assert_eq!(sine(800.0).map(|_| ()), Ok(()));
    for x in [800.0000000000001, f64::INFINITY, f64::NAN] {
        assert_eq!(sine(x).unwrap_err().number(), 17);
    }
}

#[test]
fn slices_are_the_single_calls() {
    let xs: Vec<f64> = (0..100).map(|i| f64::from(i) * 0.37 - 18.0).collect();
    let cs: Vec<f64> = xs.iter().map(|x| x / 19.0).collect();
    assert_eq!(
        sines(&xs).unwrap(),
        xs.iter().map(|x| sine(*x).unwrap()).collect::<Vec<_>>()
    );
    assert_eq!(
        cosines(&xs).unwrap(),
        xs.iter().map(|x| cosine(*x).unwrap()).collect::<Vec<_>>()
    );
    assert_eq!(
        arccosines(&cs).unwrap(),
        cs.iter()
            .map(|c| arccosine(*c).unwrap())
            .collect::<Vec<_>>()
    );
    let pairs = xs.iter().zip(&cs);
    assert_eq!(
        arctangents(&xs, &cs).unwrap(),
        pairs
            .map(|(y, x)| arctangent(*y, *x).unwrap())
            .collect::<Vec<_>>()
    );
}

#[test]
fn forward_undoes_inverse() {
    let (chain, target) = (tables(), arc(5)[4]);
    let list = inverse(&chain, &target, 80.0, [0.0; 2]).unwrap();
    assert!(list.len() > 1);
    for joints in list {
        let reached = forward(&chain, &joints, 80.0).unwrap();
        let near = |a: [f64; 3], b: [f64; 3]| a.iter().zip(&b).all(|(a, b)| (a - b).abs() < 1e-9);
        assert!(near(reached.tip, target.tip) && near(reached.axis, target.axis));
    }
}

#[test]
fn cable_numbers() {
    let path = |angles: &[f64]| {
        let at = |angle: &f64| Joints {
            position: [0.0; 3],
            angles: [*angle, 36_000.0],
        };
        angles.iter().map(at).collect::<Vec<_>>()
    };
    let first = |angles: &[f64]| cable_number(&tables(), &path(angles), 0).unwrap();
    assert_eq!(first(&[]), 0);
    assert_eq!(first(&[359.99999999999994, -359.99999999999994]), 0);
    assert_eq!(first(&[0.0, 360.0, -0.0]), 1);
    assert_eq!(first(&[-720.0, 719.9999999999999]), 2);
    assert_eq!(first(&[-35_999.99999999999]), 99);
    assert_eq!(first(&[36_000.0]), 100);
    let wound = path(&[0.0]);
    assert_eq!(cable_number(&tables(), &wound, 1), Ok(100));
    assert_eq!(cable_number(&tables(), &wound, 2), Ok(0));
    assert_eq!(cable_number(&head_c(Z, None), &wound, 1), Ok(0));
    assert_eq!(cable_number(&tables(), &path(&[500.0; 110_000]), 0), Ok(1));
}

/// From the rest angle, the difference rounded once: 359.9 and -0.1 are exactly less than a turn apart, in floats a turn.
#[test]
fn cable_numbers_from_a_rest_angle() {
    let turns = |angle: f64, rest: f64| {
        let mut chain = tables();
        chain.rotaries[0].rest = rest;
        let joints = Joints {
            position: [0.0; 3],
            angles: [angle, 0.0],
        };
        cable_number(&chain, &[joints], 0).unwrap()
    };
    assert_eq!(turns(359.9, -0.1), 1);
    assert_eq!(turns(720.0, 1e-14), 2);
    assert_eq!(turns(810.0, -270.0), 3);
    assert_eq!(turns(-270.0, 90.0), 1);
    assert_eq!(turns(-270.0, -90.0), 0);
    assert_eq!(turns(36_000.0, -36_000.0), 200);
    assert_eq!(turns(360.0, -0.0), 1);
}
