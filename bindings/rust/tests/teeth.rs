//! The positioning profile of a Hirth table: which tooth an angle goes to, that the tip holds there, each refusal and their
//! order, and what each leaves in the joints.

mod common;

#[path = "../examples/teeth.rs"]
#[allow(dead_code)]
mod drawn_teeth;

use common::*;
use maztubel::*;
use std::fs;
use std::path::Path;

/// The pose of a C head about z, from x, that stands at so many degrees.
fn at(degrees: f64) -> Pose {
    let (sine, cosine) = degrees.to_radians().sin_cos();
    pose([10.0, 20.0, 30.0], [cosine, sine, 0.0])
}

fn snapped(chain: &Chain, pose: &Pose, hint: f64) -> f64 {
    let choice = Choice::Nearest([hint, 0.0]);
    choose_tooth(chain, pose, 0.0, choice, 1.0).unwrap().angles[0]
}

#[test]
fn each_angle_goes_to_its_nearest_half_degree() {
    let chain = head_c(X, None);
    for (degrees, tooth) in [
        (30.2, 30.0),
        (30.3, 30.5),
        (-30.2, -30.0),
        (-30.3, -30.5),
        (0.2, 0.0),
        (179.9, 180.0),
        (-179.9, -180.0),
    ] {
        let found = snapped(&chain, &at(degrees), degrees);
        assert_eq!(found.to_bits(), f64::to_bits(tooth), "{degrees}");
    }
}

/// Free angles are their hints: halves, the number below a half, zeros of both signs, and as far as limits let them go.
#[test]
fn free_angles_too() {
    let spun = head_c(Z, Some([-36_900.0, 36_900.0]));
    for (hint, tooth) in [
        (0.25, 0.5),
        (-0.25, -0.5),
        (0.25_f64.next_down(), 0.0),
        (-0.0, 0.0),
        (-0.2, 0.0),
        (35_999.75, 36_000.0),
        (-36_000.0, -36_000.0),
    ] {
        let found = snapped(&spun, &pose([0.0; 3], Z), hint);
        assert_eq!(found.to_bits(), f64::to_bits(tooth), "{hint}");
    }
}

#[test]
fn the_tip_holds() {
    let chain = tables();
    for target in arc(8) {
        let joints = choose_tooth(&chain, &target, 120.0, Choice::FirstPositive, 1.0).unwrap();
        assert!(
            joints
                .angles
                .iter()
                .all(|angle| (angle * 2.0).fract() == 0.0)
        );
        let reached = forward(&chain, &joints, 120.0).unwrap();
        for (reached, wanted) in reached.tip.iter().zip(target.tip) {
            assert!((reached - wanted).abs() < 1e-9, "{joints:?}");
        }
    }
}

fn number(chain: &Chain, pose: &Pose, tolerance: f64) -> Result<f64, u32> {
    let chosen = choose_tooth(chain, pose, 0.0, Choice::FirstPositive, tolerance);
    chosen
        .map(|joints| joints.angles[0])
        .map_err(|r| r.number())
}

/// 30.2 degrees are 0.2 from their tooth.
#[test]
fn the_tolerance_holds_exactly() {
    let chain = head_c(X, None);
    let far = |tolerance| number(&chain, &at(30.2), tolerance);
    assert_eq!(far(0.21), Ok(30.0));
    assert_eq!(far(0.19), Err(31));
    let (mut held, mut missed) = (0.21_f64, 0.19_f64);
    while missed.next_up() < held {
        let between = (held + missed) / 2.0;
        let side = if far(between).is_ok() {
            &mut held
        } else {
            &mut missed
        };
        *side = between;
    }
    assert!((held - 0.2).abs() < 1e-6);
    assert_eq!((far(held), far(held.next_down())), (Ok(30.0), Err(31)));
}

#[test]
fn limits_are_tested_again() {
    let to = |max| head_c(X, Some([0.0, max]));
    assert_eq!(number(&to(30.4), &at(30.3), 1.0), Err(31));
    assert_eq!(number(&to(30.5), &at(30.3), 1.0), Ok(30.5));
    assert_eq!(number(&to(30.2), &at(30.3), 1.0), Err(22));
}

/// Each with every later fault present.
#[test]
fn refusals_in_their_order() {
    let (good, narrow) = (head_c(X, None), head_c(X, Some([10.0, 20.4])));
    for tolerance in [0.0, -0.0, -1.0, f64::NAN, f64::INFINITY] {
        let told = flat::choose_tooth(&[], &[], -1.0, 3, &[], tolerance, &mut []);
        assert_eq!(told.number, 19, "{tolerance}");
    }
    let ask = |chain: &[u8], pose: &[f64], length: f64, hint: &[f64], joints: &mut [f64]| {
        flat::choose_tooth(chain, pose, length, flat::NEAREST, hint, 0.1, joints).number
    };
    let zero = [0.0; 6];
    assert_eq!(ask(&[], &zero, -1.0, &[], &mut [9.0; 5]), 20);
    assert_eq!(ask(&[], &zero, -1.0, &[0.0; 2], &mut [9.0; 5]), 29);
    assert_eq!(
        ask(&good.bytes(), &zero, -1.0, &[0.0; 2], &mut [9.0; 5]),
        14
    );
    assert_eq!(ask(&good.bytes(), &zero, 0.0, &[0.0; 2], &mut [9.0; 5]), 15);
    assert_eq!(number(&narrow, &pose([0.0; 3], Z), 0.1), Err(21));
    assert_eq!(number(&narrow, &at(25.0), 0.1), Err(22));
    assert_eq!(number(&narrow, &at(20.3), 1.0), Err(31));
    assert_eq!(number(&narrow, &at(19.8), 0.1), Err(31));
    assert_eq!(number(&narrow, &at(19.8), 1.0), Ok(20.0));
}

#[test]
fn what_is_left_in_the_joints() {
    let narrow = head_c(X, Some([10.0, 20.4])).bytes();
    let left = |axis: [f64; 3], tolerance: f64| {
        let mut joints = [9.0; 5];
        let pose = pose_numbers(&[pose([0.0; 3], axis)]);
        let hint = [0.0; 2];
        let told = flat::choose_tooth(&narrow, &pose, 0.0, 1, &hint, tolerance, &mut joints);
        assert_eq!((told.at, told.letter), (0, 0));
        (told.number, joints)
    };
    assert_eq!(left(at(19.9).axis, 0.0), (19, [9.0; 5]));
    assert_eq!(left(Z, 1.0), (21, [0.0; 5]));
    assert_eq!(left(at(25.0).axis, 1.0), (22, [0.0; 5]));
    assert_eq!(left(at(20.3).axis, 1.0), (31, [9.0; 5]));
    assert_eq!(left(at(19.9).axis, 1.0).0, 0);
}

/// Parallel rotaries, which paths refuse as 30, are served as `choose` serves them.
#[test]
fn parallel_rotaries_are_served() {
    let parallel = Chain {
        rotaries: vec![
            rotary(b'A', Carrier::Head, Z),
            rotary(b'C', Carrier::Head, Z),
        ],
        spindle: X,
    };
    let joints = choose_tooth(&parallel, &at(30.2), 0.0, Choice::Nearest([0.0; 2]), 0.5).unwrap();
    assert_eq!(joints.angles[0] + joints.angles[1], 30.0);
}

/// The picture in docs is the example's.
#[test]
fn the_picture() {
    let drawn = Path::new(env!("CARGO_MANIFEST_DIR")).join("../../docs/teeth.svg");
    assert_eq!(
        fs::read_to_string(drawn).unwrap(),
        drawn_teeth::picture().unwrap()
    );
}
