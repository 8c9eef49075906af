//! The intended differences of docs/DIFFERENCES.md, each at its smallest input: what the untouched Rust serves there, and the number
//! that the export refuses it with; at a stop in the cone the other way round. Of a size the smallest input is the next double above
//! its limit, at which both still agree.
//! The machine is that of document 01's example, a head C about the spindle, with its pivot and all joints at zero.

use crate::calls;
use crate::cases::{Case, Entry, FRAME, POSE};
use crate::chains::Chain;
use crate::divided;
use crate::divisions::{Division, From};
use crate::inverse_calls;
use crate::inverse_cases;
use crate::maztubel;
use crate::paths::{JOINTS, Path};
use crate::reference::bare;
use crate::rust::untouched;
use crate::solved::{self, MOST_POSES};

/// The limits of size of demand 2: of a tip, a pivot and a tool, of a position, and of an angle.
const LENGTH: f64 = 100_000.0;
const POSITION: f64 = 10_000_000.0;
const ANGLE: f64 = 36_000.0;

/// A tip of zero and the axis of the spindle.
const AT_REST: [f64; POSE] = [0.0, 0.0, 0.0, 0.0, 0.0, 1.0];

/// Served by both, as by the Rust alone with a number of the export.
const BOTH: (bool, u32) = (true, 0);

fn rust_alone(number: u32) -> (bool, u32) {
    (true, number)
}

fn head(pivot: f64) -> Chain {
    let mut chain = Chain {
        count: 1,
        spindle: [0.0, 0.0, 1.0],
        ..Chain::default()
    };
    let rotary = &mut chain.rotaries[0];
    (rotary.letter, rotary.carrier) = (b'C', 1);
    (rotary.axis, rotary.pivot[0]) = ([0.0, 0.0, 1.0], pivot);
    chain
}

/// Whether the Rust serves it, and the number of the export.
fn forward(pivot: f64, joints: [f64; JOINTS], tool: f64) -> (bool, u32) {
    let chain = head(pivot);
    let case = Case {
        chain: chain.bytes(),
        joints: joints.to_vec(),
        tool_length: tool,
        room: POSE,
        ..Case::default()
    };
    let rust = untouched::forward(&untouched::kinematics(&bare(&chain)), &joints, tool);
    (rust.is_ok(), calls::ask(Entry::Forward, &case).number)
}

fn frame(pivot: f64, joints: [f64; JOINTS]) -> (bool, u32) {
    let chain = head(pivot);
    let case = Case {
        name: b"n".to_vec(),
        chain: chain.bytes(),
        joints: joints.to_vec(),
        carrier: b"head".to_vec(),
        room: FRAME,
        ..Case::default()
    };
    let rust = untouched::link_world(&untouched::kinematics(&bare(&chain)), &joints, "head");
    let numbers =
        [Entry::LinkWorld, Entry::LinkInPart].map(|entry| calls::ask(entry, &case).number);
    assert_eq!(numbers[0], numbers[1]);
    (rust.is_ok(), numbers[0])
}

fn inverse(pivot: f64, tip: f64, tool: f64, hint: [f64; 2]) -> (bool, u32) {
    inverse_on(head(pivot), tip, tool, hint)
}

fn inverse_on(chain: Chain, tip: f64, tool: f64, hint: [f64; 2]) -> (bool, u32) {
    let pose = [&[tip], &AT_REST[1..]].concat();
    let case = inverse_cases::Case {
        chain: chain.bytes(),
        pose: pose.clone(),
        tool_length: tool,
        hint: hint.to_vec(),
        choice: 0,
        missing: 0,
    };
    let rust = untouched::kinematics(&bare(&chain));
    let served = untouched::inverse(&rust, &pose, tool, hint).is_ok();
    assert_eq!(
        untouched::choose(&rust, &pose, tool, 0, hint).is_ok(),
        served
    );
    let numbers = inverse_cases::Entry::ALL.map(|entry| inverse_calls::ask(entry, &case).number);
    assert_eq!(numbers[0], numbers[1]);
    (served, numbers[0])
}

fn solve(chain: Chain, poses: Vec<f64>, start: &[f64]) -> (bool, u32) {
    let path = Path {
        chain: chain.bytes(),
        room: poses.len() / POSE * JOINTS,
        poses,
        start: start.to_vec(),
        cone: 1.0,
    };
    let rust = untouched::solve_path(&untouched::setup(&chain), &path.poses, &path.start, 1.0);
    (rust.is_ok(), solved::ask(&path).number)
}

fn divide(pivot: f64, poses: Vec<f64>, joints: Vec<f64>) -> (bool, u32) {
    divide_on(head(pivot), poses, joints)
}

fn divide_on(chain: Chain, poses: Vec<f64>, joints: Vec<f64>) -> (bool, u32) {
    let rust = untouched::subdivide_path(&untouched::setup(&chain), &poses, &joints, [0.5; 2]);
    let rooms = [poses.len(), joints.len()];
    let division = Division {
        chain: chain.bytes(),
        poses,
        from: From::Joints(joints),
        tolerances: [0.5; 2],
    };
    (rust.is_ok(), divided::ask(&division, rooms).told.number)
}

/// One joint set that is zero but for one number.
fn only<const N: usize>(place: usize, number: f64) -> [f64; N] {
    let mut numbers = [0.0; N];
    numbers[place] = number;
    numbers
}

fn at_tip(tip: f64) -> Vec<f64> {
    [&[tip], &AT_REST[1..]].concat()
}

#[test]
fn four_functions() {
    assert_eq!(maztubel::sine(800.0).map(|_| 0), Ok(0));
    assert_eq!(maztubel::sine(800f64.next_up()), Err(17));
    assert_eq!(maztubel::cosine(800f64.next_up()), Err(17));
    assert!(800f64.next_up().sin().is_finite());
    assert_eq!(maztubel::arctangent(f64::INFINITY, 1.0), Err(17));
    assert!(f64::INFINITY.atan2(1.0).is_finite());
    assert_eq!(maztubel::arccosine(1f64.next_up()), Err(17));
    assert!(1f64.next_up().acos().is_nan());
}

#[test]
fn forwards() {
    let rest = [0.0; JOINTS];
    assert_eq!(forward(LENGTH, rest, LENGTH), BOTH);
    assert_eq!(forward(LENGTH.next_up(), rest, 0.0), rust_alone(17));
    assert_eq!(forward(0.0, rest, LENGTH.next_up()), rust_alone(17));
    for (place, most) in [(0, POSITION), (3, ANGLE), (4, ANGLE)] {
        assert_eq!(forward(0.0, only(place, most), 0.0), BOTH);
        assert_eq!(
            forward(0.0, only(place, most.next_up()), 0.0),
            rust_alone(17)
        );
    }
    assert_eq!(forward(0.0, only(4, f64::NAN), 0.0), rust_alone(16));
}

#[test]
fn frames() {
    let rest = [0.0; JOINTS];
    assert_eq!(frame(LENGTH, rest), BOTH);
    assert_eq!(frame(LENGTH.next_up(), rest), rust_alone(17));
    for (place, most) in [(0, POSITION), (3, ANGLE), (4, ANGLE)] {
        assert_eq!(frame(0.0, only(place, most)), BOTH);
        assert_eq!(frame(0.0, only(place, most.next_up())), rust_alone(17));
    }
    assert_eq!(frame(0.0, only(4, f64::NAN)), rust_alone(16));
}

/// A table C at 90 degrees turns X exactly into Y, and at 180 into -X.
#[test]
fn right_angles() {
    let mut chain = head(0.0);
    chain.rotaries[0].carrier = 0;
    let axis_x = |degrees: f64| {
        let joints: [f64; JOINTS] = only(3, degrees);
        let case = Case {
            name: b"n".to_vec(),
            chain: chain.bytes(),
            joints: joints.to_vec(),
            carrier: b"table".to_vec(),
            room: FRAME,
            ..Case::default()
        };
        let rust = untouched::kinematics(&bare(&chain));
        let rust = untouched::link_world(&rust, &joints, "table").expect("a frame");
        let told = calls::ask(Entry::LinkWorld, &case);
        assert_eq!(told.number, 0);
        let frame = &told.numbers[calls::GUARD..][..FRAME];
        (rust[3..6].to_vec(), frame[3..6].to_vec())
    };
    let bits = |axis: [f64; 3]| axis.map(f64::to_bits).to_vec();
    let quarter = (vec![6.123233995736766e-17, 1.0, 0.0], bits([0.0, 1.0, 0.0]));
    assert_eq!(axis_x(90.0), quarter);
    let half = (
        vec![-1.0, 1.2246467991473532e-16, 0.0],
        bits([-1.0, 0.0, 0.0]),
    );
    assert_eq!(axis_x(180.0), half);
}

#[test]
fn inverses() {
    let rest = [0.0; 2];
    assert_eq!(inverse(LENGTH, LENGTH, LENGTH, rest), BOTH);
    assert_eq!(inverse(LENGTH.next_up(), 0.0, 0.0, rest), rust_alone(17));
    assert_eq!(inverse(0.0, LENGTH.next_up(), 0.0, rest), rust_alone(17));
    assert_eq!(inverse(0.0, 0.0, LENGTH.next_up(), rest), rust_alone(17));
    assert_eq!(inverse(0.0, 0.0, 0.0, only(1, ANGLE)), BOTH);
    assert_eq!(
        inverse(0.0, 0.0, 0.0, only(1, ANGLE.next_up())),
        rust_alone(17)
    );
    assert_eq!(inverse(0.0, 0.0, 0.0, only(1, f64::NAN)), rust_alone(16));
}

#[test]
fn paths() {
    let start = |place, number| -> [f64; JOINTS] { only(place, number) };
    assert_eq!(
        solve(head(LENGTH), at_tip(LENGTH), &start(0, POSITION)),
        BOTH
    );
    assert_eq!(
        solve(head(LENGTH.next_up()), at_tip(0.0), &[]),
        rust_alone(17)
    );
    assert_eq!(
        solve(head(0.0), at_tip(LENGTH.next_up()), &[]),
        rust_alone(17)
    );
    for (place, most) in [(0, POSITION), (3, ANGLE), (4, ANGLE)] {
        assert_eq!(solve(head(0.0), at_tip(0.0), &start(place, most)), BOTH);
        let more = start(place, most.next_up());
        assert_eq!(solve(head(0.0), at_tip(0.0), &more), rust_alone(17));
    }
    assert_eq!(solve(head(0.0), AT_REST.repeat(MOST_POSES), &[]), BOTH);
    assert_eq!(
        solve(head(0.0), AT_REST.repeat(MOST_POSES + 1), &[]),
        rust_alone(17)
    );
}

/// A head B about y with a stop, over a table C about z, and a tool that leans to the side inside the cone. With C kept B would be at
/// 0.573 degrees; the exact solution has it at 0.810. Where both leave the limits the Rust's refusal stands.
#[test]
fn a_stop_in_the_cone() {
    let machine = |least: f64| {
        let mut chain = head(0.0);
        chain.count = 2;
        chain.rotaries[1] = chain.rotaries[0];
        chain.rotaries[1].carrier = 0;
        let rotary = &mut chain.rotaries[0];
        (rotary.letter, rotary.axis) = (b'B', [0.0, 1.0, 0.0]);
        (rotary.limited, rotary.limits) = (1, [least, 90.0]);
        chain
    };
    let lean = || [0.0, 0.0, 0.0, 0.01, 0.01, 1.0].to_vec();
    assert_eq!(solve(machine(0.5), lean(), &[]), BOTH);
    assert_eq!(solve(machine(0.6), lean(), &[]), (false, 0));
    assert_eq!(solve(machine(0.9), lean(), &[]), (false, 24));
    let rust = untouched::solve_path(&untouched::setup(&machine(0.6)), &lean(), &[], 1.0);
    assert_eq!(rust, Err("pose 0 leaves axis B".to_owned()));
}

/// A head A about x at 36,000 degrees, and a tool that leans a little further.
#[test]
fn a_long_winding() {
    let mut chain = head(0.0);
    (chain.rotaries[0].letter, chain.rotaries[0].axis) = (b'A', [1.0, 0.0, 0.0]);
    let start: [f64; JOINTS] = only(3, ANGLE);
    let lean = |y: f64| [0.0, 0.0, 0.0, 0.0, y, 1.0].to_vec();
    assert_eq!(solve(chain, lean(1e-3), &start), BOTH);
    assert_eq!(solve(chain, lean(-1e-3), &start), rust_alone(26));
}

/// Heads A and B about (1, 0, 0) and nearly so. The cross product is 1e-9 long, or a place less. At 1e-9 itself both find a pose
/// unreachable: the Rust solves no two circles whose axes are that close.
#[test]
fn parallel_rotaries() {
    let heads = |off: f64| {
        let mut chain = head(0.0);
        chain.count = 2;
        chain.rotaries[1] = chain.rotaries[0];
        (chain.rotaries[0].letter, chain.rotaries[0].axis) = (b'A', [1.0, 0.0, 0.0]);
        (chain.rotaries[1].letter, chain.rotaries[1].axis) = (b'B', [1.0, off, 0.0]);
        chain
    };
    let [apart, parallel] = [1e-9, 1e-9f64.next_down()].map(heads);
    let rest = vec![0.0; JOINTS];
    assert_eq!(solve(apart, Vec::new(), &[]), BOTH);
    assert_eq!(solve(apart, at_tip(0.0), &[]), (false, 25));
    assert_eq!(divide_on(apart, at_tip(0.0), rest.clone()), BOTH);
    assert_eq!(solve(parallel, Vec::new(), &[]), rust_alone(30));
    assert_eq!(solve(parallel, at_tip(0.0), &[]), rust_alone(30));
    assert_eq!(divide_on(parallel, at_tip(0.0), rest), rust_alone(30));
    assert_eq!(inverse_on(parallel, 0.0, 0.0, [0.0; 2]), BOTH);
}

#[test]
fn divisions() {
    let rest = vec![0.0; JOINTS];
    assert_eq!(divide(LENGTH, at_tip(LENGTH), rest.clone()), BOTH);
    assert_eq!(
        divide(LENGTH.next_up(), at_tip(0.0), rest.clone()),
        rust_alone(17)
    );
    assert_eq!(
        divide(0.0, at_tip(LENGTH.next_up()), rest.clone()),
        rust_alone(17)
    );
    for (place, most) in [(0, POSITION), (3, ANGLE), (4, ANGLE)] {
        let set = |number| -> [f64; JOINTS] { only(place, number) };
        assert_eq!(divide(0.0, at_tip(0.0), set(most).to_vec()), BOTH);
        let more = set(most.next_up()).to_vec();
        assert_eq!(divide(0.0, at_tip(0.0), more), rust_alone(17));
    }
    let axis = [&AT_REST[..3], &[f64::NAN, 0.0, 1.0]].concat();
    assert_eq!(divide(0.0, axis, rest), rust_alone(16));
    let unused: [f64; JOINTS] = only(4, f64::NAN);
    assert_eq!(divide(0.0, at_tip(0.0), unused.to_vec()), rust_alone(16));
    let many = |count| (AT_REST.repeat(count), vec![0.0; count * JOINTS]);
    let (poses, joints) = many(MOST_POSES);
    assert_eq!(divide(0.0, poses, joints), BOTH);
    let (poses, joints) = many(MOST_POSES + 1);
    assert_eq!(divide(0.0, poses, joints), rust_alone(17));
}

/// The refusals that the Rust has no input for.
#[test]
fn what_is_lent() {
    let chain = head(0.0).bytes();
    let forward = |chain: &[u8], joints: usize| {
        let case = Case {
            chain: chain.to_vec(),
            joints: vec![0.0; joints],
            room: POSE,
            ..Case::default()
        };
        calls::ask(Entry::Forward, &case).number
    };
    assert_eq!(forward(&chain, JOINTS), 0);
    assert_eq!(forward(&chain[..103], JOINTS), 29);
    assert_eq!(forward(&chain, JOINTS - 1), 20);
    let inverse = |entry, choice, missing| {
        let case = inverse_cases::Case {
            chain: chain.clone(),
            pose: AT_REST.to_vec(),
            tool_length: 0.0,
            hint: vec![0.0; 2],
            choice,
            missing,
        };
        inverse_calls::ask(entry, &case).number
    };
    assert_eq!(inverse(inverse_cases::Entry::Inverse, 0, 1), 20);
    assert_eq!(inverse(inverse_cases::Entry::Choose, 3, 0), 20);
    let solve = |chain: &[u8], poses: usize, start: usize, room: usize| {
        let path = Path {
            chain: chain.to_vec(),
            poses: AT_REST[..poses].to_vec(),
            start: vec![0.0; start],
            cone: 1.0,
            room,
        };
        solved::ask(&path).number
    };
    assert_eq!(solve(&chain, POSE, 0, JOINTS), 0);
    assert_eq!(solve(&chain, POSE, 0, 0), 28);
    assert_eq!(solve(&chain[..103], POSE, 0, JOINTS), 29);
    assert_eq!(solve(&chain, POSE - 1, 0, JOINTS), 20);
    assert_eq!(solve(&chain, POSE, JOINTS - 1, JOINTS), 20);
}

/// A head that turns by 90 degrees with its tip held still needs a pose between.
#[test]
fn no_space_for_the_next_pose() {
    let division = Division {
        chain: head(10.0).bytes(),
        poses: AT_REST.repeat(2),
        from: From::Joints([&[0.0; JOINTS][..], &only::<JOINTS>(3, 90.0)].concat()),
        tolerances: [0.5; 2],
    };
    let told = divided::ask(&division, [2 * POSE, 2 * JOINTS]);
    assert_eq!((told.told.number, told.inserted[1]), (28, 0));
    let told = divided::ask(&division, [64 * POSE, 64 * JOINTS]);
    assert_eq!(told.told.number, 0);
    assert!(told.inserted[1] > 0);
}
