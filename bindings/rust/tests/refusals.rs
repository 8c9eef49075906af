//! Every number that a typed call can be refused with, where it is, and what is kept.

mod common;

use common::*;
use maztubel::*;

const TOLERANCES: Tolerances = Tolerances {
    chord: 0.5,
    axis: 0.5,
};

fn refused(refusal: Refusal, number: u32, place: Place) {
    assert_eq!(
        (refusal.number(), refusal.place),
        (number, place),
        "{refusal}"
    );
}

/// Two tables with one change.
fn changed(change: impl FnOnce(&mut Chain)) -> Chain {
    let mut chain = tables();
    change(&mut chain);
    chain
}

fn chain_refused(number: u32, place: Place, change: impl FnOnce(&mut Chain)) {
    refused(check_chain(&changed(change)).unwrap_err(), number, place);
}

#[test]
fn chains() {
    chain_refused(3, Place::Whole, |c| c.rotaries.clear());
    chain_refused(3, Place::Whole, |c| c.rotaries.push(c.rotaries[0]));
    chain_refused(3, Place::Whole, |c| c.rotaries = vec![c.rotaries[0]; 257]);
    chain_refused(4, Place::Rotary(1), |c| c.rotaries[1].letter = b'a');
    chain_refused(5, Place::Rotary(1), |c| c.rotaries[1].letter = b'A');
    chain_refused(6, Place::Rotary(1), |c| c.rotaries[1].pivot[2] = f64::NAN);
    chain_refused(6, Place::Rotary(0), |c| c.spindle[0] = f64::INFINITY);
    chain_refused(7, Place::Rotary(0), |c| c.rotaries[0].axis = [1e-15; 3]);
    chain_refused(7, Place::Rotary(1), |c| c.rotaries[1].axis[0] = 1e200);
    let limits = Some(Limits { min: 1.0, max: 1.0 });
    chain_refused(8, Place::Rotary(1), |c| c.rotaries[1].limits = limits);
    chain_refused(9, Place::Whole, |c| c.spindle = [0.0; 3]);
    chain_refused(17, Place::Whole, |c| c.rotaries[0].pivot[0] = 100_000.1);
}

#[test]
fn forward_and_inverse() {
    let (chain, joints, target) = (tables(), Joints::default(), pose([0.0; 3], Z));
    let far = Joints {
        position: [1e8, 0.0, 0.0],
        ..joints
    };
    refused(
        forward(&chain, &joints, -1.0).unwrap_err(),
        14,
        Place::Whole,
    );
    refused(forward(&chain, &far, 0.0).unwrap_err(), 17, Place::Whole);
    let nan = Joints {
        angles: [0.0, f64::NAN],
        ..joints
    };
    refused(
        forward(&head_c(Z, None), &nan, 0.0).unwrap_err(),
        16,
        Place::Whole,
    );
    let no_axis = pose([0.0; 3], [0.0; 3]);
    refused(
        inverse(&chain, &no_axis, 0.0, [0.0; 2]).unwrap_err(),
        15,
        Place::Whole,
    );
    refused(
        inverse(&chain, &target, 0.0, [0.0, f64::NAN]).unwrap_err(),
        16,
        Place::Whole,
    );
    refused(
        inverse(&head_c(Z, None), &pose([0.0; 3], X), 0.0, [0.0; 2]).unwrap_err(),
        21,
        Place::Whole,
    );
    let narrow = head_c(X, Some([10.0, 20.0]));
    refused(
        choose(&narrow, &pose([0.0; 3], X), 0.0, Choice::FirstPositive).unwrap_err(),
        22,
        Place::Whole,
    );
}

/// The bounds that the texts of 7, 9, 14, 15, 17 and 22 name, from both sides.
#[test]
fn bounds_of_the_texts() {
    let length = |length| forward(&tables(), &Joints::default(), length).map_err(|r| r.number());
    assert!(length(-0.0).is_ok() && length(100_000.0).is_ok());
    assert_eq!([-5e-324, f64::INFINITY, f64::NAN].map(length), [Err(14); 3]);
    assert_eq!(length(100_000.1), Err(17));
    let checked =
        |change: &dyn Fn(&mut Chain)| check_chain(&changed(change)).map_err(|r| r.number());
    assert_eq!(checked(&|c| c.rotaries[0].axis = [1e-15; 3]), Err(7));
    assert_eq!(
        checked(&|c| c.rotaries[0].axis = [1.1e-15, 0.0, 0.0]),
        Ok(())
    );
    assert_eq!(checked(&|c| c.spindle = [-1e-15; 3]), Err(9));
    assert_eq!(checked(&|c| c.spindle = [0.0, -1.1e-15, 0.0]), Ok(()));
    assert_eq!(checked(&|c| c.spindle[1] = 1e200), Err(9));
    // The axis of a C head along its spindle leaves its angle free, which is then the hint.
    let found = |axis, hint| {
        let list = inverse(&head_c(Z, None), &pose([0.0; 3], axis), 0.0, [hint, 0.0]);
        list.map(|list| list[0].angles[0]).map_err(|r| r.number())
    };
    assert_eq!(found([1e-15; 3], 0.0), Err(15));
    assert_eq!(found([0.0, 0.0, f64::NAN], 0.0), Err(15));
    assert_eq!(found([0.0, 0.0, 1.1e-15], 0.0), Ok(0.0));
    assert_eq!([900.0, -180.0].map(|hint| found(Z, hint)), [Ok(180.0); 2]);
    assert_eq!([901.0, -900.0].map(|hint| found(Z, hint)), [Err(22); 2]);
    assert_eq!(found(Z, 36_001.0), Err(17));
}

fn solved(chain: &Chain, poses: &[Pose]) -> Result<Vec<Joints>, Refusal> {
    solve_path(chain, poses, Start::AtZero, 1.0)
}

#[test]
fn paths() {
    let good = pose([0.0; 3], Z);
    refused(
        solved(&tables(), &[good, pose([0.0; 3], [0.0; 3])]).unwrap_err(),
        25,
        Place::Pose(1),
    );
    refused(
        solved(&head_c(Z, None), &[good, pose([0.0; 3], X)]).unwrap_err(),
        25,
        Place::Pose(1),
    );
    refused(
        solved(&tables(), &[pose([f64::NAN, 0.0, 0.0], Z)]).unwrap_err(),
        16,
        Place::Pose(0),
    );
    refused(
        solved(&tables(), &[good, pose([1e6, 0.0, 0.0], Z)]).unwrap_err(),
        17,
        Place::Pose(1),
    );
    let limited = head_c(X, Some([-10.0, 10.0]));
    refused(
        solved(&limited, &[pose([0.0; 3], Y)]).unwrap_err(),
        24,
        Place::Axis(0, b'C'),
    );
    let start = Joints {
        angles: [36_000.0, 0.0],
        ..Joints::default()
    };
    let past = solve_path(
        &head_c(X, None),
        &[pose([0.0; 3], Y)],
        Start::From(start),
        1.0,
    );
    refused(past.unwrap_err(), 26, Place::Pose(0));
}

/// Two tables whose axes leave so much between them. The second is turned round and three times as long.
fn leaning(off: f64) -> Chain {
    changed(|c| {
        c.rotaries[0].axis = X;
        c.rotaries[1].axis = [-3.0, -3.0 * off, 0.0];
    })
}

/// Every call that walks a path refuses them and keeps what it is lent, also without a pose; all others serve them.
#[test]
fn parallel_rotaries() {
    let (chain, poses) = (leaning(0.0), [pose([0.0; 3], Z)]);
    let nan = Joints {
        position: [f64::NAN; 3],
        angles: [9.0; 2],
    };
    let start = Start::From(nan);
    let marked = Joints {
        position: [9.0; 3],
        ..nan
    };
    let (mut out_poses, mut joints) = (vec![pose([9.0; 3], [9.0; 3]); 2], vec![marked; 2]);
    let before = (out_poses.clone(), joints.clone());
    for poses in [&poses[..], &[]] {
        let alone = solve_path_into(&chain, poses, start, 1.0, &mut joints);
        refused(alone.unwrap_err(), 30, Place::Whole);
        let both = solve_and_divide_into(
            &chain,
            poses,
            start,
            1.0,
            TOLERANCES,
            &mut out_poses,
            &mut joints,
        );
        refused(both.unwrap_err(), 30, Place::Whole);
        let sets = vec![nan; poses.len()];
        let divided = subdivide_path_into(
            &chain,
            poses,
            &sets,
            TOLERANCES,
            &mut out_poses,
            &mut joints,
        );
        refused(divided.unwrap_err(), 30, Place::Whole);
        assert_eq!((&out_poses, &joints), (&before.0, &before.1));
    }
    assert!(inverse(&chain, &poses[0], 0.0, [0.0; 2]).is_ok());
    assert!(choose(&chain, &poses[0], 0.0, Choice::FirstPositive).is_ok());
    assert!(forward(&chain, &Joints::default(), 0.0).is_ok());
    assert_eq!(cable_number(&chain, &[Joints::default()], 0), Ok(0));
    let numbers =
        [0.999e-9, 1.001e-9].map(|off| solved(&leaning(off), &[]).map_err(|r| r.number()));
    assert_eq!(numbers, [Err(30), Ok(vec![])]);
}

/// Both signs of A reach the axis; the closest is outside A's limits, and the other turns C by half a turn.
#[test]
fn a_branch_flips() {
    let chain = changed(|c| {
        c.rotaries[0].limits = Some(Limits {
            min: -90.0,
            max: 1.0,
        })
    });
    let tilt = |angle: f64| {
        pose(
            [0.0; 3],
            [0.0, angle.to_radians().sin(), angle.to_radians().cos()],
        )
    };
    let ends = [tilt(-30.0), tilt(30.0)].map(|end| solved(&chain, &[end]).map_err(|r| r.number()));
    assert!(
        ends.iter().any(|end| end.is_ok()) && ends.contains(&Err(23)),
        "{ends:?}"
    );
}

#[test]
fn a_start_is_told_from_a_pose() {
    let nan = Start::From(Joints {
        position: [f64::NAN; 3],
        ..Joints::default()
    });
    let mut joints = [Joints {
        position: [9.0; 3],
        angles: [9.0; 2],
    }; 3];
    let before = joints;
    let poses = [pose([f64::NAN; 3], Z)];
    let refusal = solve_path_into(&tables(), &poses, nan, 1.0, &mut joints).unwrap_err();
    refused(refusal, 16, Place::Whole);
    assert_eq!(joints, before);
    let refusal = solve_path_into(&tables(), &poses, Start::AtZero, 1.0, &mut joints).unwrap_err();
    refused(refusal, 16, Place::Pose(0));
    assert_eq!(joints, [Joints::default(); 3]);
}

/// What is refused before the first pose keeps both outputs, also the mark of the call; every other refusal clears both.
#[test]
fn what_the_call_of_both_keeps() {
    let marked = Joints {
        position: [9.0; 3],
        angles: [9.0; 2],
    };
    let ask = |chain: &Chain, poses: &[Pose], cone, tolerances, space| {
        let (mut out_poses, mut out_joints) =
            (vec![pose([9.0; 3], [9.0; 3]); space], vec![marked; 99]);
        let answer = solve_and_divide_into(
            chain,
            poses,
            Start::AtZero,
            cone,
            tolerances,
            &mut out_poses,
            &mut out_joints,
        );
        let kept =
            out_joints.iter().all(|j| *j == marked) && out_poses.iter().all(|p| p.tip[0] == 9.0);
        let cleared = out_joints.iter().all(|j| *j == Joints::default())
            && out_poses.iter().all(|p| *p == Pose::default());
        assert!(kept != cleared);
        (answer.unwrap_err().number(), kept)
    };
    let path = arc(5);
    let fine = Tolerances {
        chord: 1e-3,
        axis: 0.01,
    };
    assert_eq!(ask(&tables(), &path, f64::NAN, TOLERANCES, 9), (18, true));
    assert_eq!(
        ask(
            &changed(|c| c.spindle = [0.0; 3]),
            &path,
            1.0,
            TOLERANCES,
            9
        ),
        (9, true)
    );
    assert_eq!(ask(&tables(), &path, 1.0, fine, 4), (28, true));
    assert_eq!(ask(&tables(), &path, 1.0, fine, 6), (28, false));
    assert_eq!(
        ask(&tables(), &path, 1.0, Tolerances { axis: 0.0, ..fine }, 9),
        (19, false)
    );
    assert_eq!(ask(&head_c(Z, None), &path, 1.0, fine, 9), (25, false));
}

/// The form that solves and then divides is refused as the library's call of both is.
#[test]
fn both_forms_refuse_alike() {
    let alike = |number, chain: &Chain, poses: &[Pose], cone, tolerances| {
        let apart = solve_and_divide(chain, poses, Start::AtZero, cone, tolerances).unwrap_err();
        let space = poses.len() + MOST_INSERTED;
        let both = solve_and_divide_into(
            chain,
            poses,
            Start::AtZero,
            cone,
            tolerances,
            &mut vec![Pose::default(); space],
            &mut vec![Joints::default(); space],
        );
        assert_eq!((apart.number(), Err(apart)), (number, both));
    };
    let (path, broken) = (arc(5), [pose([0.0; 3], Z), pose([0.0, f64::NAN, 0.0], Z)]);
    let unserved = changed(|c| c.rotaries[1].letter = b'A');
    let bad = Tolerances {
        chord: 0.0,
        ..TOLERANCES
    };
    let finest = Tolerances {
        chord: 1e-12,
        axis: 1e-9,
    };
    alike(18, &unserved, &broken, 0.0, bad);
    alike(5, &unserved, &broken, 1.0, bad);
    alike(16, &tables(), &broken, 1.0, bad);
    alike(25, &head_c(Z, None), &path, 1.0, bad);
    alike(17, &tables(), &vec![path[0]; 100_001], 1.0, bad);
    alike(19, &tables(), &path, 1.0, bad);
    alike(19, &tables(), &[], 1.0, bad);
    alike(27, &tables(), &path, 1.0, finest);
}

#[test]
fn division() {
    let (chain, poses, joints) = (tables(), arc(3), solved(&tables(), &arc(3)).unwrap());
    let bad = Tolerances {
        chord: f64::NAN,
        axis: 1.0,
    };
    refused(
        subdivide_path(&chain, &poses, &joints[1..], bad).unwrap_err(),
        19,
        Place::Whole,
    );
    refused(
        subdivide_path(&chain, &poses, &joints[1..], TOLERANCES).unwrap_err(),
        20,
        Place::Whole,
    );
    let mut broken = joints.clone();
    broken[2].angles[1] = f64::NAN;
    refused(
        subdivide_path(&chain, &poses, &broken, TOLERANCES).unwrap_err(),
        16,
        Place::Whole,
    );
    broken[2].angles[1] = 36_001.0;
    refused(
        subdivide_path(&chain, &poses, &broken, TOLERANCES).unwrap_err(),
        17,
        Place::Whole,
    );
    let finest = Tolerances {
        chord: 1e-12,
        axis: 1e-9,
    };
    refused(
        subdivide_path(&chain, &poses, &joints, finest).unwrap_err(),
        27,
        Place::Inserted(10_000),
    );
    let (mut out_poses, mut out_joints) = (vec![Pose::default(); 20], vec![Joints::default(); 30]);
    let small = subdivide_path_into(
        &chain,
        &poses,
        &joints,
        finest,
        &mut out_poses,
        &mut out_joints,
    );
    refused(small.unwrap_err(), 28, Place::Inserted(17));
}

/// The offset of the trailer of a job on two tables with two poses.
const TRAILER: usize = 176 + 96;

fn job_refused(number: u32, place: Place, change: impl FnOnce(&mut Vec<u8>)) {
    let mut bytes = job_bytes(&tables(), &arc(2));
    change(&mut bytes);
    refused(Job::read(&bytes).unwrap_err(), number, place);
    let before = [pose([9.0; 3], [9.0; 3]); 3];
    let mut poses = before;
    let refusal = job_poses_into(&bytes, &mut poses).unwrap_err();
    refused(refusal, number, place);
    assert_eq!(poses, before);
}

#[test]
fn jobs() {
    let malformed = |offset: usize| Place::Offset(offset as u64);
    job_refused(29, malformed(0), |b| b.truncate(39));
    job_refused(29, malformed(0), |b| b.resize(65_537, 0));
    job_refused(29, malformed(TRAILER), |b| b[TRAILER + 1] = 255);
    job_refused(3, Place::Whole, |b| b[0] = 0);
    job_refused(3, Place::Whole, |b| b[0] = 3);
    job_refused(29, malformed(TRAILER), |b| {
        b[140] = 2;
        b[TRAILER] = 140;
    });
    job_refused(29, malformed(TRAILER + 4), |b| b[TRAILER + 8] = 3);
    job_refused(29, malformed(TRAILER + 4), |b| b[TRAILER + 4] = 175);
    job_refused(29, malformed(TRAILER + 4), |b| {
        b[TRAILER + 4..TRAILER + 12].fill(255)
    });
    job_refused(29, malformed(TRAILER + 12), |b| b[TRAILER + 15] = 1);
    job_refused(29, malformed(7), |b| b[7] = 1);
    job_refused(4, Place::Rotary(0), |b| b[8] = b'a');
    job_refused(4, Place::Rotary(1), |b| b[80] = b'D');
    job_refused(29, malformed(81), |b| b[81] = 2);
    job_refused(29, malformed(82), |b| b[82] = 2);
    job_refused(29, malformed(15), |b| b[15] = 1);
    job_refused(29, malformed(64), |b| b[71] = 0x80);
    job_refused(29, malformed(72), |b| b[79] = 0x80);
    job_refused(29, malformed(TRAILER + 4), |b| b[TRAILER + 12] = 1);
    job_refused(29, malformed(TRAILER + 12), |b| b[TRAILER + 12] = 2);
}

/// A rest angle: the word that says so, what is written where all are +0.0, and what is refused behind the limits.
#[test]
fn rest_angles() {
    let job = |rest| Job {
        chain: changed(|c| c.rotaries[1].rest = rest),
        poses: arc(2),
        cone: 1.0,
        tolerances: TOLERANCES,
    };
    for (rest, length, word) in [(0.0, 176, 0), (-0.0, 192, 1), (-90.0, 192, 1)] {
        let bytes = job(rest).to_bytes().unwrap();
        let read = Job::read(&bytes).unwrap();
        assert_eq!(bytes.len(), length + 96 + 40);
        assert_eq!(bytes[length + 96 + 12], word);
        let again = read.chain.rotaries[1].rest;
        assert_eq!(again.to_bits(), f64::to_bits(rest));
        assert_eq!(read.to_bytes().unwrap(), bytes);
    }
    let rested = job_bytes(&changed(|c| c.rotaries[0].rest = 1.0), &[]);
    let mut nought = rested.clone();
    nought[80..88].fill(0);
    let read = Job::read(&nought).unwrap();
    assert_eq!(read.to_bytes().unwrap(), job_bytes(&tables(), &[]));
    for (rest, number, place) in [
        (f64::NAN, 6, Place::Rotary(0)),
        (36_000.00000000001, 5, Place::Rotary(1)),
    ] {
        chain_refused(number, place, |c| {
            c.rotaries[0].rest = rest;
            c.rotaries[1].letter = b'A';
        });
    }
    let infinite = |c: &mut Chain| c.rotaries[1].rest = f64::NEG_INFINITY;
    chain_refused(6, Place::Rotary(1), infinite);
    let far = |c: &mut Chain| c.rotaries[1].rest = -36_000.00000000001;
    chain_refused(17, Place::Whole, far);
    chain_refused(8, Place::Rotary(1), |c| {
        c.rotaries[1].rest = f64::NAN;
        c.rotaries[1].limits = Some(Limits { min: 1.0, max: 1.0 });
    });
}

/// The chain and the numbers of a job are for the calls to judge.
#[test]
fn what_a_job_may_say() {
    let chain = changed(|c| {
        c.rotaries[1].letter = b'A';
        c.rotaries[0].limits = Some(Limits { min: 2.0, max: 1.0 });
        c.spindle = [0.0; 3];
    });
    let poses = [pose([f64::INFINITY, -0.0, 1e300], [0.0; 3])];
    let job = Job::read(&job_bytes(&chain, &poses)).unwrap();
    assert_eq!((&job.chain, &job.poses[..]), (&chain, &poses[..]));
    assert_eq!(
        (job.cone, job.tolerances.chord, job.tolerances.axis),
        (1.0, 0.25, 0.5)
    );
    let empty = Job::read(&job_bytes(&head_c(Z, None), &[])).unwrap();
    assert_eq!((empty.chain, empty.poses), (head_c(Z, None), vec![]));
}

#[test]
fn space_for_a_job() {
    let (given, before) = (arc(2), [pose([9.0; 3], [9.0; 3]); 4]);
    let bytes = job_bytes(&tables(), &given);
    let mut poses = before;
    for space in 0..2 {
        let refusal = job_poses_into(&bytes, &mut poses[..space]).unwrap_err();
        assert_eq!(refusal.reason, Reason::NoSpace);
        assert_eq!(poses, before);
    }
    assert_eq!(job_poses_into(&bytes, &mut poses[..3]), Ok(2));
    assert_eq!(poses[..2], given);
    assert_eq!(poses[2..], [Pose::default(), before[3]]);
    let longest = |count| Job::read(&job_bytes(&head_c(Z, None), &arc(count)));
    assert_eq!(longest(1362).unwrap().poses, arc(1362));
    refused(longest(1363).unwrap_err(), 29, Place::Offset(0));
}

type Fault = (u32, Place, fn(&mut Job));

/// What a job is refused with when it is written and how it comes to that, from the last check to the first. 30 is not
/// among them.
const FAULTS: [Fault; 12] = [
    (17, Place::Whole, |job| job.poses[2].tip[1] = -100_000.1),
    (16, Place::Whole, |job| job.poses[1].axis[2] = f64::NAN),
    (19, Place::Whole, |job| job.tolerances.axis = 0.0),
    (19, Place::Whole, |job| job.tolerances.chord = f64::INFINITY),
    (18, Place::Whole, |job| job.cone = 10.000000000000002),
    (9, Place::Whole, |job| job.chain.spindle = [0.0; 3]),
    (8, Place::Rotary(1), |job| {
        job.chain.rotaries[1].limits = Some(Limits { min: 1.0, max: 1.0 })
    }),
    (6, Place::Rotary(1), |job| {
        job.chain.rotaries[1].pivot[0] = f64::NAN
    }),
    (7, Place::Rotary(1), |job| {
        job.chain.rotaries[1].axis = [0.0; 3]
    }),
    (5, Place::Rotary(1), |job| {
        job.chain.rotaries[1].letter = b'A'
    }),
    (4, Place::Rotary(1), |job| {
        job.chain.rotaries[1].letter = b'a'
    }),
    (3, Place::Whole, |job| {
        job.chain.rotaries.push(job.chain.rotaries[0])
    }),
];

/// Each fault with every later one.
#[test]
fn written_jobs() {
    let mut job = Job {
        chain: tables(),
        poses: arc(3),
        cone: 1.0,
        tolerances: TOLERANCES,
    };
    let before = [9; 400];
    let mut bytes = before;
    let mut refuse = |job: &Job, number, place, room| {
        let refusal = job.write_into(&mut bytes[..room]).unwrap_err();
        refused(refusal, number, place);
        assert_eq!(bytes, before);
    };
    refuse(&job, 28, Place::Inserted(0), 176 + 3 * 48 + 39);
    assert_eq!(job.to_bytes().unwrap().len(), 176 + 3 * 48 + 40);
    for (number, place, fault) in FAULTS {
        fault(&mut job);
        refuse(&job, number, place, 100);
        refused(job.to_bytes().unwrap_err(), number, place);
    }
}

/// The longest jobs with one rotary and with two, with a rest angle and without; a pose more is 17, also where there is
/// no space for it.
#[test]
fn longest_jobs() {
    let rested = |mut chain: Chain| {
        chain.rotaries[0].rest = 90.0;
        chain
    };
    for (chain, most) in [
        (head_c(Z, None), 1362),
        (tables(), 1360),
        (rested(head_c(Z, None)), 1362),
        (rested(tables()), 1360),
    ] {
        let job = |count| Job {
            chain: chain.clone(),
            poses: arc(count),
            cone: 1.0,
            tolerances: TOLERANCES,
        };
        let bytes = job(most).to_bytes().unwrap();
        assert_eq!(bytes.len(), chain.bytes().len() + 48 * most + 40);
        assert_eq!(Job::read(&bytes), Ok(job(most)));
        for room in [0, 100_000] {
            let refusal = job(most + 1).write_into(&mut vec![9; room]).unwrap_err();
            refused(refusal, 17, Place::Whole);
        }
    }
}

/// -0.0, the smallest numbers and the largest sizes come back with their bits, an axis that is zero too, and two
/// parallel rotaries.
#[test]
fn numbers_of_a_written_job() {
    let least = f64::from_bits(1);
    let chain = changed(|c| {
        c.rotaries[1].axis = [-1.0, -0.0, least];
        c.rotaries[1].pivot = [-0.0, 100_000.0, -100_000.0];
        c.rotaries[0].limits = Some(Limits {
            min: -f64::MAX,
            max: -0.0,
        });
    });
    let poses = vec![
        pose([-0.0, -least, 100_000.0], [0.0, -0.0, 0.0]),
        pose([-100_000.0, least, 0.0], [f64::MAX, -f64::MAX, least]),
    ];
    let numbers = pose_numbers(&poses);
    let (cone, chord, axis) = (10.0, least, f64::MAX);
    let job = Job {
        chain,
        poses,
        cone,
        tolerances: Tolerances { chord, axis },
    };
    let bytes = job.to_bytes().unwrap();
    assert_eq!(
        bytes,
        packed(&job.chain.bytes(), &numbers, [cone, chord, axis])
    );
    let read = Job::read(&bytes).unwrap();
    assert_eq!(read.chain.bytes(), job.chain.bytes());
    assert_eq!(read.to_bytes().unwrap(), bytes);
}

fn cable_refused(number: u32, place: Place, chain: &Chain, joints: &[Joints]) {
    for rotary in [0, 1, 2, usize::MAX] {
        refused(
            cable_number(chain, joints, rotary).unwrap_err(),
            number,
            place,
        );
    }
}

#[test]
fn cables() {
    let (zero, chain) = (Joints::default(), tables());
    let at = |x, angle| Joints {
        position: [x, 0.0, 0.0],
        angles: [0.0, angle],
    };
    let spindle = changed(|c| c.spindle = [0.0; 3]);
    let unnamed = changed(|c| c.rotaries[1].letter = b'a');
    let far = changed(|c| c.rotaries[1].pivot[2] = -100_000.1);
    cable_refused(3, Place::Whole, &changed(|c| c.rotaries.clear()), &[]);
    cable_refused(4, Place::Rotary(1), &unnamed, &[at(f64::NAN, 0.0)]);
    cable_refused(9, Place::Whole, &spindle, &[zero]);
    cable_refused(16, Place::Whole, &far, &[zero, at(0.0, f64::NAN)]);
    cable_refused(
        16,
        Place::Whole,
        &chain,
        &[at(1e8, 0.0), at(f64::INFINITY, 0.0)],
    );
    cable_refused(17, Place::Whole, &far, &[]);
    cable_refused(17, Place::Whole, &chain, &[zero, at(-10_000_001.0, 0.0)]);
    cable_refused(17, Place::Whole, &head_c(Z, None), &[at(0.0, 36_001.0)]);
}

fn machine(links: Vec<Link>) -> Machine {
    Machine {
        name: b"mill".to_vec(),
        chain: tables(),
        links,
    }
}

fn link(name: &[u8], mount: Mount) -> Link {
    let solid = Solid::Box {
        min: [0.0; 3],
        max: [1.0; 3],
    };
    Link {
        name: name.to_vec(),
        mount,
        solid,
    }
}

fn model_refused(number: u32, place: Place, links: Vec<Link>) {
    refused(check_model(&machine(links)).unwrap_err(), number, place);
}

#[test]
fn models() {
    let base = |i: usize| link(format!("link {i}").as_bytes(), Mount::Base);
    assert_eq!(check_model(&machine((0..64).map(base).collect())), Ok(()));
    model_refused(10, Place::Whole, (0..65).map(base).collect());
    model_refused(1, Place::Whole, vec![link(b"", Mount::Base)]);
    model_refused(2, Place::Whole, vec![link(&[b'a'; 70_000], Mount::Base)]);
    model_refused(11, Place::Link(1), vec![base(1), base(1)]);
    model_refused(
        12,
        Place::Link(1),
        vec![base(0), link(b"b", Mount::Rotary(b'B'))],
    );
    let flat = Solid::Cylinder {
        base: [0.0; 3],
        axis: Z,
        radius: 1.0,
        length: 0.0,
    };
    model_refused(
        13,
        Place::Link(0),
        vec![Link {
            solid: flat,
            ..base(0)
        }],
    );
    let unnamed = Machine {
        name: vec![b'a'; 257],
        ..machine(vec![])
    };
    refused(check_model(&unnamed).unwrap_err(), 2, Place::Whole);
}
