//! Which poses of a divided path were inserted, held to the division of each pair alone.

mod common;

use common::*;
use maztubel::*;

/// The halving of a path is the halvings of its pairs, one behind the other: where the given poses stand then follows
/// from how many poses each pair gets.
fn from_pairs(
    chain: &Chain,
    poses: &[Pose],
    joints: &[Joints],
    tolerances: Tolerances,
) -> Vec<usize> {
    let pairs = poses.windows(2).zip(joints.windows(2));
    let mut places: Vec<usize> = (0..poses.len().min(1)).collect();
    for (pair, ends) in pairs {
        let alone = subdivide_path(chain, pair, ends, tolerances).unwrap();
        assert_eq!(alone.given, [0, alone.inserted + 1]);
        places.push(places[places.len() - 1] + alone.inserted + 1);
    }
    places
}

/// The division, once it is held to its pairs: the given poses stand where they say, bit for bit, and the rest is
/// inserted.
fn held(chain: &Chain, poses: &[Pose], joints: &[Joints], tolerances: Tolerances) -> Divided {
    let path = subdivide_path(chain, poses, joints, tolerances).unwrap();
    assert_eq!(path.given, from_pairs(chain, poses, joints, tolerances));
    assert_eq!(path.given.len(), poses.len());
    for (place, (pose, set)) in path.given.iter().zip(poses.iter().zip(joints)) {
        assert_eq!(pose_bits(&path.poses[*place]), pose_bits(pose));
        assert_eq!(joint_bits(&path.joints[*place]), joint_bits(set));
    }
    let marked = (0..path.poses.len()).filter(|index| path.is_inserted(*index));
    assert_eq!(marked.count(), path.inserted);
    assert!(!path.is_inserted(path.poses.len()) && !path.is_inserted(usize::MAX));
    path
}

fn pose_bits(pose: &Pose) -> [u64; 6] {
    let [a, b, c] = pose.tip.map(f64::to_bits);
    let [d, e, f] = pose.axis.map(f64::to_bits);
    [a, b, c, d, e, f]
}

fn joint_bits(joints: &Joints) -> [u64; 5] {
    let [a, b, c] = joints.position.map(f64::to_bits);
    let [d, e] = joints.angles.map(f64::to_bits);
    [a, b, c, d, e]
}

/// As [`held`], with the joints that `solve_path` gives; and the library's call of both answers the same.
fn held_solved(chain: &Chain, poses: &[Pose], tolerances: Tolerances) -> Divided {
    let joints = solve_path(chain, poses, Start::AtZero, 1.0).unwrap();
    let path = held(chain, poses, &joints, tolerances);
    let whole = solve_and_divide(chain, poses, Start::AtZero, 1.0, tolerances).unwrap();
    assert_eq!(whole, path);
    let mut out_poses = vec![Pose::default(); path.poses.len()];
    let mut out_joints = vec![Joints::default(); path.poses.len()];
    let inserted = solve_and_divide_into(
        chain,
        poses,
        Start::AtZero,
        1.0,
        tolerances,
        &mut out_poses,
        &mut out_joints,
    );
    assert_eq!(inserted, Ok(path.inserted));
    let bits = |poses: &[Pose], joints: &[Joints]| {
        let poses: Vec<_> = poses.iter().map(pose_bits).collect();
        (poses, joints.iter().map(joint_bits).collect::<Vec<_>>())
    };
    assert_eq!(
        bits(&out_poses, &out_joints),
        bits(&path.poses, &path.joints)
    );
    assert_eq!(given_indices(&joints, &out_joints), path.given);
    path
}

/// The joint set halfway, as the library rounds it.
fn halfway(left: &Joints, right: &Joints) -> Joints {
    let mid = |l: f64, r: f64| l + (r - l) * 0.5;
    Joints {
        position: [0, 1, 2].map(|i| mid(left.position[i], right.position[i])),
        angles: [0, 1].map(|i| mid(left.angles[i], right.angles[i])),
    }
}

/// Table A, two poses and then their midpoint: the inserted pose is equal to the third given one.
#[test]
fn a_midpoint_that_is_given_later() {
    let ends = [
        pose([0.0, 0.0, 50.0], Z),
        pose([0.0, 30.0, 40.0], [0.0, 0.6, 0.8]),
    ];
    let tolerances = Tolerances {
        chord: 2.5,
        axis: 1.0,
    };
    let two = held_solved(&table_a(), &ends, tolerances);
    assert_eq!((two.inserted, &two.given[..]), (1, &[0, 2][..]));
    let three = held_solved(&table_a(), &[ends[0], ends[1], two.poses[1]], tolerances);
    assert_eq!((three.inserted, &three.given[..]), (1, &[0, 2, 3][..]));
    assert_eq!(three.poses[1], three.poses[3]);
    let inserted = [0, 1, 2, 3].map(|index| three.is_inserted(index));
    assert_eq!(inserted, [false, true, false, false]);
}

/// Far from the pivot the pose between two that lie close together rounds to that of the next given one; its joints
/// do not.
#[test]
fn a_pose_that_is_the_next_given_one() {
    let mut chain = head_c(Z, None);
    chain.rotaries[0].carrier = Carrier::Table;
    chain.rotaries[0].pivot = [1e5; 3];
    let tolerances = Tolerances {
        chord: 1e-13,
        axis: 1.0,
    };
    let poses = [pose([1.8e-12; 3], Z), pose([0.0; 3], Z)];
    let path = held_solved(&chain, &poses, tolerances);
    assert_eq!((path.inserted, &path.given[..]), (1, &[0, 2][..]));
    assert_eq!(pose_bits(&path.poses[1]), pose_bits(&path.poses[2]));
    assert_ne!(path.joints[1], path.joints[2]);
}

#[test]
fn poses_that_repeat() {
    let path = arc(4);
    let poses = [0, 0, 3, 3, 3, 0, 1, 0, 3, 3].map(|i: usize| path[i]);
    let tolerances = Tolerances {
        chord: 0.05,
        axis: 0.5,
    };
    let divided = held_solved(&tables(), &poses, tolerances);
    assert!(divided.inserted > 0);
    assert_eq!(divided.given[..2], [0, 1]);
    let still = held_solved(&tables(), &[path[2]; 5], tolerances);
    assert_eq!((still.inserted, still.given), (0, vec![0, 1, 2, 3, 4]));
}

#[test]
fn short_paths() {
    let tolerances = Tolerances {
        chord: 0.1,
        axis: 0.1,
    };
    let none = held_solved(&tables(), &[], tolerances);
    assert_eq!((none.inserted, none.given), (0, vec![]));
    let one = held_solved(&tables(), &arc(1), tolerances);
    assert_eq!((one.inserted, one.given), (0, vec![0]));
}

#[test]
fn joints_that_are_no_division() {
    let [a, b, c] = [0.0, 1.0, f64::NAN].map(|x| Joints {
        position: [x, 0.0, 0.0],
        angles: [0.0; 2],
    });
    assert_eq!(given_indices(&[a], &[]), []);
    assert_eq!(given_indices(&[], &[a]), []);
    assert_eq!(given_indices(&[a, b, a], &[b, a, b]), [1, 2]);
    assert_eq!(given_indices(&[c, a], &[c, a]), []);
}

/// Marsaglia's xorshift.
struct Random(u64);

impl Random {
    fn next(&mut self) -> u64 {
        self.0 ^= self.0 << 13;
        self.0 ^= self.0 >> 7;
        self.0 ^= self.0 << 17;
        self.0
    }

    fn below(&mut self, count: usize) -> usize {
        (self.next() % count as u64) as usize
    }

    /// From -size to size.
    fn within(&mut self, size: f64) -> f64 {
        size * (2.0 * (self.next() >> 11) as f64 / (1u64 << 53) as f64 - 1.0)
    }

    fn of<T: Copy>(&mut self, all: &[T]) -> T {
        all[self.below(all.len())]
    }
}

fn random_chain(random: &mut Random) -> Chain {
    let mut chain = match random.below(3) {
        0 => table_a(),
        1 => head_c(X, None),
        _ => tables(),
    };
    for rotary in &mut chain.rotaries {
        rotary.carrier = random.of(&[Carrier::Table, Carrier::Head]);
        rotary.pivot = [0.0; 3].map(|_: f64| random.of(&[0.0, -70.0, 1e5]));
    }
    chain
}

fn random_tolerances(random: &mut Random) -> Tolerances {
    Tolerances {
        chord: random.of(&[1e-13, 1e-3, 0.1, 2.5]),
        axis: random.of(&[0.01, 0.5, 5.0]),
    }
}

/// Joints that repeat, that are the midpoint of two before them, that hardly differ, and that do. The poses are
/// theirs, but that one may be the pose halfway from the one before it.
fn random_path(random: &mut Random, chain: &Chain) -> (Vec<Pose>, Vec<Joints>) {
    let mut joints = vec![Joints::default()];
    while joints.len() < 8 {
        let last = joints[joints.len() - 1];
        let [one, other] = [0; 2].map(|_| joints[random.below(joints.len())]);
        let size = random.of(&[1e-12, 4e-12, 1e-3, 20.0]);
        joints.push(match random.below(5) {
            0 => last,
            1 => one,
            2 => halfway(&one, &other),
            _ => Joints {
                position: last.position.map(|x| x + random.within(size)),
                angles: last.angles.map(|x| x + random.within(size)),
            },
        });
    }
    let reached = |joints: &Joints| forward(chain, joints, 0.0).unwrap();
    let mut poses: Vec<Pose> = joints.iter().map(reached).collect();
    if random.below(2) == 0 {
        let at = 1 + random.below(7);
        poses[at] = reached(&halfway(&joints[at - 1], &joints[at]));
    }
    (poses, joints)
}

#[test]
fn random_divisions() {
    let mut random = Random(0x9E37_79B9_7F4A_7C15);
    let (mut served, mut inserted, mut again) = (0, 0, 0);
    for _ in 0..600 {
        let chain = random_chain(&mut random);
        let tolerances = random_tolerances(&mut random);
        let (poses, joints) = random_path(&mut random, &chain);
        if subdivide_path(&chain, &poses, &joints, tolerances).is_err() {
            continue;
        }
        let path = held(&chain, &poses, &joints, tolerances);
        let mut new = (0..path.poses.len()).filter(|index| path.is_inserted(*index));
        served += 1;
        inserted += path.inserted;
        again += usize::from(new.any(|index| poses.contains(&path.poses[index])));
    }
    println!(
        "{served} divisions, {inserted} inserted, {again} with an inserted pose that is given too"
    );
    assert!(served > 400 && inserted > 50_000 && again > 20);
}

/// Solved paths of poses of an arc in any order.
#[test]
fn random_solved_divisions() {
    let mut random = Random(7);
    let (places, tolerances) = (arc(12), [0.5, 0.05, 0.01]);
    let mut inserted = 0;
    for _ in 0..200 {
        let poses: Vec<Pose> = (0..random.below(9)).map(|_| random.of(&places)).collect();
        let tolerances = Tolerances {
            chord: random.of(&tolerances),
            axis: random.of(&tolerances),
        };
        inserted += held_solved(&tables(), &poses, tolerances).inserted;
    }
    assert!(inserted > 1000);
}
