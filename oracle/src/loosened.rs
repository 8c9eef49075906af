//! R-12's two promises, held to what the exports answer. With both tolerances finite and equal or larger a division
//! that was accepted is accepted, inserts no more, and inserts only what was inserted before, in the same order. And a
//! divided path that is divided again under its own tolerances comes back the same, with nothing inserted.

use crate::calls::GUARD;
use crate::divided::{Divided, Told, ask, telling};
use crate::divisions::{Division, From, Rooms};
use crate::paths::{JOINTS, MOST_TIP, POSE, Path};
use crate::solved::{self, MOST_POSES};

/// Which tolerance becomes wider, and how much.
pub const WHICH: [&str; 3] = ["chord", "axis", "both"];
pub const HOW: [&str; 4] = ["the same", "the next double", "twice", "1e300"];

/// A pose with its joint set, as bits.
pub type Record = [u64; POSE + JOINTS];

fn wider(tolerance: f64, how: usize) -> f64 {
    let wider = match how {
        0 => tolerance,
        1 => tolerance.next_up(),
        2 => 2.0 * tolerance,
        _ => 1e300,
    };
    wider.max(tolerance).min(f64::MAX)
}

/// The same division with tolerances that are finite and equal or larger.
pub fn loosened(division: &Division, which: usize, how: usize) -> Division {
    let [chord, axis] = division.tolerances;
    let tolerances = match which {
        0 => [wider(chord, how), axis],
        1 => [chord, wider(axis, how)],
        _ => [wider(chord, how), wider(axis, how)],
    };
    Division {
        tolerances,
        ..division.clone()
    }
}

/// Just enough.
pub fn rooms(divided: &Divided) -> Rooms {
    [divided.poses.len(), divided.joints.len()]
}

/// The given poses, with joints that were lent, or solved as they were in the call of both.
pub fn given(division: &Division) -> Vec<Record> {
    let joints = match &division.from {
        From::Joints(joints) => joints,
        From::Start { start, cone } => {
            let path = Path {
                chain: division.chain.clone(),
                poses: division.poses.clone(),
                start: start.clone(),
                cone: *cone,
                room: JOINTS * division.given(),
            };
            &solved::expected(&path).expect("a path that was solved")
        }
    };
    records_of(&division.poses, joints)
}

fn records<'a>(
    poses: impl Iterator<Item = &'a [u64]>,
    joints: impl Iterator<Item = &'a [u64]>,
) -> Vec<Record> {
    let record = |(pose, set): (&[u64], &[u64])| {
        std::array::from_fn(|i| if i < POSE { pose[i] } else { set[i - POSE] })
    };
    poses.zip(joints).map(record).collect()
}

fn records_of(poses: &[f64], joints: &[f64]) -> Vec<Record> {
    let [poses, joints] =
        [poses, joints].map(|numbers| numbers.iter().map(|x| x.to_bits()).collect::<Vec<_>>());
    records(poses.chunks(POSE), joints.chunks(JOINTS))
}

/// What a call left at the front of the two outputs that it was lent.
fn records_left(told: &Told, rooms: Rooms, count: usize) -> Vec<Record> {
    let (poses, joints) = told.told.numbers.split_at(GUARD + rooms[0] + GUARD);
    let poses = poses[GUARD..].chunks(POSE);
    let joints = joints[GUARD..].chunks(JOINTS);
    records(poses.take(count), joints.take(count))
}

/// The records that were not given, if all that were given stand among them in order. Between two given poses none is
/// the second: a midpoint with its joints is not inserted.
fn inserted(records: &[Record], given: &[Record]) -> Option<Vec<Record>> {
    let mut given = given.iter().peekable();
    let mut inserted = records.to_vec();
    inserted.retain(|record| given.next_if_eq(&record).is_none());
    given.next().is_none().then_some(inserted)
}

/// Whether all of `fewer` stand among `more` in the same order.
fn among(fewer: &[Record], more: &[Record]) -> bool {
    let mut more = more.iter();
    fewer.iter().all(|record| more.any(|other| other == record))
}

/// What is broken, if anything, where a looser division with the same space tells this.
pub fn dearer(divided: &Divided, given: &[Record], told: &Told) -> Option<&'static str> {
    if told.told.number != 0 {
        return Some("it is refused");
    }
    let count = told.inserted[1] as usize;
    if count > divided.inserted {
        return Some("more are inserted");
    }
    let left = records_left(told, rooms(divided), given.len() + count);
    let before = inserted(&records_of(&divided.poses, &divided.joints), given);
    match (inserted(&left, given), before) {
        (Some(then), _) if then.len() != count => Some("another number is inserted than told"),
        (Some(then), Some(before)) if among(&then, &before) => None,
        (Some(_), Some(_)) => Some("one is inserted that was not before"),
        _ => Some("the given poses do not stand in order"),
    }
}

/// Asks the export for a looser division, with just the space that the stricter one needed.
pub fn ask_looser(division: &Division, divided: &Divided, which: usize, how: usize) -> Told {
    ask(&loosened(division, which, how), rooms(divided))
}

/// A divided path with the same tolerances, where it may be divided again: at most 100,000 poses with tips within
/// 100,000 mm.
pub fn repeated(division: &Division, divided: &Divided) -> Option<Division> {
    let mut tips = divided.poses.chunks(POSE).flat_map(|pose| &pose[..3]);
    let few = divided.poses.len() / POSE <= MOST_POSES;
    (few && tips.all(|x| x.abs() <= MOST_TIP)).then(|| Division {
        chain: division.chain.clone(),
        poses: divided.poses.clone(),
        from: From::Joints(divided.joints.clone()),
        tolerances: division.tolerances,
    })
}

/// What the second division must tell, with just the space for the path.
pub fn the_same(divided: &Divided) -> Told {
    let same = Divided {
        inserted: 0,
        ..divided.clone()
    };
    telling(Ok(&same), rooms(divided))
}

#[cfg(test)]
mod tests {
    use super::*;
    use crate::divided::{Verdict, expected};
    use crate::random::Random;

    /// Divisions that are accepted, with what they come to and their given joints.
    fn accepted() -> Vec<(Division, Divided, Vec<Record>)> {
        let mut random = Random::new(3);
        let mut accepted = Vec::new();
        while accepted.len() < 60 {
            for division in Division::drawn(&mut random) {
                let Verdict::Judged {
                    then: Ok(divided), ..
                } = expected(&division)
                else {
                    continue;
                };
                if divided.inserted > 1 {
                    let given = given(&division);
                    accepted.push((division, divided, given));
                }
            }
        }
        accepted
    }

    type Fault = fn(&Divided, &mut Told);

    const FAULTS: [(&str, Fault); 4] = [
        ("refused", |_, told| told.told.number = 28),
        ("a count above the stricter one", |divided, told| {
            told.inserted[1] = divided.inserted as u64 + 1;
        }),
        ("a count of one less", |_, told| told.inserted[1] -= 1),
        ("another bit in the second pose", |_, told| {
            told.told.numbers[GUARD + POSE] ^= 1;
        }),
    ];

    #[test]
    fn every_fault_is_noticed() {
        for (division, divided, given) in accepted() {
            let told = telling(Ok(&divided), rooms(&divided));
            assert_eq!(dearer(&divided, &given, &told), None, "{division}");
            for (words, fault) in FAULTS {
                let mut told = told.clone();
                fault(&divided, &mut told);
                assert!(dearer(&divided, &given, &told).is_some(), "{words}");
            }
        }
    }

    #[test]
    fn every_tolerance_is_finite_and_not_below() {
        let tolerances = [f64::from_bits(1), 0.01, 1e300, f64::MAX];
        for tolerance in tolerances {
            for how in 0..HOW.len() {
                let wider = wider(tolerance, how);
                assert!(wider.is_finite() && wider >= tolerance);
            }
        }
    }

    #[test]
    fn an_order_is_kept() {
        let record = |i: u64| [i; POSE + JOINTS];
        let more = [1, 2, 3, 2].map(record);
        assert!(among(&[1, 3].map(record), &more));
        assert!(among(&[2, 2].map(record), &more));
        assert!(!among(&[3, 1].map(record), &more));
        assert!(!among(&[1, 1].map(record), &more));
    }
}
