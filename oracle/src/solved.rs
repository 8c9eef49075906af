//! A call of solve_path, and what is expected of it. The Rust answers where it has the check, its words turned into document 01's
//! numbers; document 01 where it has not: the lengths (20), the bytes (29), the sizes (17), the room (28) and the angles of an
//! answer (26), each in its place; and document 02's R-3 for parallel rotaries (30), which the Rust serves. Where a lock leaves a
//! rotary's limits `stops` says what the Rust's steps come to.

use crate::calls::{GUARD, Guarded, LENT, LENT_AT, LENT_LETTER, Told};
use crate::joints::MOST_ANGLE;
use crate::maztubel::{self, Course};
use crate::original::ported::kinematics::FiveAxisSetup;
use crate::paths::{JOINTS, MOST_TIP, POSE, Path};
use crate::reading;
use crate::reference::{bare, chain_fits, exceeds, finite, joints_fit, refusal};
use crate::rust::ported;
use crate::stops;

/// So many poses are served.
pub const MOST_POSES: usize = 100_000;

/// A refusal's number, with the pose, the rotary or the offset, and the letter, that go with it, else 0. One at a pose clears what
/// is lent.
#[derive(Clone, Copy, Debug, PartialEq)]
pub struct Refusal {
    pub number: u32,
    pub at: u64,
    pub letter: u8,
    pub clears: bool,
}

/// The position and the angles at each pose, or a refusal.
pub type Answer = Result<Vec<f64>, Refusal>;

/// A refusal before the first pose.
fn before(number: u32, at: u64) -> Refusal {
    Refusal {
        number,
        at,
        letter: 0,
        clears: false,
    }
}

fn at_pose(number: u32, pose: usize, letter: u8) -> Refusal {
    Refusal {
        number,
        at: pose as u64,
        letter,
        clears: true,
    }
}

pub fn expected(path: &Path) -> Answer {
    let (count, room) = (path.poses.len() / POSE, path.room / JOINTS);
    let whole = path.poses.len().is_multiple_of(POSE) && path.room.is_multiple_of(JOINTS);
    if !whole || (!path.start.is_empty() && path.start.len() != JOINTS) {
        return Err(before(20, 0));
    }
    let chain = reading::chain(&path.chain).map_err(|offset| before(29, offset as u64))?;
    let setup = ported::setup(&chain);
    let number = |words: String| {
        if words == "singular_cone_deg must be in (0, 10]" {
            return before(18, 0);
        }
        let refusal = refusal(&words, &bare(&chain));
        before(refusal.number, refusal.at)
    };
    // The Rust judges cone, chain and start in one call. 30 stands behind the chain, so the start comes in a second one.
    ported::solve_path(&setup, &[], &[], path.cone).map_err(number)?;
    if setup.kinematics.parallel() {
        return Err(before(30, 0));
    }
    ported::solve_path(&setup, &[], &path.start, path.cone).map_err(number)?;
    let start_fits = path.start.is_empty() || joints_fit(&path.start);
    if !chain_fits(&chain) || !start_fits || count > MOST_POSES {
        return Err(before(17, 0));
    }
    if room < count {
        return Err(before(28, 0));
    }
    along(&setup, path)
}

/// The Rust's answer, with the rule for the stops.
fn along(setup: &FiveAxisSetup, path: &Path) -> Answer {
    along_by(path, |poses| {
        stops::solve_path(setup, poses, &path.start, path.cone)
    })
}

/// What `solve` answers of the path's poses, up to the first one whose tip is too large or whose angles are.
pub(crate) fn along_by(path: &Path, solve: impl Fn(&[f64]) -> ported::Told<Vec<f64>>) -> Answer {
    let far = path.poses.chunks(POSE).position(|pose| far(&pose[..3]));
    let answer = match far {
        None => solve(&path.poses),
        // What the Rust refuses at this pose before it reads the tip, and the tip.
        Some(pose) => {
            let mut poses = path.poses[..POSE * (pose + 1)].to_vec();
            poses[POSE * pose..][..3].fill(f64::NAN);
            solve(&poses)
        }
    };
    let words = match answer {
        Ok(joints) => return wound(&joints).map_or(Ok(joints), |pose| Err(at_pose(26, pose, 0))),
        Err(words) => words,
    };
    let pose = pose_in(&words);
    let joints = solve(&path.poses[..POSE * pose]).expect("the poses before the first refusal");
    if let Some(pose) = wound(&joints) {
        return Err(at_pose(26, pose, 0));
    }
    let (number, letter) = cause(&words, pose);
    match number {
        16 if far == Some(pose) => Err(at_pose(17, pose, letter)),
        _ => Err(at_pose(number, pose, letter)),
    }
}

pub(crate) fn far(tip: &[f64]) -> bool {
    finite(tip) && tip.iter().any(|&x| exceeds(x, MOST_TIP))
}

/// The first pose at which an angle is too large.
fn wound(joints: &[f64]) -> Option<usize> {
    let large = |set: &[f64]| set[3..].iter().any(|&x| exceeds(x, MOST_ANGLE));
    joints.chunks(JOINTS).position(large)
}

/// `pose 3 is unreachable`, `pose 3: tool tip must be finite`.
pub fn pose_in(words: &str) -> usize {
    let rest = words.strip_prefix("pose ").expect("a refusal at a pose");
    let digits = rest.chars().take_while(char::is_ascii_digit).count();
    rest[..digits].parse().expect("the index of a pose")
}

/// The number, and the letter of a rotary.
pub(crate) fn cause(words: &str, pose: usize) -> (u32, u8) {
    let rest = words.strip_prefix(&format!("pose {pose}"));
    match rest.expect("a refusal at a pose") {
        " is unreachable" => (25, 0),
        " flips the rotary branch" => (23, 0),
        ": tool tip must be finite" | ": joint position must be finite" => (16, 0),
        rest => match rest.strip_prefix(" leaves axis ").map(str::as_bytes) {
            Some(&[letter]) => (24, letter),
            _ => panic!("the Rust refuses with '{words}'"),
        },
    }
}

/// Calls the export. Each input stands between guards too, and all must stand as it did afterwards.
pub fn ask(path: &Path) -> Told {
    let chain = Guarded::bytes(&path.chain);
    let [poses, start] = [&path.poses, &path.start].map(|numbers| Guarded::numbers(numbers));
    let mut numbers = vec![f64::from_bits(LENT); GUARD + path.room + GUARD];
    let mut at = [LENT_AT; 3];
    let mut letter = [LENT_LETTER; 3];
    let course = Course {
        chain: chain.inner(),
        poses: poses.inner(),
        start: start.inner(),
        cone: path.cone,
    };
    let lent = &mut numbers[GUARD..GUARD + path.room];
    let number = maztubel::solve_path(course, lent, &mut at[1], &mut letter[1]);
    let kept = chain.kept() && poses.kept() && start.kept();
    assert!(kept, "an input was written to: {path}");
    Told {
        number,
        at,
        letter,
        numbers: numbers.iter().map(|x| x.to_bits()).collect(),
    }
}

/// What the call tells where it answers as it must.
pub fn telling(path: &Path, answer: &Answer) -> Told {
    let mut numbers = vec![LENT; GUARD + path.room + GUARD];
    let lent = &mut numbers[GUARD..GUARD + path.room];
    let (number, at, letter) = match answer {
        Ok(joints) => {
            lent.fill(0);
            for (bits, x) in lent.iter_mut().zip(joints) {
                *bits = x.to_bits();
            }
            (0, 0, 0)
        }
        Err(refusal) => {
            if refusal.clears {
                lent.fill(0);
            }
            (refusal.number, refusal.at, refusal.letter)
        }
    };
    Told {
        number,
        at: [LENT_AT, at, LENT_AT],
        letter: [LENT_LETTER, letter, LENT_LETTER],
        numbers,
    }
}

/// The same difference on fewer poses: as many are left out as can be, from the end and from the beginning.
pub fn reduced(path: &Path, differs: impl Fn(&Path) -> bool) -> Path {
    let mut path = path.clone();
    let mut step = path.poses.len() / POSE;
    while step > 0 {
        let count = path.poses.len() / POSE;
        let mut smaller = None;
        for from in (0..count).rev().step_by(step) {
            let first = (from + 1).saturating_sub(step);
            let mut less = path.clone();
            less.poses.drain(POSE * first..POSE * (from + 1));
            if differs(&less) {
                smaller = Some(less);
                break;
            }
        }
        match smaller {
            Some(less) => path = less,
            None => step /= 2,
        }
    }
    path
}

#[cfg(test)]
mod tests {
    use super::*;
    use crate::chains::Chain;
    use crate::random::Random;

    /// A path of two poses that is served, with a start.
    fn sound() -> Path {
        let mut path = Path::long(2, &mut Random::new(1));
        path.start = vec![0.0; JOINTS];
        path
    }

    type Change = fn(&mut Path);

    /// The second rotary, behind the first, gets its axis.
    fn make_parallel(chain: &mut [u8]) {
        chain.copy_within(16..40, 88);
    }

    /// The number, and whether what is lent is cleared.
    fn refused(changes: &[Change]) -> (u32, bool) {
        let mut path = sound();
        for change in changes {
            change(&mut path);
        }
        let refusal = expected(&path).err();
        refusal.map_or((0, false), |refusal| (refusal.number, refusal.clears))
    }

    /// Each change brings a refusal of its own, and with all those behind it the same.
    #[test]
    fn checks_stand_in_order() {
        let changes: [(u32, Change); 8] = [
            (20, |path| path.start.truncate(4)),
            (29, |path| path.chain[1] = 1),
            (18, |path| path.cone = 0.0),
            (4, |path| path.chain[8] = b'D'),
            (30, |path| make_parallel(&mut path.chain)),
            (16, |path| path.start[4] = f64::INFINITY),
            (17, |path| path.start[0] = 2e7),
            (28, |path| path.room = JOINTS),
        ];
        assert_eq!(refused(&[]), (0, false));
        for first in 0..changes.len() {
            let (number, change) = changes[first];
            assert_eq!(refused(&[change]), (number, false));
            let all: Vec<_> = changes[first..]
                .iter()
                .rev()
                .map(|(_, change)| *change)
                .collect();
            assert_eq!(refused(&all), (number, false));
        }
    }

    /// 1e-9 is not shorter than 1e-9. Neither sign nor length matters, and one rotary is not parallel to anything.
    #[test]
    fn parallel_is_short_of_1e_9() {
        let with = |count: u8, scale: f64, off: f64| {
            let mut chain = Chain {
                count,
                spindle: [0.0, 0.0, 1.0],
                ..Chain::default()
            };
            (chain.rotaries[0].letter, chain.rotaries[1].letter) = (b'A', b'B');
            chain.rotaries[0].axis = [1.0, 0.0, 0.0];
            chain.rotaries[1].axis = [scale, scale * off, 0.0];
            let path = Path {
                chain: chain.bytes(),
                cone: 1.0,
                ..Path::default()
            };
            expected(&path).err().map(|refusal| refusal.number)
        };
        for scale in [1.0, -1.0, 5.0, -0.125, 1e-14, 1e150] {
            assert_eq!(with(2, scale, 0.0), Some(30));
            assert_eq!(with(2, scale, 0.999e-9), Some(30));
            assert_eq!(with(2, scale, 1.001e-9), None);
            assert_eq!(with(1, scale, 0.0), None);
        }
        assert_eq!(with(2, 1.0, 1e-9), None);
        assert_eq!(with(2, 1.0, 1e-9f64.next_down()), Some(30));
    }

    #[test]
    fn a_pose_is_judged_axis_first() {
        let far: Change = |path| path.poses[POSE] = 2e5;
        let no_number: Change = |path| path.poses[POSE + 1] = f64::NAN;
        let no_axis: Change = |path| path.poses[POSE + 3..].fill(0.0);
        assert_eq!(refused(&[far]), (17, true));
        assert_eq!(refused(&[far, no_number]), (16, true));
        assert_eq!(refused(&[far, no_number, no_axis]), (25, true));
        assert_eq!(refused(&[far, no_axis]), (25, true));
    }

    #[test]
    fn a_difference_is_reduced_to_its_poses() {
        let mut path = Path::long(50, &mut Random::new(1));
        path.poses[POSE * 31] = 7.0;
        let shows = |path: &Path| path.poses.contains(&7.0);
        assert_eq!(reduced(&path, shows).poses.len(), POSE);
    }
}
