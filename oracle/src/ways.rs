//! What comes of calling solve_path: how often each answer was met, and each way to a pose on each type of machine, the
//! differences from what is expected, and how far the answers lie from those that the Rust gives with libm.

use crate::calls::Told;
use crate::chains::Chain;
use crate::courses::at_stops;
use crate::from_libm::FromLibm;
use crate::lean::dot;
use crate::met::{Account, Differences, Met};
use crate::original::ported::kinematics::Way;
use crate::parts::Outcome;
use crate::paths::{JOINTS, POSE, Path};
use crate::random::Random;
use crate::reading;
use crate::rust::ported;
use crate::solved::{Answer, MOST_POSES, Refusal, ask, cause, expected, pose_in, reduced, telling};
use crate::stops::{self, Exact, Stop};
use std::process::ExitCode;

/// Of a path so many poses are looked at for the ways to them.
const LOOKED_AT: usize = 40;

/// The numbers that solve_path can answer, 0 for a path that is served; 16 and 17 are counted apart at a pose and before the first.
const ANSWERED: [&str; 28] = [
    "served",
    "3",
    "4",
    "5",
    "6",
    "7",
    "8",
    "9",
    "16",
    "16 at a pose",
    "17",
    "17 at a pose",
    "18",
    "20",
    "23",
    "24 A",
    "24 B",
    "24 C",
    "24 in the cone",
    "25",
    "25 within 1e-7 of the reach",
    "26",
    "28",
    "29",
    "30",
    "30 a place below 1e-9",
    "30 on axes that are opposite",
    "30 without a pose",
];

/// Long paths that must be served, each once at least.
const LONG: [&str; 2] = ["served, 5000 poses", "served, 100000 poses"];

/// How a pose is solved: outside the cone, on every machine the first and on those of two rotaries the next, then inside it.
const EXACT: [&str; 4] = [
    "exact: one solution",
    "exact: the closest of two",
    "exact: the farther of two",
    "exact: the farther, 90 degrees off",
];
const CONE: [&str; 4] = [
    "cone: locked",
    "cone: the pole",
    "cone: lock left, exact taken",
    "cone: lock left, exact refused",
];

/// A path with a pose whose lock leaves a rotary's limits.
const LEFT: &str = "a lock left";

/// What the exact rule comes to where the lock leaves a rotary's limits, and where that is.
const STOPS: [&str; 9] = [
    "lock left: exact flips the branch",
    "lock left: exact leaves the same axis",
    "lock left: exact leaves the other axis",
    "lock left: exact unreachable",
    "lock left: exact past 36,000",
    "lock left: at the first pose, exact taken",
    "lock left: twice on a path, exact taken",
    "lock left: toward the pole, exact taken",
    "lock left: locked again behind it",
];

/// What a pose meets exactly.
const EXACTLY: [&str; 6] = [
    "two solutions as near",
    "on the cone's border",
    "on a limit",
    "half a turn on",
    "at 36,000 degrees",
    "rotaries just not parallel",
];

/// The machines, each with the limits of its rotaries.
pub(crate) const MACHINES: [&str; 6] = ["T", "H", "TT", "HH", "TH", "HT"];
const LIMITED: [&str; 4] = [
    "no limits",
    "first limited",
    "second limited",
    "both limited",
];

#[derive(Default)]
pub struct Ways {
    met: Met,
    calls: u64,
    poses: u64,
    differences: Differences,
    from_libm: FromLibm,
}

impl Outcome for Ways {
    fn add(&mut self, more: Ways) {
        self.met.add(more.met);
        self.calls += more.calls;
        self.poses += more.poses;
        self.differences.add(more.differences);
        self.from_libm.add(more.from_libm);
    }
}

impl Ways {
    /// As many of any course, and as many beside a stop.
    pub fn compare_drawn(&mut self, paths: u64, random: &mut Random) {
        for _ in 0..paths {
            self.compare(&Path::drawn(random));
            let beside = at_stops(random);
            self.hold(&beside, &ask(&beside));
        }
    }

    /// Paths of 5,000 poses, of as many as are served, and of one more.
    pub fn compare_long(&mut self, random: &mut Random) {
        for _ in 0..16 {
            self.compare(&Path::long(5000, random));
        }
        self.compare(&Path::long(MOST_POSES, random));
        let mut path = Path::long(MOST_POSES + 1, random);
        for room in [path.room, 0] {
            path.room = room;
            self.compare(&path);
        }
        path.start = vec![f64::NAN; 5];
        self.compare(&path);
    }

    /// Calls the export, holds what it tells to what it must tell, and that to what libm gives. At a stop libm is not asked: which
    /// side of it an angle falls is decided by the last place there.
    pub fn compare(&mut self, path: &Path) {
        if let Some((answer, stopped)) = self.hold(path, &ask(path)) {
            let chain = reading::chain(&path.chain).expect("a chain whose poses are looked at");
            self.from_libm.see(path, &chain, &answer, stopped);
        }
    }

    /// What was told as it must be of a path that comes to its poses, and whether a lock leaves a rotary's limits there.
    pub fn hold(&mut self, path: &Path, told: &Told) -> Option<(Answer, bool)> {
        let answer = expected(path);
        let must = telling(path, &answer);
        self.calls += 1;
        self.met.count(answered(&answer));
        let all_finite = answer.iter().flatten().all(|x| x.is_finite());
        if *told != must || !all_finite {
            self.differences.note(|| example(path, told));
            return None;
        }
        match &answer {
            Ok(joints) => {
                self.poses += (joints.len() / JOINTS) as u64;
                self.look(path, joints);
            }
            Err(refusal) if refusal.clears => self.look_at_refusal(path, refusal),
            Err(refusal) => {
                if refusal.number == 30 {
                    self.look_at_parallel(path);
                }
                return None;
            }
        }
        let stopped = self.look_at_stops(path, &answer);
        Some((answer, stopped))
    }

    /// At a path that is served.
    fn look(&mut self, path: &Path, joints: &[f64]) {
        let chain = reading::chain(&path.chain).expect("a chain that is served");
        self.met.count(machine(&chain));
        let long = format!("served, {} poses", path.poses.len() / POSE);
        self.met.count_if(&long, LONG.contains(&long.as_str()));
        let rust = ported::setup(&chain).kinematics;
        self.met.count_if(EXACTLY[5], rust.across() == Some(1e-9));
        let mut previous = match path.start[..] {
            [_, _, _, first, second] => [first, second],
            _ => [0.0; 2],
        };
        let poses = path.poses.chunks(POSE).zip(joints.chunks(JOINTS));
        let mut left_before = false;
        for (pose, set) in poses.take(LOOKED_AT) {
            let axis = ported::tool_pose(pose).axis;
            let way = rust.way(&ported::tool_pose(pose), previous, path.cone);
            let (way, all) = way.expect("a pose that is solved");
            self.met
                .count(format!("{}, {}", words(way, &all), kind(&chain)));
            self.met.count_if(EXACTLY[0], as_near(&all, previous));
            let left = matches!(way, Way::LockLeft | Way::PoleLeft);
            let locked = matches!(way, Way::Locked | Way::Pole);
            let in_cone = left || locked;
            self.met.count_if(STOPS[7], way == Way::PoleLeft);
            self.met.count_if(STOPS[8], left_before && locked);
            left_before = left;
            self.met.count_if(
                EXACTLY[1],
                in_cone && rust.clearance(axis) == Some(path.cone),
            );
            for (slot, rotary) in chain.present().enumerate() {
                let angle = set[3 + slot];
                let limit = rotary.limited == 1 && rotary.limits.contains(&angle);
                self.met.count_if(EXACTLY[2], limit);
                self.met
                    .count_if(EXACTLY[3], (angle - previous[slot]).abs() == 180.0);
                self.met.count_if(EXACTLY[4], angle.abs() == 36_000.0);
            }
            previous = [set[3], set[4]];
        }
    }

    /// At the poses that were come to and whose lock leaves a rotary's limits. Whether there are any.
    fn look_at_stops(&mut self, path: &Path, answer: &Answer) -> bool {
        let chain = reading::chain(&path.chain).expect("a chain whose poses are looked at");
        let setup = ported::setup(&chain);
        let (_, mut stops) = stops::with_stops(&setup, &path.poses, &path.start, path.cone);
        if let Err(refusal) = answer {
            stops.retain(|stop| pose_in(&stop.lock) as u64 <= refusal.at);
        }
        let taken: Vec<&Stop> = stops
            .iter()
            .filter(|stop| stop.exact == Exact::Taken)
            .collect();
        self.met.count_if(LEFT, !stops.is_empty());
        let first = taken.iter().any(|stop| pose_in(&stop.lock) == 0);
        self.met.count_if(STOPS[5], first);
        self.met.count_if(STOPS[6], taken.len() > 1);
        for stop in &stops {
            if let Some(what) = refused_at(stop) {
                self.met.count(STOPS[what]);
                self.met.count(format!("{}, {}", CONE[3], kind(&chain)));
            }
        }
        !stops.is_empty()
    }

    /// At a pose that is refused.
    fn look_at_refusal(&mut self, path: &Path, refusal: &Refusal) {
        let chain = reading::chain(&path.chain).expect("a chain whose poses are looked at");
        let rust = ported::setup(&chain).kinematics;
        self.met.count_if(EXACTLY[5], rust.across() == Some(1e-9));
        let axis = ported::tool_pose(&path.poses[POSE * refusal.at as usize..]).axis;
        let in_cone = rust
            .clearance(axis)
            .is_some_and(|degrees| degrees <= path.cone);
        self.met
            .count_if("24 in the cone", refusal.number == 24 && in_cone);
        let nearly = refusal.number == 25 && rust.nearly_reaches(axis);
        self.met.count_if("25 within 1e-7 of the reach", nearly);
    }

    /// At rotaries that are refused on a path.
    fn look_at_parallel(&mut self, path: &Path) {
        let chain = reading::chain(&path.chain).expect("a chain that is judged");
        let across = ported::setup(&chain).kinematics.across();
        let [first, second] = chain.rotaries.map(|rotary| rotary.axis);
        let below = across == Some(1e-9f64.next_down());
        self.met.count_if("30 a place below 1e-9", below);
        let opposite = dot(first, second) < 0.0;
        self.met.count_if("30 on axes that are opposite", opposite);
        let empty = path.poses.is_empty();
        self.met.count_if("30 without a pose", empty);
    }

    pub fn differences(&self) -> u64 {
        self.differences.count()
    }

    /// Status 1 where there is a difference, or where something was met less often than `fewest` times, or a lock left on fewer paths
    /// than `left`.
    pub fn print(&self, fewest: u64, left: u64) -> ExitCode {
        let long = LONG.map(|what| (what.to_owned(), 1));
        let all = all().into_iter().map(|what| (what, fewest)).chain(long);
        let all = all.chain([(LEFT.to_owned(), left)]);
        let rare = self.met.print(all);
        println!("{} poses of served paths", self.poses);
        self.from_libm.print();
        let different = self.differences.print("paths");
        ExitCode::from(u8::from(different || rare))
    }
}

impl Account for Ways {
    fn calls(&self) -> Vec<(&'static str, u64)> {
        vec![("solve_path", self.calls)]
    }

    fn noted(&self) -> Vec<&Differences> {
        vec![&self.differences]
    }

    fn unmet(&self) -> Vec<String> {
        let others = [LONG[0], LONG[1], LEFT].map(str::to_owned);
        let unmet = self.met.unmet(all().into_iter().chain(others));
        unmet
            .iter()
            .map(|what| format!("solve_path, {what}"))
            .collect()
    }
}

/// All that must be met.
fn all() -> Vec<String> {
    let mut all: Vec<String> = ANSWERED.iter().map(|&words| words.to_owned()).collect();
    for machine in MACHINES {
        let states = if machine.len() == 1 { 2 } else { 4 };
        all.extend(
            LIMITED[..states]
                .iter()
                .map(|limits| format!("{machine}, {limits}")),
        );
    }
    let on = |ways: &[&str], machine: &str| -> Vec<String> {
        ways.iter().map(|way| format!("{way}, {machine}")).collect()
    };
    for machine in MACHINES {
        let exact = if machine.len() == 1 { 1 } else { EXACT.len() };
        all.extend(on(&EXACT[..exact], machine));
    }
    for machine in &MACHINES[2..] {
        all.extend(on(&CONE, machine));
    }
    all.extend(EXACTLY.map(str::to_owned));
    all.extend(STOPS.map(str::to_owned));
    all
}

/// Which of `EXACT` or of `CONE`.
fn words(way: Way, all: &[[f64; 2]]) -> &'static str {
    let apart = |slot: usize| (all[0][slot] - all[1][slot]).abs();
    match way {
        Way::Alone => EXACT[0],
        Way::Closest => EXACT[1],
        Way::Other if apart(0).max(apart(1)) == 90.0 => EXACT[3],
        Way::Other => EXACT[2],
        Way::Locked => CONE[0],
        Way::Pole => CONE[1],
        Way::LockLeft | Way::PoleLeft => CONE[2],
    }
}

/// Which of `STOPS`, where the exact solution is not taken.
fn refused_at(stop: &Stop) -> Option<usize> {
    let pose = pose_in(&stop.lock);
    let words = match &stop.exact {
        Exact::Taken => return None,
        Exact::PastMost => return Some(4),
        Exact::Refused(words) => words,
    };
    match (cause(words, pose), cause(&stop.lock, pose)) {
        ((23, _), _) => Some(0),
        ((24, letter), (_, locks)) => Some(1 + usize::from(letter != locks)),
        ((25, _), _) => Some(3),
        _ => None,
    }
}

fn as_near(all: &[[f64; 2]], previous: [f64; 2]) -> bool {
    let distance = |angles: &[f64; 2]| {
        let [first, second] = [0, 1].map(|slot| angles[slot] - previous[slot]);
        (first * first + second * second).sqrt()
    };
    matches!(all, [one, other] if distance(one) == distance(other))
}

fn answered(answer: &Answer) -> String {
    match answer {
        Ok(_) => "served".to_owned(),
        Err(refusal) => match (refusal.number, refusal.clears) {
            (24, _) => format!("24 {}", char::from(refusal.letter)),
            (number @ (16 | 17), true) => format!("{number} at a pose"),
            (number, _) => number.to_string(),
        },
    }
}

pub(crate) fn kind(chain: &Chain) -> String {
    let carrier = |carrier| if carrier == 0 { 'T' } else { 'H' };
    chain
        .present()
        .map(|rotary| carrier(rotary.carrier))
        .collect()
}

fn machine(chain: &Chain) -> String {
    let limited = chain.present().map(|rotary| usize::from(rotary.limited));
    let state: usize = limited
        .enumerate()
        .map(|(slot, limited)| limited << slot)
        .sum();
    format!("{}, {}", kind(chain), LIMITED[state])
}

/// A difference, on as few poses as show one.
fn example(path: &Path, told: &Told) -> String {
    let differs = |path: &Path| ask(path) != telling(path, &expected(path));
    if !differs(path) {
        let must = telling(path, &expected(path));
        return format!("solve_path: {path}\n    told {told}\n    must {must}");
    }
    let path = reduced(path, differs);
    let (told, must) = (ask(&path), telling(&path, &expected(&path)));
    format!("solve_path: {path}\n    told {told}\n    must {must}")
}

#[cfg(test)]
mod tests {
    use super::*;
    use crate::calls::GUARD;
    use crate::solved::along_by;

    type Fault = fn(&Path, &mut Told);

    /// Compares what an export with a fault would tell, up to the first time that it is noticed.
    fn noticed(fault: Fault) -> u64 {
        let mut random = Random::new(7);
        let mut ways = Ways::default();
        for _ in 0..9000 {
            let path = Path::drawn(&mut random);
            let mut told = telling(&path, &expected(&path));
            fault(&path, &mut told);
            ways.hold(&path, &told);
            if ways.differences() > 0 {
                break;
            }
        }
        ways.differences()
    }

    const FAULTS: [(&str, Fault); 10] = [
        ("the pose behind the one at fault", |_, told| {
            if (23..=26).contains(&told.number) {
                told.at[1] += 1;
            }
        }),
        ("the other letter", |_, told| {
            if told.number == 24 {
                told.letter[1] ^= 1;
            }
        }),
        ("a letter left over", |_, told| {
            if told.number == 23 {
                told.letter[1] = b'A';
            }
        }),
        ("joints kept at a refusal of a pose", |path, told| {
            if told.number == 25 && path.room > 0 {
                told.numbers[GUARD] = 1;
            }
        }),
        ("joints cleared where there is no room", |path, told| {
            if told.number == 28 {
                told.numbers[GUARD..GUARD + path.room].fill(0);
            }
        }),
        ("the rest left as it was", |path, told| {
            if told.number == 0 && path.room > path.poses.len() / POSE * JOINTS {
                told.numbers[GUARD + path.room - 1] = 1;
            }
        }),
        ("a last place of the first angle", |path, told| {
            if told.number == 0 && path.room > 0 {
                told.numbers[GUARD + 3] ^= 1;
            }
        }),
        ("parallel rotaries behind the start", |path, told| {
            if told.number == 30 && path.start.iter().any(|x| !x.is_finite()) {
                told.number = 16;
            }
        }),
        ("joints cleared with 30", |path, told| {
            if told.number == 30 {
                told.numbers[GUARD..GUARD + path.room].fill(0);
            }
        }),
        ("the cone behind the start", |path, told| {
            if told.number == 18 && path.start.iter().any(|x| !x.is_finite()) {
                told.number = 16;
            }
        }),
    ];

    type Set = [f64; JOINTS];
    type Rule = fn(ported::Told<Set>, &dyn Fn() -> ported::Told<Set>) -> ported::Told<Set>;

    fn leaves(locked: &ported::Told<Set>) -> bool {
        locked
            .as_ref()
            .is_err_and(|words| words.contains(" leaves axis "))
    }

    fn far(set: &Set) -> bool {
        set[3..].iter().any(|angle| angle.abs() > 36_000.0)
    }

    /// Compares what an export with another rule inside the cone would tell, and gives how often that was noticed.
    fn noticed_rule(rule: Rule) -> u64 {
        let mut random = Random::new(7);
        let mut ways = Ways::default();
        for _ in 0..3000 {
            let path = at_stops(&mut random);
            let chain = reading::chain(&path.chain).expect("a chain that was made");
            let setup = ported::setup(&chain);
            let answer = along_by(&path, |poses| {
                ported::solve_by(&setup, poses, &path.start, path.cone, rule)
            });
            ways.hold(&path, &telling(&path, &answer));
        }
        ways.differences()
    }

    /// The right rule, and wrong ones.
    const RIGHT: Rule = |locked, exact| match exact() {
        Ok(set) if leaves(&locked) && !far(&set) => Ok(set),
        _ => locked,
    };
    const RULES: [(&str, Rule); 5] = [
        ("the lock, whatever it comes to", |locked, _| locked),
        ("the exact rule's refusal handed on", |locked, exact| {
            if leaves(&locked) { exact() } else { locked }
        }),
        (
            "an exact angle past 36,000 taken",
            |locked, exact| match exact() {
                Ok(set) if leaves(&locked) => Ok(set),
                _ => locked,
            },
        ),
        (
            "the exact rule for a locked angle past 36,000 too",
            |locked, exact| match (&locked, exact()) {
                (Ok(lock), Ok(set)) if far(lock) && !far(&set) => Ok(set),
                (Err(_), Ok(set)) if leaves(&locked) && !far(&set) => Ok(set),
                _ => locked,
            },
        ),
        ("the exact rule first", |locked, exact| match exact() {
            Ok(set) if !far(&set) => Ok(set),
            _ => locked,
        }),
    ];

    #[test]
    fn every_wrong_rule_is_noticed() {
        assert_eq!(noticed_rule(RIGHT), 0);
        for (words, rule) in RULES {
            assert!(noticed_rule(rule) > 0, "{words}");
        }
    }

    #[test]
    fn every_fault_is_noticed() {
        assert_eq!(noticed(|_, _| ()), 0);
        for (words, fault) in FAULTS {
            assert!(noticed(fault) > 0, "{words}");
        }
    }
}
