//! What comes of dividing paths: how often each answer was met, on each type of machine and with each kind of space,
//! the differences from what is expected, and how far the answers lie from those that the Rust gives with libm. Every
//! division that is served is also divided with looser tolerances, and its result once more.

use crate::divided::{Answer, Divided, MOST_INSERTED, Told, Verdict, ask, expected, telling};
use crate::divided_with_libm::WithLibm;
use crate::divisions::{Division, From, Rooms, spaces};
use crate::loosened::{self, HOW, Record, WHICH};
use crate::met::{Account, Differences, Met};
use crate::original::ported::kinematics::{Joints, Kinematics, ToolPose};
use crate::parts::Outcome;
use crate::paths::{JOINTS, POSE};
use crate::random::Random;
use crate::reading;
use crate::remarkable::{long, remarkable};
use crate::rust::ported;
use crate::solved::MOST_POSES;
use crate::stops;
use crate::ways::{MACHINES, kind};
use crate::zigzags::needing;
use std::process::ExitCode;

/// A difference is reduced where few poses are inserted, by at most so many tries.
const FEW: u64 = 1000;
const TRIES: usize = 200;

/// One of so many divisions is looked into, by its neighbours and by what libm gives.
const LOOKED_INTO: u64 = 4;

/// Of a divided path so many pairs of neighbours are looked at.
const LOOKED_AT: usize = 4;

/// The two entries.
const ALONE: &str = "subdivide_path";
const BOTH: &str = "solve_and_divide";

/// What both can answer, and what only solving can.
const ANSWERED: [&str; 18] = [
    "served",
    "3",
    "4",
    "5",
    "6",
    "7",
    "8",
    "9",
    "16",
    "17",
    "19",
    "20",
    "27",
    "28 before the halving",
    "28 at the first insertion",
    "28 at a later one",
    "29",
    "30",
];
const SOLVING: [&str; 9] = [
    "18",
    "16 at a pose",
    "17 at a pose",
    "23",
    "24 A",
    "24 B",
    "24 C",
    "25",
    "26",
];

/// A path that is solved past a pose whose lock leaves a rotary's limits.
const STOP: &str = "lock left, exact taken";

/// How many poses are inserted where nothing is refused.
const INSERTED: [&str; 5] = [
    "none inserted",
    "1 inserted",
    "2 to 9 inserted",
    "10 to 99 inserted",
    "100 to 999 inserted",
];

/// What the spaces and the neighbours of a served path are.
const SPACES: [&str; 3] = [
    "no record of space left",
    "outputs of different spaces",
    "no poses",
];
const NEIGHBOURS: [&str; 4] = [
    "neighbours with a gap of just the tolerance",
    "neighbours that fail and are too close",
    "neighbours a whole turn or more apart",
    "neighbours with opposite axes",
];

/// What a looser division, and a second one, of a served path must be met with.
const FEWER: &str = "looser, fewer inserted";
const AGAIN: &str = "divided again";

/// Long paths, and those that need as many insertions as may be, or one less, or one more: each once at least.
const LONG: &str = "served, 100000 poses, thousands inserted";
const NEEDED: [&str; 3] = ["needs 9999", "needs 10000", "needs 10001"];

#[derive(Default)]
pub struct Insertions {
    met: Met,
    calls: [u64; 2],
    /// How many looser divisions there were: each way to loosen comes in turn.
    loosened: usize,
    poses: u64,
    differences: Differences,
    with_libm: [WithLibm; 2],
}

impl Outcome for Insertions {
    fn add(&mut self, more: Insertions) {
        self.met.add(more.met);
        for (calls, more) in self.calls.iter_mut().zip(more.calls) {
            *calls += more;
        }
        self.loosened += more.loosened;
        self.poses += more.poses;
        self.differences.add(more.differences);
        for (sum, more) in self.with_libm.iter_mut().zip(more.with_libm) {
            sum.add(more);
        }
    }
}

impl Insertions {
    /// So many paths for each of the two.
    pub fn compare_drawn(&mut self, paths: u64, random: &mut Random) {
        for _ in 0..paths {
            for division in Division::drawn(random) {
                self.compare(&division, random);
            }
        }
    }

    /// Paths that need as many insertions as may be, or one less, or one more.
    pub fn compare_exact(&mut self, random: &mut Random) {
        for count in MOST_INSERTED - 1..=MOST_INSERTED + 1 {
            for solved in [false, true] {
                let division = needing(count, solved, random);
                self.needed(&division, count);
                self.compare(&division, random);
            }
        }
    }

    /// Remarkable paths with every space, and long ones.
    pub fn compare_others(&mut self, random: &mut Random) {
        for division in remarkable() {
            self.compare_each_space(&division);
        }
        for division in long(random) {
            self.compare(&division, random);
        }
    }

    /// Calls the export with several spaces, and holds what it tells to what it must tell. One in `LOOKED_INTO` is looked into.
    pub fn compare(&mut self, division: &Division, random: &mut Random) {
        let verdict = expected(division);
        let spaces = spaces(&verdict, random);
        self.compare_with(division, &verdict, &spaces);
        self.compare_later(division, &verdict, 1);
        if random.below(LOOKED_INTO) == 0 {
            self.look_into(division, &verdict);
        }
    }

    /// The same with every space up to three records more than enough.
    pub fn compare_each_space(&mut self, division: &Division) {
        let verdict = expected(division);
        let most = match &verdict {
            Verdict::Judged { given, then, .. } => {
                given + then.as_ref().map_or(0, |divided| divided.inserted) + 3
            }
            Verdict::Refused(_) => division.given() + 3,
        };
        let spaces = (0..=most)
            .flat_map(|poses| (0..=most).map(move |joints| [POSE * poses, JOINTS * joints]));
        self.compare_with(division, &verdict, &spaces.collect::<Vec<_>>());
        self.compare_later(division, &verdict, WHICH.len() * HOW.len());
        self.look_into(division, &verdict);
    }

    fn compare_with(&mut self, division: &Division, verdict: &Verdict, spaces: &[Rooms]) {
        for &rooms in spaces {
            self.hold(division, verdict, rooms, &ask(division, rooms));
        }
        if let Verdict::Judged {
            then: Ok(divided), ..
        } = verdict
        {
            self.look(division, divided);
        }
    }

    /// Of a division that is served where there is space: so many looser ones, and the divided path again.
    fn compare_later(&mut self, division: &Division, verdict: &Verdict, ways: usize) {
        let Verdict::Judged {
            then: Ok(divided), ..
        } = verdict
        else {
            return;
        };
        let given = loosened::given(division);
        for _ in 0..ways {
            let (which, how) = (
                self.loosened % WHICH.len(),
                self.loosened / WHICH.len() % HOW.len(),
            );
            self.loosened += 1;
            let told = loosened::ask_looser(division, divided, which, how);
            self.hold_looser(division, divided, &given, [which, how], &told);
        }
        if let Some(again) = loosened::repeated(division, divided) {
            let told = ask(&again, loosened::rooms(divided));
            self.hold_again(division, divided, &again, &told);
        }
    }

    fn hold_looser(
        &mut self,
        division: &Division,
        divided: &Divided,
        given: &[Record],
        [which, how]: [usize; 2],
        told: &Told,
    ) {
        let entry = entry(division);
        self.calls[usize::from(entry == ALONE)] += 1;
        let words = format!("{entry}, looser: {}, {}", WHICH[which], HOW[how]);
        let fewer = told.inserted[1] < divided.inserted as u64;
        self.met.count_if(&format!("{entry}, {FEWER}"), fewer);
        self.met.count(words.as_str());
        if let Some(broken) = loosened::dearer(divided, given, told) {
            let example = || format!("{words}: {broken}: {division}\n    told {told}");
            self.differences.note(example);
        }
    }

    fn hold_again(
        &mut self,
        division: &Division,
        divided: &Divided,
        again: &Division,
        told: &Told,
    ) {
        self.calls[usize::from(entry(again) == ALONE)] += 1;
        self.met.count(format!("{}, {AGAIN}", entry(division)));
        let must = loosened::the_same(divided);
        if *told != must {
            let rest = first_differences(told, &must);
            self.differences
                .note(|| format!("{AGAIN}: {again}\n{rest}"));
        }
    }

    pub fn hold(&mut self, division: &Division, verdict: &Verdict, rooms: Rooms, told: &Told) {
        let answer = verdict.with(rooms);
        let must = telling(answer, rooms);
        let entry = entry(division);
        self.calls[usize::from(entry == ALONE)] += 1;
        self.met.count(format!("{entry}, {}", answered(answer)));
        let mut answers = answer.iter().flat_map(|divided| divided.numbers());
        if *told != must || !answers.all(|x| x.is_finite()) {
            self.differences.note(|| example(division, rooms, told));
        } else if let Ok(divided) = answer {
            let space = rooms[0] / POSE == divided.poses.len() / POSE;
            self.met.count_if(&format!("{entry}, {}", SPACES[0]), space);
            let apart = rooms[0] / POSE != rooms[1] / JOINTS;
            self.met.count_if(&format!("{entry}, {}", SPACES[1]), apart);
            let empty = divided.poses.is_empty();
            self.met.count_if(&format!("{entry}, {}", SPACES[2]), empty);
        }
    }

    /// At a division that is served where there is space.
    fn look(&mut self, division: &Division, divided: &Divided) {
        let chain = reading::chain(&division.chain).expect("a chain that is served");
        let entry = entry(division);
        self.poses += (divided.poses.len() / POSE) as u64;
        self.met.count(format!("{entry}, {}", inserted(divided)));
        if divided.inserted > 0 {
            let machine = kind(&chain);
            self.met.count(format!("{entry}, inserted on {machine}"));
        }
        if let From::Start { start, cone } = &division.from {
            let setup = ported::setup(&chain);
            let (_, stops) = stops::with_stops(&setup, &division.poses, start, *cone);
            let what = format!("{entry}, {STOP}");
            self.met.count_if(&what, !stops.is_empty());
        }
        if division.given() == MOST_POSES && divided.inserted > 1000 {
            self.met.count(format!("{entry}, {LONG}"));
        }
    }

    /// At the neighbours, and at what libm gives.
    fn look_into(&mut self, division: &Division, verdict: &Verdict) {
        let Verdict::Judged { then, .. } = verdict else {
            return;
        };
        let chain = reading::chain(&division.chain).expect("a chain that is served");
        let halved = match then {
            Ok(divided) => {
                self.look_at_neighbours(division, divided);
                Ok(divided)
            }
            Err(refusal) if refusal.number == 27 => Err(refusal),
            Err(_) => return,
        };
        let alone = usize::from(entry(division) == ALONE);
        self.with_libm[alone].see(division, &chain, halved);
    }

    fn look_at_neighbours(&mut self, division: &Division, divided: &Divided) {
        let chain = reading::chain(&division.chain).expect("a chain that is served");
        let rust = ported::setup(&chain).kinematics;
        let count = divided.poses.len() / POSE;
        let item = |i: usize| {
            let pose = ported::tool_pose(&divided.poses[POSE * i..]);
            (pose, ported::joint_set(&divided.joints[JOINTS * i..]))
        };
        let pairs = 0..count.saturating_sub(1);
        for i in pairs.step_by(count.div_ceil(LOOKED_AT).max(1)) {
            let met = neighbours(&rust, item(i), item(i + 1), division.tolerances);
            for (words, met) in NEIGHBOURS.iter().zip(met) {
                self.met.count_if(words, met);
            }
        }
    }

    /// A division that was made to need so many insertions.
    pub fn needed(&mut self, division: &Division, count: usize) {
        let holds = match expected(division) {
            Verdict::Judged {
                then: Ok(divided), ..
            } => divided.inserted == count,
            Verdict::Judged {
                then: Err(refusal), ..
            } => refusal.number == 27 && count == MOST_INSERTED + 1,
            Verdict::Refused(_) => false,
        };
        let what = format!("{}, needs {count}", entry(division));
        self.met.count_if(&what, holds);
    }

    pub fn differences(&self) -> u64 {
        self.differences.count()
    }

    /// Status 1 where there is a difference, or where something was met less often than `fewest` times.
    pub fn print(&self, fewest: u64) -> ExitCode {
        let rare = self.met.print(all(fewest));
        let calls: u64 = self.calls.iter().sum();
        println!("{calls} calls, {} poses of served paths", self.poses);
        for (with_libm, entry) in self.with_libm.iter().zip([BOTH, ALONE]) {
            with_libm.print(entry);
        }
        let different = self.differences.print("divisions");
        ExitCode::from(u8::from(different || rare))
    }
}

impl Account for Insertions {
    fn calls(&self) -> Vec<(&'static str, u64)> {
        [BOTH, ALONE].into_iter().zip(self.calls).collect()
    }

    fn noted(&self) -> Vec<&Differences> {
        vec![&self.differences]
    }

    fn unmet(&self) -> Vec<String> {
        self.met.unmet(all(1).into_iter().map(|(what, _)| what))
    }
}

/// All that must be met, with how often.
fn all(fewest: u64) -> Vec<(String, u64)> {
    let mut all = Vec::new();
    for entry in [ALONE, BOTH] {
        let only = if entry == BOTH { &SOLVING[..] } else { &[] };
        let often = [&ANSWERED[..], only, &INSERTED, &SPACES].concat();
        all.extend(
            often
                .iter()
                .map(|what| (format!("{entry}, {what}"), fewest)),
        );
        let machines = MACHINES.map(|machine| format!("{entry}, inserted on {machine}"));
        all.extend(machines.map(|what| (what, fewest)));
        let later = [FEWER, AGAIN].map(|what| format!("{entry}, {what}"));
        all.extend(later.map(|what| (what, fewest)));
        let ways = WHICH.iter().flat_map(|which| HOW.map(|how| (*which, how)));
        let ways = ways.map(|(which, how)| format!("{entry}, looser: {which}, {how}"));
        all.extend(ways.map(|what| (what, fewest)));
        if entry == BOTH {
            all.push((format!("{entry}, {STOP}"), fewest));
        }
        let once = [LONG].into_iter().chain(NEEDED);
        all.extend(once.map(|what| (format!("{entry}, {what}"), 1)));
    }
    all.extend(NEIGHBOURS.map(|what| (what.to_owned(), fewest)));
    all
}

/// Which of `NEIGHBOURS` two are.
fn neighbours(
    rust: &Kinematics,
    left: (ToolPose, Joints),
    right: (ToolPose, Joints),
    [chord, axis]: [f64; 2],
) -> [bool; 4] {
    let [tip_gap, axis_gap] = rust.gaps(left, right).expect("neighbours that are reached");
    let turn = |slot: usize| (left.1.angles[slot] - right.1.angles[slot]).abs() >= 360.0;
    let [one, other] = [left, right].map(|(_, joints)| {
        let pose = rust.forward(&joints, 0.0).expect("a pose that is reached");
        [pose.axis.x(), pose.axis.y(), pose.axis.z()]
    });
    let opposite = one.iter().zip(other).all(|(x, y)| (x + y).abs() < 1e-12);
    [
        tip_gap == chord || axis_gap == axis,
        tip_gap > chord || axis_gap > axis,
        turn(0) || turn(1),
        opposite,
    ]
}

fn entry(division: &Division) -> &'static str {
    match division.from {
        From::Joints(_) => ALONE,
        From::Start { .. } => BOTH,
    }
}

fn inserted(divided: &Divided) -> &'static str {
    match divided.inserted {
        0 => INSERTED[0],
        1 => INSERTED[1],
        2..=9 => INSERTED[2],
        10..=99 => INSERTED[3],
        _ => INSERTED[4],
    }
}

pub(crate) fn answered(answer: Answer) -> String {
    let refusal = match answer {
        Ok(_) => return "served".to_owned(),
        Err(refusal) => refusal,
    };
    match (refusal.number, refusal.clears) {
        (24, _) => format!("24 {}", char::from(refusal.letter)),
        (number @ (16 | 17), true) => format!("{number} at a pose"),
        (28, _) => match (refusal.short, refusal.inserted) {
            (true, _) => "28 before the halving".to_owned(),
            (false, 0) => "28 at the first insertion".to_owned(),
            _ => "28 at a later one".to_owned(),
        },
        (number, _) => number.to_string(),
    }
}

/// A difference, on as few poses as show one, and the first lent numbers that differ.
fn example(division: &Division, rooms: Rooms, told: &Told) -> String {
    let must = |division: &Division, rooms| telling(expected(division).with(rooms), rooms);
    let differs = |division: &Division, rooms| ask(division, rooms) != must(division, rooms);
    let few = must(division, rooms).inserted[1] <= FEW;
    let (division, rooms) = match few && differs(division, rooms) {
        true => reduced(division, rooms, differs),
        false => (division.clone(), rooms),
    };
    let again = ask(&division, rooms);
    let told = if again == must(&division, rooms) {
        told
    } else {
        &again
    };
    let must = must(&division, rooms);
    let entry = entry(&division);
    format!(
        "{entry}: {division} rooms {rooms:?}\n{}",
        first_differences(told, &must)
    )
}

pub(crate) fn first_differences(told: &Told, must: &Told) -> String {
    let brief = |told: &Told| {
        let Told { told, inserted } = told;
        let (number, at, letter) = (told.number, told.at, told.letter);
        format!("number {number}, inserted {inserted:?}, at {at:?}, letter {letter:?}")
    };
    let mut words = format!("    told {}\n    must {}", brief(told), brief(must));
    let pairs = told.told.numbers.iter().zip(&must.told.numbers);
    let differing = pairs.enumerate().filter(|(_, (told, must))| told != must);
    for (i, (told, must)) in differing.take(6) {
        words += &format!("\n    lent number {i}: told {told:016X}, must {must:016X}");
    }
    words
}

/// The same difference on fewer poses: as many are left out as can be with some tries, and as much space.
fn reduced(
    division: &Division,
    rooms: Rooms,
    differs: impl Fn(&Division, Rooms) -> bool,
) -> (Division, Rooms) {
    let (mut division, mut rooms) = (division.clone(), rooms);
    let mut step = division.given();
    let mut tries = 0;
    while step > 0 && tries < TRIES {
        let count = division.given();
        let mut firsts = (0..count).step_by(step);
        let less = firsts.find_map(|first| {
            tries += 1;
            let less = without(&division, rooms, first, (first + step).min(count));
            (tries <= TRIES && differs(&less.0, less.1)).then_some(less)
        });
        match less {
            Some(less) => (division, rooms) = less,
            None => step /= 2,
        }
    }
    (division, rooms)
}

fn without(division: &Division, rooms: Rooms, first: usize, end: usize) -> (Division, Rooms) {
    let mut less = division.clone();
    less.poses.drain(POSE * first..POSE * end);
    if let From::Joints(joints) = &mut less.from {
        let whole = joints.len();
        joints.drain((JOINTS * first).min(whole)..(JOINTS * end).min(whole));
    }
    let [poses, joints] = rooms;
    let fewer = end - first;
    let rooms = [
        poses.saturating_sub(POSE * fewer),
        joints.saturating_sub(JOINTS * fewer),
    ];
    (less, rooms)
}

#[cfg(test)]
mod tests {
    use super::*;
    use crate::calls::{GUARD, LENT};

    type Fault = fn(Rooms, &mut Told);

    /// Compares what an export with a fault would tell, and gives how often that was noticed.
    fn noticed(fault: Fault) -> u64 {
        let mut random = Random::new(7);
        let mut insertions = Insertions::default();
        for _ in 0..1500 {
            for division in Division::drawn(&mut random) {
                let verdict = expected(&division);
                for rooms in spaces(&verdict, &mut random) {
                    let mut told = telling(verdict.with(rooms), rooms);
                    fault(rooms, &mut told);
                    insertions.hold(&division, &verdict, rooms, &told);
                }
            }
        }
        insertions.differences()
    }

    /// The lent joints without their guards.
    fn joints(rooms: Rooms, told: &mut Told) -> &mut [u64] {
        let start = GUARD + rooms[0] + GUARD + GUARD;
        &mut told.told.numbers[start..start + rooms[1]]
    }

    const FAULTS: [(&str, Fault); 13] = [
        ("a count of 0", |_, told| told.inserted[1] = 0),
        ("a count of the space", |rooms, told| {
            if told.told.number == 0 {
                told.inserted[1] = (rooms[0] / POSE) as u64;
            }
        }),
        ("a count with 19", |_, told| {
            if told.told.number == 19 {
                told.inserted[1] = 1;
            }
        }),
        ("27 for 28", |_, told| {
            if told.told.number == 28 {
                told.told.number = 27;
            }
        }),
        ("28 where the space is just enough", |rooms, told| {
            let poses = rooms[0] / POSE;
            if told.told.number == 0 && told.inserted[1] > 0 && poses as u64 == told.inserted[1] + 2
            {
                told.told.number = 28;
            }
        }),
        ("the place of 28", |_, told| {
            if told.told.number == 28 {
                told.told.at[1] = 1;
            }
        }),
        ("joints kept at 28", |rooms, told| {
            if told.told.number == 28 {
                joints(rooms, told).fill(LENT);
            }
        }),
        ("joints cleared with 17", |rooms, told| {
            if told.told.number == 17 {
                joints(rooms, told).fill(0);
            }
        }),
        ("joints cleared with 30", |rooms, told| {
            if told.told.number == 30 {
                joints(rooms, told).fill(0);
            }
        }),
        ("joints cleared with 20", |rooms, told| {
            if told.told.number == 20 {
                joints(rooms, told).fill(0);
            }
        }),
        ("the rest of the longer output left", |rooms, told| {
            if told.told.number == 0 && rooms[1] / JOINTS > rooms[0] / POSE {
                *joints(rooms, told).last_mut().expect("a record") = LENT;
            }
        }),
        ("a last place of the first tip", |rooms, told| {
            if told.told.number == 0 && rooms[0] > 0 {
                told.told.numbers[GUARD] ^= 1;
            }
        }),
        ("a number behind the poses", |rooms, told| {
            told.told.numbers[GUARD + rooms[0]] = 0;
        }),
    ];

    #[test]
    fn every_fault_is_noticed() {
        assert_eq!(noticed(|_, _| ()), 0);
        for (words, fault) in FAULTS {
            assert!(noticed(fault) > 0, "{words}");
        }
    }
}
