//! Cases of every entry that the Rust has, drawn as the comparisons draw them, with the Rust's answers.

use crate::calls::{self, GUARD, LENT};
use crate::cases::{self, Case};
use crate::courses::at_stops;
use crate::divided::{self, Answer, MOST_INSERTED};
use crate::divisions::{Division, From, Rooms, spaces};
use crate::inverse_calls::{self, LENT_COUNT};
use crate::inverse_cases;
use crate::inverse_reference;
use crate::loosened::{self, HOW, WHICH};
use crate::paths::{JOINTS, POSE, Path};
use crate::random::Random;
use crate::reference;
use crate::remarkable::too_many;
use crate::replayed::{FILLED, FILLED_COUNT, Given, Line, Replayed};
use crate::solved;
use crate::tooth_calls::{self, Toothed};

/// So many poses are given at most, that lines stay short.
const MOST_POSES: usize = 5;

/// What a comparison expects of lent numbers, without the guards, and with what the program fills them with.
fn lent(bits: &[u64]) -> Vec<f64> {
    let filled = |&bits: &u64| match bits {
        LENT => FILLED,
        _ => f64::from_bits(bits),
    };
    let inner = &bits[GUARD..bits.len() - GUARD];
    inner.iter().map(filled).collect()
}

fn count(count: u64) -> u64 {
    match count {
        LENT_COUNT => FILLED_COUNT,
        _ => count,
    }
}

fn few(poses: &[f64]) -> bool {
    poses.len() <= MOST_POSES * POSE
}

/// The chain check or forward.
pub fn of_chain(entry: cases::Entry, random: &mut Random) -> Option<Replayed> {
    of_machine(entry, &Case::of_chain(random))
}

/// The model check or a link frame.
pub fn of_model(entry: cases::Entry, random: &mut Random) -> Option<Replayed> {
    of_machine(entry, &Case::of_model(random))
}

fn of_machine(entry: cases::Entry, case: &Case) -> Option<Replayed> {
    let told = calls::telling(entry, case, &reference::expected(entry, case));
    let mut line = Line::new(entry.name(), told.number, told.at[1], told.letter[1]);
    if !matches!(entry, cases::Entry::CheckChain | cases::Entry::CheckModel) {
        line = line.numbers(&lent(&told.numbers));
    }
    let given = Given {
        bytes: &case.chain,
        texts: [&case.name, &case.model, &case.carrier],
        numbers: [&case.joints, &[], &[case.tool_length]],
        rooms: [case.room, 0],
        ..Given::default()
    };
    Replayed::new(line, &given)
}

/// Inverse or choose.
pub fn of_inverse(entry: inverse_cases::Entry, random: &mut Random) -> Option<Replayed> {
    let case = inverse_cases::Case::new(random);
    let answer = inverse_reference::expected(entry, &case);
    let told = inverse_calls::telling(entry, &case, &answer);
    let mut line = Line::new(entry.name(), told.number, told.at[1], told.letter[1]);
    if entry == inverse_cases::Entry::Inverse {
        line = line.count(count(told.count[1]));
    }
    Replayed::new(
        line.numbers(&lent(&told.numbers)),
        &Given {
            which: case.choice.min(u32::from(u16::MAX)) as u16,
            bytes: &case.chain,
            numbers: [&case.pose, &case.hint, &[case.tool_length]],
            rooms: [case.room(entry), 0],
            ..Given::default()
        },
    )
}

/// Choose on teeth. The tolerance stands behind the tool length.
pub fn of_teeth(random: &mut Random) -> Option<Replayed> {
    let toothed = Toothed::new(random);
    let (case, entry) = (&toothed.call, inverse_cases::Entry::Choose);
    let (answer, _) = tooth_calls::expected(&toothed);
    let told = inverse_calls::telling(entry, case, &answer);
    let line = Line::new("choose_tooth", told.number, told.at[1], told.letter[1]);
    Replayed::new(
        line.numbers(&lent(&told.numbers)),
        &Given {
            which: case.choice.min(u32::from(u16::MAX)) as u16,
            bytes: &case.chain,
            numbers: [
                &case.pose,
                &case.hint,
                &[case.tool_length, toothed.tolerance],
            ],
            rooms: [case.room(entry), 0],
            ..Given::default()
        },
    )
}

/// Mostly of some poses: the first of a path follows no other.
pub fn of_path(random: &mut Random) -> Option<Replayed> {
    let path = match random.below(8) {
        0 => at_stops(random),
        _ => Path::drawn(random),
    };
    let alone = path.poses.len() <= POSE;
    if !few(&path.poses) || (alone && random.below(8) > 0) {
        return None;
    }
    let told = solved::telling(&path, &solved::expected(&path));
    let line = Line::new("solve_path", told.number, told.at[1], told.letter[1]);
    Replayed::new(
        line.numbers(&lent(&told.numbers)),
        &Given {
            bytes: &path.chain,
            numbers: [&path.poses, &path.start, &[path.cone]],
            rooms: [path.room, 0],
            ..Given::default()
        },
    )
}

pub fn of_joints(random: &mut Random) -> Option<Replayed> {
    let [_, alone] = Division::drawn(random);
    of_division("subdivide_path", &alone, random)
}

pub fn of_both(random: &mut Random) -> Option<Replayed> {
    let [both, _] = Division::drawn(random);
    of_division("solve_and_divide", &both, random)
}

/// With one of the spaces that it is to be tried with. Mostly something is inserted; 27 has a case of its own.
fn of_division(entry: &str, division: &Division, random: &mut Random) -> Option<Replayed> {
    if !few(&division.poses) {
        return None;
    }
    let verdict = divided::expected(division);
    let spaces = spaces(&verdict, random);
    let rooms = spaces[random.below(spaces.len() as u64) as usize];
    let answer = verdict.with(rooms);
    if answer.is_ok_and(|divided| divided.inserted == 0) && random.below(16) > 0 {
        return None;
    }
    if answer.is_err_and(|refusal| refusal.number == 27) {
        return None;
    }
    of_rooms(entry, division, answer, rooms)
}

/// One that needs more insertions than may be, with space for as many as may be.
pub fn of_too_many(entry: &str) -> Option<Replayed> {
    let [both, alone] = too_many();
    let division = if entry == "subdivide_path" {
        alone
    } else {
        both
    };
    let rooms = roomy(&division);
    of_rooms(
        entry,
        &division,
        divided::expected(&division).with(rooms),
        rooms,
    )
}

/// Space for as many insertions as may be.
pub fn roomy(division: &Division) -> Rooms {
    let records = division.given() + MOST_INSERTED;
    [POSE * records, JOINTS * records]
}

/// so many divisions of given joints, each followed by a looser one with the same space and by its own result,
/// divided again. Every way to loosen comes in turn.
pub fn of_later(count: usize, random: &mut Random) -> Vec<Replayed> {
    let mut cases = Vec::new();
    for i in 0..count {
        let of_some = std::iter::repeat_with(|| later(i, random)).flatten();
        cases.extend(of_some.take(1).flatten());
    }
    cases
}

/// None where the path is long, or nothing is inserted.
fn later(i: usize, random: &mut Random) -> Option<Vec<Replayed>> {
    let [_, division] = Division::drawn(random);
    let verdict = divided::expected(&division);
    let divided::Verdict::Judged {
        then: Ok(divided), ..
    } = &verdict
    else {
        return None;
    };
    if divided.inserted == 0 || !few(&divided.poses) {
        return None;
    }
    let rooms = loosened::rooms(divided);
    let wider = loosened::loosened(&division, i % WHICH.len(), i / WHICH.len() % HOW.len());
    let again = loosened::repeated(&division, divided)?;
    [division, wider, again]
        .iter()
        .map(|division| {
            of_rooms(
                "subdivide_path",
                division,
                divided::expected(division).with(rooms),
                rooms,
            )
        })
        .collect()
}

/// What a call must tell with such a space.
pub fn of_rooms(
    entry: &str,
    division: &Division,
    answer: Answer,
    rooms: Rooms,
) -> Option<Replayed> {
    let told = divided::telling(answer, rooms);
    let [poses, joints] = lent_twice(&told.told.numbers, rooms);
    let (at, letter) = (told.told.at[1], told.told.letter[1]);
    let line = Line::new(entry, told.told.number, at, letter)
        .count(count(told.inserted[1]))
        .numbers(&poses)
        .numbers(&joints);
    let [chord, axis] = division.tolerances;
    let (second, single) = match &division.from {
        From::Joints(joints) => (joints, vec![chord, axis]),
        From::Start { start, cone } => (start, vec![*cone, chord, axis]),
    };
    Replayed::new(
        line,
        &Given {
            bytes: &division.chain,
            numbers: [&division.poses, second, &single],
            rooms,
            ..Given::default()
        },
    )
}

/// Poses and joints, each between guards of its own.
pub fn lent_twice(bits: &[u64], [poses, _]: Rooms) -> [Vec<f64>; 2] {
    let (poses, joints) = bits.split_at(GUARD + poses + GUARD);
    [lent(poses), lent(joints)]
}
