//! Every slice of numbers of every entry at lengths 0 to 64, among guard words and at starts that no record is aligned to, and with
//! either end against memory that may not be touched. A call says 20 exactly where a length is broken, reads and writes no word
//! outside what it is lent, and answers alike wherever that stands.

mod common;

use common::fenced::{FLUSHES, Fenced, Flush};
use common::*;
use maztubel::flat::{self, Told};
use std::slice;

/// What stands before a call in an output.
const BEFORE: f64 = 7.25;

/// An entry as a call on its slices: those it reads, then those it writes.
type Ask<'a> = &'a dyn Fn(&[&[f64]], &mut [&mut [f64]]) -> Told;

/// What a call tells, and the bits of each output.
type Answer = (Told, Vec<Vec<u64>>);

/// What stands around a slice, and how many words of it on each side.
#[derive(Clone, Copy)]
struct Guard {
    word: f64,
    pad: usize,
}

const GUARDS: [Guard; 3] = [
    Guard {
        word: f64::NAN,
        pad: 7,
    },
    Guard { word: 0.0, pad: 8 },
    Guard {
        word: 1e300,
        pad: 11,
    },
];

fn guarded(numbers: &[f64], guard: Guard) -> Vec<f64> {
    let around = vec![guard.word; guard.pad];
    [&around, numbers, &around].concat()
}

fn bits(numbers: &[f64]) -> Vec<u64> {
    numbers.iter().map(|number| number.to_bits()).collect()
}

fn called(read: &[Vec<f64>], written: &[usize], guard: Guard, ask: Ask) -> Answer {
    let inputs: Vec<Vec<f64>> = read.iter().map(|numbers| guarded(numbers, guard)).collect();
    let mut outputs: Vec<Vec<f64>> = written
        .iter()
        .map(|n| guarded(&vec![BEFORE; *n], guard))
        .collect();
    let lent: Vec<&[f64]> = inputs
        .iter()
        .map(|all| &all[guard.pad..all.len() - guard.pad])
        .collect();
    let mut room: Vec<&mut [f64]> = outputs
        .iter_mut()
        .map(|all| {
            let end = all.len() - guard.pad;
            &mut all[guard.pad..end]
        })
        .collect();
    let told = ask(&lent, &mut room);
    for (all, numbers) in inputs.iter().zip(read) {
        assert_eq!(
            bits(all),
            bits(&guarded(numbers, guard)),
            "a slice that is read was written"
        );
    }
    let left = outputs.iter().map(|all| {
        let inside = &all[guard.pad..all.len() - guard.pad];
        assert_eq!(
            bits(all),
            bits(&guarded(inside, guard)),
            "written outside a slice"
        );
        bits(inside)
    });
    (told, left.collect())
}

/// The same with each slice in a fence of its own.
fn fenced(
    read: &[Vec<f64>],
    written: &[usize],
    flush: Flush,
    fences: &mut [Fenced],
    ask: Ask,
) -> Answer {
    let (inputs, outputs) = fences.split_at_mut(read.len());
    let lent = inputs.iter_mut().zip(read);
    let lent: Vec<&[f64]> = lent
        .map(|(fence, numbers)| &*fence.lend(numbers, flush))
        .collect();
    let room = outputs.iter_mut().zip(written);
    let mut room: Vec<&mut [f64]> = room
        .map(|(fence, length)| fence.lend(&vec![BEFORE; *length], flush))
        .collect();
    let told = ask(&lent, &mut room);
    (told, room.iter().map(|output| bits(output)).collect())
}

/// Each slice in turn at each length, the others as given, and then all at one length. `whole` says whether the lengths, in the
/// order of the slices, are sound.
fn every_length(read: &[Vec<f64>], written: &[usize], ask: Ask, whole: &dyn Fn(&[usize]) -> bool) {
    let given: Vec<usize> = read
        .iter()
        .map(Vec::len)
        .chain(written.iter().copied())
        .collect();
    let fence = |length: &usize| Fenced::new(8 * length.max(&64));
    let mut fences: Vec<Fenced> = given.iter().map(fence).collect();
    for length in 0..=64 {
        for slice in 0..=given.len() {
            let mut lengths = given.clone();
            match lengths.get_mut(slice) {
                Some(one) => *one = length,
                None => lengths.fill(length),
            }
            one_length(read, &lengths, &mut fences, ask, whole(&lengths));
        }
    }
    one_length(read, &given, &mut fences, ask, true);
}

fn one_length(read: &[Vec<f64>], lengths: &[usize], fences: &mut [Fenced], ask: Ask, whole: bool) {
    let repeated = |(numbers, length): (&Vec<f64>, &usize)| {
        numbers.iter().copied().cycle().take(*length).collect()
    };
    let inputs: Vec<Vec<f64>> = read.iter().zip(lengths).map(repeated).collect();
    let written = &lengths[read.len()..];
    let answers = GUARDS.map(|guard| called(&inputs, written, guard, ask));
    let (told, outputs) = &answers[0];
    assert_eq!(told.number != 20, whole, "lengths {lengths:?}: {told:?}");
    if told.number == 20 {
        let kept = |output: &Vec<u64>| output.iter().all(|word| *word == BEFORE.to_bits());
        assert!(
            outputs.iter().all(kept),
            "lengths {lengths:?}: 20 and not kept"
        );
    }
    assert!(
        answers.iter().all(|answer| *answer == answers[0]),
        "lengths {lengths:?}: read outside"
    );
    for flush in FLUSHES {
        let answer = fenced(&inputs, written, flush, fences, ask);
        assert_eq!(answer, answers[0], "lengths {lengths:?}: elsewhere");
    }
}

#[test]
fn of_numbers() {
    let xs = vec![0.25, -0.5, 0.125];
    let same = |lengths: &[usize]| lengths.iter().all(|length| *length == lengths[0]);
    for ask in [flat::sines, flat::cosines, flat::arccosines] {
        every_length(slice::from_ref(&xs), &[3], &|r, w| ask(r[0], w[0]), &same);
    }
    every_length(
        &[xs.clone(), xs],
        &[3],
        &|r, w| flat::arctangents(r[0], r[1], w[0]),
        &same,
    );
}

/// The answer that is lent alone, where it is written and where it is kept.
#[test]
fn of_one_answer() {
    let mut fence = Fenced::new(8);
    for (flush, x) in FLUSHES
        .iter()
        .flat_map(|flush| [(*flush, 0.25), (*flush, 900.0)])
    {
        let arctangent = |y, answer: &mut f64| flat::arctangent(y, 1.0, answer);
        for ask in [flat::sine, flat::cosine, flat::arccosine, arctangent] {
            let mut elsewhere = BEFORE;
            let told = ask(x, &mut elsewhere);
            let lent = fence.lend(&[BEFORE], flush);
            assert_eq!((ask(x, &mut lent[0]), lent[0]), (told, elsewhere));
        }
    }
}

#[test]
fn of_forward() {
    let chain = tables().bytes();
    let joints = vec![1.0, 2.0, 3.0, 40.0, 50.0];
    every_length(
        &[joints],
        &[6],
        &|r, w| flat::forward(&chain, r[0], 10.0, w[0]),
        &|l| l == [5, 6],
    );
}

#[test]
fn of_inverse() {
    let chain = tables().bytes();
    let read = [pose_numbers(&arc(2))[6..].to_vec(), vec![5.0, 6.0]];
    every_length(
        &read,
        &[250],
        &|r, w| flat::inverse(&chain, r[0], 10.0, r[1], w[0]),
        &|l| l == [6, 2, 250],
    );
    for choice in [flat::NEAREST, flat::FIRST_POSITIVE, flat::FIRST_NEGATIVE] {
        let ask: Ask = &|r, w| flat::choose(&chain, r[0], 10.0, choice, r[1], w[0]);
        every_length(&read, &[5], ask, &|l| l == [6, 2, 5]);
        let ask: Ask = &|r, w| flat::choose_tooth(&chain, r[0], 10.0, choice, r[1], 180.0, w[0]);
        every_length(&read, &[5], ask, &|l| l == [6, 2, 5]);
    }
}

#[test]
fn of_link_frames() {
    let chain = tables().bytes();
    for ask in [flat::link_world, flat::link_in_part] {
        let ask: Ask = &|r, w| ask(b"mill", &chain, &[], r[0], b"C", w[0]);
        every_length(&[vec![1.0, 2.0, 3.0, 40.0, 50.0]], &[12], ask, &|l| {
            l == [5, 12]
        });
    }
}

fn start_good(length: usize) -> bool {
    length == 0 || length == 5
}

#[test]
fn of_solve_path() {
    let chain = tables().bytes();
    let read = [pose_numbers(&arc(2)), vec![0.0, 0.0, 0.0, 10.0, 20.0]];
    let whole = |l: &[usize]| l[0].is_multiple_of(6) && start_good(l[1]) && l[2].is_multiple_of(5);
    every_length(
        &read,
        &[15],
        &|r, w| flat::solve_path(&chain, r[0], r[1], 1.0, w[0]),
        &whole,
    );
}

/// Two poses with their joints, and whether the lengths of poses, joints and two buffers of such records are sound.
fn two_given() -> [Vec<f64>; 2] {
    [
        pose_numbers(&arc(2)),
        vec![0.0, 0.0, 50.0, 0.0, 0.0, 1.0, 0.0, 50.0, 10.0, 0.0],
    ]
}

fn sound(l: &[usize], records: [usize; 2]) -> bool {
    l[0].is_multiple_of(6)
        && l[1].is_multiple_of(5)
        && l[0] / 6 == l[1] / 5
        && l[2].is_multiple_of(records[0])
        && l[3].is_multiple_of(records[1])
}

fn of_dividing(divide: Dividing) {
    let chain = tables().bytes();
    let ask: Ask = &|r, w| {
        let [poses, joints] = w else { unreachable!() };
        divide(&chain, r[0], r[1], 0.01, 1.0, poses, joints)
    };
    every_length(&two_given(), &[90, 75], ask, &|l| sound(l, [6, 5]));
}

#[test]
fn of_subdivide_path() {
    of_dividing(flat::subdivide_path);
}

#[test]
fn of_subdivide_strict() {
    of_dividing(flat::subdivide_strict);
}

/// Scratches of so few numbers are 28 once their records are whole, and then +0.0.
fn of_quoting(quote: Quoting) {
    let chain = tables().bytes();
    let ask: Ask = &|r, w| {
        let [joints, tips] = w else { unreachable!() };
        let (mut poses, mut evaluations) = (9, 9);
        let (out, count) = (&mut poses, &mut evaluations);
        let told = quote(&chain, r[0], r[1], 0.01, 1.0, joints, tips, out, count);
        assert!(matches!(told.number, 20 | 28));
        assert_eq!((told.count, poses, evaluations), (0, 0, 0));
        let after = if told.number == 28 { 0.0 } else { BEFORE };
        let mut scratch = joints.iter().chain(&**tips);
        assert!(scratch.all(|number| number.to_bits() == after.to_bits()));
        told
    };
    every_length(&two_given(), &[25, 15], ask, &|l| sound(l, [5, 3]));
}

#[test]
fn of_quote() {
    of_quoting(flat::quote);
}

#[test]
fn of_quote_strict() {
    of_quoting(flat::quote_strict);
}

#[test]
fn of_solve_and_divide() {
    let chain = tables().bytes();
    let read = [pose_numbers(&arc(2)), vec![0.0, 0.0, 0.0, 10.0, 20.0]];
    let whole = |l: &[usize]| {
        l[0].is_multiple_of(6)
            && start_good(l[1])
            && l[2].is_multiple_of(6)
            && l[3].is_multiple_of(5)
    };
    let ask: Ask = &|r, w| {
        let [poses, joints] = w else { unreachable!() };
        flat::solve_and_divide(&chain, r[0], r[1], 1.0, 0.01, 1.0, poses, joints)
    };
    every_length(&read, &[90, 75], ask, &whole);
}

/// 28 keeps the poses too, which `every_length` asks of 20 alone.
#[test]
fn of_job_poses() {
    for count in [0, 2] {
        let job = job_bytes(&tables(), &arc(count));
        let ask: Ask = &|_, w| {
            let told = flat::job_poses(&job, w[0]);
            assert!(told.number == 0 || w[0].iter().all(|number| *number == BEFORE));
            assert_eq!(
                told.number == 28,
                w[0].len() % 6 == 0 && w[0].len() < 6 * count
            );
            told
        };
        every_length(&[], &[6 * count], ask, &|l| l[0].is_multiple_of(6));
    }
}

/// The job is held to the one that is packed by hand, in a room for any of them.
#[test]
fn of_write_job() {
    const ROOM: usize = 1000;
    for chain in [table_a().bytes(), tables().bytes()] {
        let ask: Ask = &|r, _| {
            let mut job = [9; ROOM];
            let [cone, chord, axis] = NUMBERS;
            let told = flat::write_job(&chain, r[0], cone, chord, axis, &mut job);
            let mut expected = match told.number {
                0 => packed(&chain, r[0], NUMBERS),
                _ => vec![],
            };
            assert_eq!(told.count, expected.len() as u64);
            expected.resize(ROOM, 9);
            assert_eq!(job[..], expected);
            told
        };
        let poses = pose_numbers(&arc(2));
        every_length(&[poses], &[], ask, &|l| l[0].is_multiple_of(6));
    }
}

/// The lent number goes with the answer as its count.
#[test]
fn of_cable_number() {
    let chain = tables().bytes();
    for (rotary, turns) in [(0, 1), (1, 2), (2, 0), (u64::MAX, 0)] {
        let ask: Ask = &|r, _| {
            let mut number = 9;
            let told = flat::cable_number(&chain, r[0], rotary, &mut number);
            let expected = match (told.number, r[0].len()) {
                (0, 0) => 0,
                (0, _) => turns,
                _ => 9,
            };
            assert_eq!(number, expected);
            Told {
                count: number,
                ..told
            }
        };
        let joints = vec![1.0, 2.0, 3.0, -400.0, 720.0];
        every_length(&[joints], &[], ask, &|l| l[0].is_multiple_of(5));
    }
}

/// How many numbers the summary of so many has.
fn summary_of(numbers: usize) -> usize {
    (numbers / 5).div_ceil(64) * 10
}

#[test]
fn of_build_extremes() {
    let ask: Ask = &|r, w| flat::build_extremes(r[0], w[0]);
    let whole = |l: &[usize]| l[0].is_multiple_of(5) && l[1] == summary_of(l[0]);
    every_length(&[vec![1.0, 2.0, 3.0, 40.0, 50.0]], &[10], ask, &whole);
}

/// Joints and summary are both written, and the joints hold what stands in them before.
#[test]
fn of_replace_joints() {
    for index in [0, 1, 4] {
        let ask: Ask = &|r, w| {
            let [joints, summary] = w else { unreachable!() };
            flat::replace_joints(joints, summary, index as u64, r[0])
        };
        let whole = |l: &[usize]| {
            let sets = l[1] / 5;
            l[0] == 5 && l[1].is_multiple_of(5) && index < sets && l[2] == summary_of(l[1])
        };
        let fresh = vec![1.0, 2.0, 3.0, 40.0, 50.0];
        every_length(&[fresh], &[5 * (index + 1), 10], ask, &whole);
    }
}

/// The lent numbers go with the answer as its count.
#[test]
fn of_first_above() {
    let joints = vec![1.0, 2.0, 3.0, 40.0, 50.0];
    let summary = [&joints[..], &joints[..]].concat();
    let whole = |l: &[usize]| l[0].is_multiple_of(5) && l[1] == summary_of(l[0]);
    for (rotary, angle, above) in [(0, 39.0, 1), (0, 40.0, 0), (1, 49.0, 1), (1, 50.0, 0)] {
        let ask: Ask = &|r, _| {
            let (mut found, mut index) = (9, 9);
            let told = flat::first_above(r[0], r[1], rotary, angle, &mut found, &mut index);
            let expected = match (told.number, r[0].len()) {
                (0, 0) => (0, 0),
                (0, _) => (above, 0),
                _ => (9, 9),
            };
            assert_eq!((found, index), expected);
            Told {
                count: found,
                ..told
            }
        };
        every_length(&[joints.clone(), summary.clone()], &[], ask, &whole);
    }
}

/// A slice of numbers as balances, by their bits.
fn balances(numbers: &mut [f64]) -> &mut [u64] {
    // SAFETY: both have eight bytes and are aligned alike, every bit pattern is one of either, and the borrow goes over.
    unsafe { slice::from_raw_parts_mut(numbers.as_mut_ptr().cast(), numbers.len()) }
}

/// Each balance is the bits of 7.25, which is above the limit.
#[test]
fn of_grant() {
    let ask: Ask = &|_, w| flat::grant(balances(w[0]), 3, 5);
    every_length(&[], &[32], ask, &|l| l == [32]);
}

#[test]
fn of_divide_for() {
    let chain = tables().bytes();
    let read = [
        pose_numbers(&arc(2)),
        vec![0.0, 0.0, 50.0, 0.0, 0.0, 1.0, 0.0, 50.0, 10.0, 0.0],
    ];
    let whole = |l: &[usize]| {
        l[0].is_multiple_of(6)
            && l[1].is_multiple_of(5)
            && l[0] / 6 == l[1] / 5
            && l[2] == 32
            && l[3].is_multiple_of(6)
            && l[4].is_multiple_of(5)
    };
    let ask: Ask = &|r, w| {
        let [all, poses, joints] = w else {
            unreachable!()
        };
        flat::divide_for(
            balances(all),
            3,
            &chain,
            r[0],
            r[1],
            0.01,
            1.0,
            poses,
            joints,
        )
    };
    every_length(&read, &[32, 90, 75], ask, &whole);
}

/// The lent numbers go with the answer as its count.
#[test]
fn of_links_meet() {
    let chain = tables().bytes();
    let ask: Ask = &|r, _| {
        let [mut found, mut pose, mut first, mut second] = [9; 4];
        let told = flat::links_meet(
            b"mill",
            &chain,
            &[],
            r[0],
            &mut found,
            &mut pose,
            &mut first,
            &mut second,
        );
        let expected = if told.number == 0 { 0 } else { 9 };
        assert_eq!([found, pose, first, second], [expected; 4]);
        Told {
            count: found,
            ..told
        }
    };
    let joints = vec![1.0, 2.0, 3.0, 40.0, 50.0];
    every_length(&[joints], &[], ask, &|l| l[0].is_multiple_of(5));
}

/// A slice of numbers as words, by their bits.
fn words(numbers: &[f64]) -> &[u64] {
    // SAFETY: as above.
    unsafe { slice::from_raw_parts(numbers.as_ptr().cast(), numbers.len()) }
}

/// Two poses with joints for them.
fn pair() -> [Vec<f64>; 2] {
    let joints = vec![0.0, 0.0, 50.0, 0.0, 0.0, 1.0, 0.0, 50.0, 10.0, 0.0];
    [pose_numbers(&arc(2)), joints]
}

/// A dispatcher with a path in outputs of 5 poses: its words, by their bits, and its numbers.
fn with_a_path() -> [Vec<f64>; 2] {
    let (mut words, mut numbers) = ([0; 145], vec![0.0; 368]);
    let [poses, joints] = pair();
    let told = flat::admit(
        &mut words,
        &mut numbers,
        &tables().bytes(),
        &poses,
        &joints,
        0.01,
        1.0,
        &mut [0.0; 30],
        &mut [0.0; 25],
        &mut 0,
    );
    assert_eq!(told.number, 0);
    [words.map(f64::from_bits).to_vec(), numbers]
}

/// Without a path beforehand.
#[test]
fn of_admit() {
    let chain = tables().bytes();
    let whole = |l: &[usize]| {
        l[0].is_multiple_of(6)
            && l[1].is_multiple_of(5)
            && l[0] / 6 == l[1] / 5
            && l[2..4] == [145, 368]
            && l[4].is_multiple_of(6)
            && l[5].is_multiple_of(5)
    };
    let ask: Ask = &|r, w| {
        let [words, numbers, poses, joints] = w else {
            unreachable!()
        };
        let state = [vec![0.0; words.len()], vec![0.0; numbers.len()]];
        in_a_state(&state, words, numbers, |words, numbers| {
            flat::admit(
                words, numbers, &chain, r[0], r[1], 0.01, 1.0, poses, joints, &mut 0,
            )
        })
    };
    every_length(&pair(), &[145, 368, 90, 75], ask, &whole);
}

#[test]
fn of_next() {
    let [state, _] = with_a_path();
    let ask: Ask = &|r, _| flat::next(words(r[0]), &mut 0);
    every_length(&[state], &[], ask, &|l| l == [145]);
}

/// Calls with the front of a state in the lent words and numbers. A 20 keeps it, and then leaves them as they were lent.
fn in_a_state(
    state: &[Vec<f64>; 2],
    words: &mut [f64],
    numbers: &mut [f64],
    call: impl FnOnce(&mut [u64], &mut [f64]) -> Told,
) -> Told {
    let front = |lent: &[f64], part: usize| lent.len().min(state[part].len());
    let fronts = [front(words, 0), front(numbers, 1)];
    words[..fronts[0]].copy_from_slice(&state[0][..fronts[0]]);
    numbers[..fronts[1]].copy_from_slice(&state[1][..fronts[1]]);
    let told = call(balances(words), numbers);
    if told.number == 20 {
        assert_eq!(bits(&words[..fronts[0]]), bits(&state[0][..fronts[0]]));
        assert_eq!(bits(&numbers[..fronts[1]]), bits(&state[1][..fronts[1]]));
        words.fill(BEFORE);
        numbers.fill(BEFORE);
    }
    told
}

/// The path that waits was admitted with 5 poses' space.
#[test]
fn of_turn() {
    let before = with_a_path();
    let ask: Ask = &|_, w| {
        let [words, numbers, poses, joints] = w else {
            unreachable!()
        };
        in_a_state(&before, words, numbers, |words, numbers| {
            flat::turn(words, numbers, poses, joints, &mut 0, &mut 0)
        })
    };
    let whole = |l: &[usize]| l == [145, 368, 30, 25];
    every_length(&[], &[145, 368, 30, 25], ask, &whole);
}

/// 33 stands for every other length.
#[test]
fn of_count() {
    let [state, _] = with_a_path();
    let ask: Ask = &|r, _| {
        let told = flat::count(words(r[0]), 0);
        assert!([0, 33].contains(&told.number));
        let number = if told.number == 33 { 20 } else { 0 };
        Told { number, ..told }
    };
    every_length(&[state], &[], ask, &|l| l == [145]);
}
