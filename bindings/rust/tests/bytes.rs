//! Every slice of bytes of every entry, cut and stretched, among guard bytes and with either end against memory that may not be
//! touched. A call answers alike wherever the bytes stand, and reads and writes none outside.

mod common;

use common::fenced::{FLUSHES, Fenced};
use common::*;
use maztubel::flat::{self, JobParts, Told};

/// What stands before a call in an output.
const BEFORE: f64 = 7.25;

/// What a call says of the bytes.
fn of_bytes(bytes: &[u8], fence: &mut Fenced, ask: &dyn Fn(&[u8]) -> Told) -> Told {
    let answers = [0u8, 1, 255].map(|guard| {
        let around = [guard; 13];
        let all = [&around, bytes, &around].concat();
        let told = ask(&all[13..13 + bytes.len()]);
        assert_eq!(all, [&around, bytes, &around].concat());
        told
    });
    assert!(
        answers.iter().all(|told| *told == answers[0]),
        "read outside"
    );
    for flush in FLUSHES {
        let lent = fence.lend(bytes, flush);
        assert_eq!(ask(lent), answers[0], "elsewhere");
        assert_eq!(lent, bytes, "bytes that are read were written");
    }
    answers[0]
}

const JOINTS: [f64; 5] = [0.0, 0.0, 0.0, 360.0, 0.0];
const POSE: [f64; 6] = [1.0, 2.0, 3.0, 0.0, 0.0, 1.0];
const NAME: &[u8] = b"mill";

/// An entry with its name, as a call on a chain's bytes.
type OfAChain = (&'static str, fn(&[u8]) -> Told);

/// Every entry that reads a chain, the rest sound.
const OF_A_CHAIN: [OfAChain; 19] = [
    ("check_chain", flat::check_chain),
    ("forward", |chain| {
        flat::forward(chain, &JOINTS, 10.0, &mut [0.0; 6])
    }),
    ("inverse", |chain| {
        flat::inverse(chain, &POSE, 10.0, &[0.0; 2], &mut [0.0; 250])
    }),
    ("choose", |chain| {
        let first = flat::FIRST_POSITIVE;
        flat::choose(chain, &POSE, 10.0, first, &[0.0; 2], &mut [0.0; 5])
    }),
    ("choose_tooth", |chain| {
        let first = flat::FIRST_POSITIVE;
        flat::choose_tooth(chain, &POSE, 10.0, first, &[0.0; 2], 180.0, &mut [0.0; 5])
    }),
    ("check_model", |chain| flat::check_model(NAME, chain, &[])),
    ("link_world", |chain| {
        flat::link_world(NAME, chain, &[], &JOINTS, b"table", &mut [0.0; 12])
    }),
    ("link_in_part", |chain| {
        flat::link_in_part(NAME, chain, &[], &JOINTS, b"head", &mut [0.0; 12])
    }),
    ("solve_path", |chain| {
        flat::solve_path(chain, &POSE, &[], 1.0, &mut [0.0; 5])
    }),
    ("subdivide_path", |chain| {
        let (poses, joints) = (&mut [0.0; 6], &mut [0.0; 5]);
        flat::subdivide_path(chain, &POSE, &JOINTS, 1.0, 1.0, poses, joints)
    }),
    ("subdivide_strict", |chain| {
        let (poses, joints) = (&mut [0.0; 6], &mut [0.0; 5]);
        flat::subdivide_strict(chain, &POSE, &JOINTS, 1.0, 1.0, poses, joints)
    }),
    ("quote", |chain| quoted(flat::quote, chain)),
    ("quote_strict", |chain| quoted(flat::quote_strict, chain)),
    ("divide_for", |chain| {
        let (poses, joints) = (&mut [0.0; 6], &mut [0.0; 5]);
        let quota = &mut [0; 32];
        flat::divide_for(quota, 31, chain, &POSE, &JOINTS, 1.0, 1.0, poses, joints)
    }),
    ("admit", |chain| {
        let (poses, joints) = (&mut [0.0; 6], &mut [0.0; 5]);
        let (words, numbers) = (&mut [0; 145], &mut [0.0; 368]);
        let path = &mut 0;
        flat::admit(
            words, numbers, chain, &POSE, &JOINTS, 1.0, 1.0, poses, joints, path,
        )
    }),
    ("solve_and_divide", |chain| {
        let (poses, joints) = (&mut [0.0; 6], &mut [0.0; 5]);
        flat::solve_and_divide(chain, &POSE, &[], 1.0, 1.0, 1.0, poses, joints)
    }),
    ("write_job", |chain| {
        let mut job = [9; 300];
        let told = flat::write_job(chain, &POSE, 1.0, 1.0, 1.0, &mut job);
        assert_eq!(told.number == 0, told.count == chain.len() as u64 + 88);
        assert_eq!(told.number == 0, job != [9; 300]);
        told
    }),
    ("cable_number", |chain| {
        let mut number = 9;
        let told = flat::cable_number(chain, &JOINTS, 0, &mut number);
        assert_eq!(number, if told.number == 0 { 1 } else { 9 });
        told
    }),
    ("links_meet", |chain| asked_to_meet(chain, &[], &JOINTS)),
];

/// Of one pose, whose figures are known; the scratch is kept on a refusal, and else cleared.
fn quoted(quote: Quoting, chain: &[u8]) -> Told {
    let mut scratch = vec![9.0; 80_000];
    let (joints, tips) = scratch.split_at_mut(50_000);
    let [mut poses, mut evaluations] = [9; 2];
    let (out, count) = (&mut poses, &mut evaluations);
    let told = quote(chain, &POSE, &JOINTS, 1.0, 1.0, joints, tips, out, count);
    assert_eq!(poses, u64::from(told.number == 0));
    assert_eq!(evaluations, 0);
    let after = if told.number == 0 { 0.0 } else { 9.0 };
    assert!(scratch.iter().all(|number| *number == after));
    told
}

/// The four lent numbers are 0 where none meet, and kept on a refusal.
fn asked_to_meet(chain: &[u8], model: &[u8], joints: &[f64]) -> Told {
    let [mut found, mut pose, mut first, mut second] = [9; 4];
    let told = flat::links_meet(
        NAME,
        chain,
        model,
        joints,
        &mut found,
        &mut pose,
        &mut first,
        &mut second,
    );
    let kept = if told.number == 0 { 0 } else { 9 };
    assert_eq!([found, pose, first, second], [kept; 4]);
    told
}

/// With another count of rotaries there is nothing to read behind it, and the chain check refuses the count. With the
/// length of the same count without rest angles, or with them, another chain is read, which is left out here.
#[test]
fn of_chains() {
    let mut fence = Fenced::new(200);
    for (count, whole, other) in [
        (1, Some(104), Some(112)),
        (1, Some(112), Some(104)),
        (2, Some(176), Some(192)),
        (2, Some(192), Some(176)),
        (0, None, None),
        (3, None, None),
    ] {
        let mut chain = if count == 1 { table_a() } else { tables() };
        chain.rotaries[0].rest = if whole < other { 0.0 } else { -0.25 };
        let mut long = chain.bytes();
        assert!(whole.is_none_or(|whole| whole == long.len()));
        long.resize(200, 0);
        long[0] = count;
        for length in (0..=long.len()).filter(|length| Some(*length) != other) {
            let expected = match whole {
                Some(whole) if length == whole => 0,
                None if length > 0 => 3,
                _ => 29,
            };
            for (words, ask) in OF_A_CHAIN {
                let told = of_bytes(&long[..length], &mut fence, &ask);
                let place = format!("{words}, {count} rotaries, length {length}");
                assert_eq!((told.number, told.at), (expected, 0), "{place}");
            }
        }
    }
}

const PARTS: JobParts = JobParts {
    chain_at: 9,
    chain_length: 9,
    poses_at: 9,
    count: 9,
    cone: BEFORE,
    chord: BEFORE,
    axis: BEFORE,
};

/// What the reader of `tools/job` says: the number and its place, and the parts where there is a job.
fn read_apart(bytes: &[u8]) -> (u32, u64, JobParts) {
    match job::read(bytes) {
        Err(breach) => (breach.number, breach.at as u64, PARTS),
        Ok(job) => {
            let parts = JobParts {
                chain_at: job.chain.start as u64,
                chain_length: job.chain.len() as u64,
                poses_at: job.poses.start as u64,
                count: (job.poses.len() / job::POSE) as u64,
                cone: job.cone,
                chord: job.chord,
                axis: job.axis,
            };
            (0, 0, parts)
        }
    }
}

/// Both calls on a job's bytes. The poses have space for those of every job here.
fn job_read(bytes: &[u8], fence: &mut Fenced) {
    let (number, at, expected) = read_apart(bytes);
    let expected_told = Told {
        number,
        at,
        ..Told::default()
    };
    let told = of_bytes(bytes, fence, &|job| {
        let mut parts = PARTS;
        let told = flat::read_job(job, &mut parts);
        assert_eq!(parts, expected, "length {}", job.len());
        told
    });
    assert_eq!(told, expected_told, "length {}", bytes.len());
    let told = of_bytes(bytes, fence, &|job| {
        let mut poses = [BEFORE; 18];
        let told = flat::job_poses(job, &mut poses);
        let kept = poses.iter().all(|number| *number == BEFORE);
        assert_eq!(kept, told.number != 0);
        told
    });
    assert_eq!(told, expected_told, "length {}", bytes.len());
}

/// A job's bytes cut at each end, and zero bytes: what stands last is taken for the trailer.
#[test]
fn of_jobs() {
    let fence = &mut Fenced::new(65_537);
    let job = job_bytes(&tables(), &arc(2));
    for length in 0..=job.len() {
        job_read(&job[..length], fence);
        job_read(&job[job.len() - length..], fence);
        job_read(&vec![0; length], fence);
    }
    assert_eq!(read_apart(&job).2.count, 2);
    for most in [65_535, 65_536, 65_537] {
        let alone = [vec![0; most - 40], job[job.len() - 40..].to_vec()].concat();
        job_read(&alone, fence);
        let apart = vec![0; most - job.len()];
        let (front, trailer) = job.split_at(job.len() - 40);
        let long = [front, &apart, trailer].concat();
        job_read(&long, fence);
        assert_eq!(read_apart(&long).0, if most > 65_536 { 29 } else { 0 });
    }
}

/// A job written into every room from none to some bytes more than it has, among guard bytes and against either wall:
/// where it is short everything is kept, else what stands behind the job.
#[test]
fn of_rooms() {
    let fence = &mut Fenced::new(400);
    let (chain, poses) = (tables().bytes(), pose_numbers(&arc(2)));
    let job = packed(&chain, &poses, NUMBERS);
    let [cone, chord, axis] = NUMBERS;
    let ask = |room: &mut [u8]| flat::write_job(&chain, &poses, cone, chord, axis, room);
    for room in 0..job.len() + 9 {
        let before = vec![9u8; room];
        let mut after = before.clone();
        let mut expected = Told {
            number: 28,
            ..Told::default()
        };
        if let Some(front) = after.get_mut(..job.len()) {
            front.copy_from_slice(&job);
            (expected.number, expected.count) = (0, job.len() as u64);
        }
        for guard in [0u8, 1, 255] {
            let around = [guard; 13];
            let mut all = [&around[..], &before, &around].concat();
            assert_eq!(ask(&mut all[13..13 + room]), expected, "room {room}");
            assert_eq!(all, [&around[..], &after, &around].concat(), "room {room}");
        }
        for flush in FLUSHES {
            let lent = fence.lend(&before, flush);
            assert_eq!(ask(lent), expected, "room {room}");
            assert_eq!(lent, after, "room {room}");
        }
    }
}

#[test]
fn of_names_and_models() {
    let fence = &mut Fenced::new(300);
    let chain = tables().bytes();
    let joints = [0.0; 5];
    for length in 0..=300 {
        let told = of_bytes(&vec![b'n'; length], fence, &|name| {
            flat::check_model(name, &chain, &[])
        });
        assert_eq!(
            told.number,
            [0, 1, 2][usize::from(length == 0) + 2 * usize::from(length > 256)]
        );
    }
    let column = [
        b"\x04\0post\x04\0base\0".to_vec(),
        [0.0, 0.0, 0.0, 1.0, 1.0, 1.0, 0.0, 0.0]
            .map(f64::to_le_bytes)
            .concat(),
    ]
    .concat();
    for length in 0..=column.len() {
        let told = of_bytes(&column[..length], fence, &|model| {
            flat::check_model(b"mill", &chain, model)
        });
        assert_eq!(
            told.number,
            if length == 0 || length == column.len() {
                0
            } else {
                29
            }
        );
        let asked = of_bytes(&column[..length], fence, &|model| {
            asked_to_meet(&chain, model, &joints)
        });
        assert_eq!(asked, told);
        let carrier = of_bytes(&column[..length], fence, &|carrier| {
            flat::link_world(b"mill", &chain, &[], &joints, carrier, &mut [0.0; 12])
        });
        assert_eq!(carrier.number, 12);
    }
    let named = of_bytes(b"table", fence, &|carrier| {
        flat::link_world(b"mill", &chain, &column, &joints, carrier, &mut [0.0; 12])
    });
    assert_eq!(named.number, 0);
}
