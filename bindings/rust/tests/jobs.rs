//! The jobs of examples/jobs: each is answered as its `.expected` has it, and stands with its answer in the README there; and the
//! picture of one in docs.

mod common;

#[path = "../examples/answer.rs"]
#[allow(dead_code)]
mod answer;
#[path = "../examples/draw.rs"]
#[allow(dead_code)]
mod draw;

use common::{arc, job_bytes, packed, pose_numbers, table_a};
use maztubel::{Job, Place, Start, Tolerances, solve_and_divide};
use std::collections::{BTreeMap, BTreeSet};
use std::fs;
use std::path::{Path, PathBuf};

fn folder() -> PathBuf {
    Path::new(env!("CARGO_MANIFEST_DIR")).join("../../examples/jobs")
}

/// The names and bytes of the jobs.
fn jobs() -> BTreeMap<String, Vec<u8>> {
    let entries = fs::read_dir(folder())
        .unwrap()
        .map(|entry| entry.unwrap().path());
    let jobs = entries.filter(|path| path.extension().is_some_and(|extension| extension == "job"));
    let named = |path: PathBuf| {
        let name = path.file_stem().unwrap().to_str().unwrap().to_owned();
        (name, fs::read(path).unwrap())
    };
    jobs.map(named).collect()
}

#[test]
fn answers() {
    for (name, bytes) in jobs() {
        let expected = fs::read_to_string(folder().join(format!("{name}.expected"))).unwrap();
        assert_eq!(answer::answer(&bytes), expected, "{name}");
    }
}

/// A dot for each pose in each of the plots, one of tips and two of angles; and those of the key.
#[test]
fn the_picture_has_every_pose() {
    let svg = draw::picture(&jobs()["finishing"]).unwrap();
    assert_eq!(dots(&svg), [3 * 13 + 1, 3 * 36 + 1]);
    let drawn = Path::new(env!("CARGO_MANIFEST_DIR")).join("../../docs/finishing.svg");
    assert_eq!(fs::read_to_string(drawn).unwrap(), svg);
}

/// How many dots of the picture stand for given and for inserted poses, in its plots and in the key.
fn dots(svg: &str) -> [usize; 2] {
    ["r=\"4\"", "r=\"2.5\""].map(|dot| svg.matches(dot).count())
}

/// A path that comes back to the pose that was inserted: one plot of tips and one of angles, with three given poses
/// and one inserted.
#[test]
fn the_picture_of_a_midpoint_that_is_given_later() {
    let path = arc(3);
    let ends = [path[0], path[2]];
    let bytes = job_bytes(&table_a(), &ends);
    let job = Job::read(&bytes).unwrap();
    let two = solve_and_divide(&job.chain, &ends, Start::AtZero, job.cone, job.tolerances).unwrap();
    assert_eq!(two.inserted, 1);
    let bytes = job_bytes(&table_a(), &[ends[0], ends[1], two.poses[1]]);
    let svg = draw::picture(&bytes).unwrap();
    assert_eq!(dots(&svg), [2 * 3 + 1, 2 + 1]);
}

/// The bits of a number; every nan is one, as the library has it.
fn one_nan(number: f64) -> u64 {
    let number = if number.is_nan() { f64::NAN } else { number };
    number.to_bits()
}

/// What `Job::read` says, where `tools/job` reads the same bytes.
fn read_alike(name: &str, bytes: &[u8]) {
    match (job::read(bytes), Job::read(bytes)) {
        (Err(breach), Err(refusal)) => {
            let at = match refusal.place {
                Place::Offset(at) | Place::Rotary(at) => at as usize,
                place => {
                    assert_eq!(place, Place::Whole, "{name}");
                    0
                }
            };
            assert_eq!((breach.number, breach.at), (refusal.number(), at), "{name}");
        }
        (Ok(apart), Ok(job)) => {
            let bits = |numbers: Vec<f64>| numbers.into_iter().map(one_nan).collect::<Vec<_>>();
            let poses = job.poses.iter().flat_map(|p| [p.tip, p.axis].concat());
            let Tolerances { chord, axis } = job.tolerances;
            assert_eq!(bits(poses.collect()), bits(apart.numbers(bytes)), "{name}");
            assert_eq!(
                bits(vec![job.cone, chord, axis]),
                bits(vec![apart.cone, apart.chord, apart.axis]),
                "{name}"
            );
            assert_eq!(job.chain.bytes(), bytes[apart.chain], "{name}");
        }
        (apart, job) => panic!("{name}: {apart:?}, {job:?}"),
    }
}

/// Each job, and each of the small ones with one byte changed.
#[test]
fn readings() {
    for (name, mut bytes) in jobs() {
        read_alike(&name, &bytes);
        let changed = if bytes.len() > 1000 { 0 } else { bytes.len() };
        for at in 0..changed {
            for flip in [1, 2, 0x80, 0xFF] {
                bytes[at] ^= flip;
                read_alike(&format!("{name}, byte {at} with {flip}"), &bytes);
                bytes[at] ^= flip;
            }
        }
    }
}

/// Each job that is read is written closely packed, or refused; one that has no gaps is written as it was.
#[test]
fn rewritings() {
    let (mut same, mut closed, mut refused) = (0, 0, 0);
    for (name, bytes) in jobs() {
        let Ok(job) = Job::read(&bytes) else {
            continue;
        };
        let Ok(written) = job.to_bytes() else {
            refused += 1;
            continue;
        };
        let Tolerances { chord, axis } = job.tolerances;
        let apart = packed(
            &job.chain.bytes(),
            &pose_numbers(&job.poses),
            [job.cone, chord, axis],
        );
        assert_eq!(written, apart, "{name}");
        assert_eq!(Job::read(&written), Ok(job), "{name}");
        if written.len() == bytes.len() {
            assert_eq!(written, bytes, "{name}");
            same += 1;
        } else {
            closed += 1;
        }
    }
    assert!(
        same > 9 && closed > 0 && refused > 9,
        "{same} {closed} {refused}"
    );
}

/// The answer's first line, with the place of what the reader refuses.
fn in_short(bytes: &[u8]) -> String {
    match job::read(bytes) {
        Ok(_) => answer::answer(bytes).lines().next().unwrap().to_owned(),
        Err(breach) => breach.to_string(),
    }
}

#[test]
fn rows() {
    let text = fs::read_to_string(folder().join("README.md")).unwrap();
    let row = |line: &str| {
        let (name, rest) = line.strip_prefix("| `")?.split_once("` | ")?;
        let (answer, _) = rest.split_once(" |")?;
        Some((name.to_owned(), answer.to_owned()))
    };
    let rows: BTreeMap<String, String> = text.lines().filter_map(row).collect();
    let told = jobs()
        .into_iter()
        .map(|(name, bytes)| (name, in_short(&bytes)));
    assert_eq!(rows, told.collect());
}

/// What a job can be refused with but for 27, for which 700 poses are too few: each has a job.
#[test]
fn every_number() {
    let number = |bytes: &Vec<u8>| {
        let short = in_short(bytes);
        let rest = short.strip_prefix("refused ")?;
        rest.split(' ').next()?.parse().ok()
    };
    let numbers: BTreeSet<u32> = jobs().values().filter_map(number).collect();
    let numbers: Vec<u32> = numbers.into_iter().collect();
    assert_eq!(
        numbers,
        [
            3, 4, 5, 6, 7, 8, 9, 16, 17, 18, 19, 23, 24, 25, 26, 28, 29, 30
        ]
    );
}
