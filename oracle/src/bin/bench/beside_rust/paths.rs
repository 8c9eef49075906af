//! solve_path, subdivide_path, and the call that solves and divides, through the exports beside the untouched Rust's, on the finishing
//! path; a test of the division also beside lean arithmetic. Then on paths of other lengths, for how the cost grows.

use super::finishing::{BOTH, Case, Entry, HEAD_AND_TABLE, SOLVE, SUBDIVIDE, TABLES};
use crate::rows::{Row, Section};
use crate::timing::{of_both, of_each};
use oracle::lean::Lean;
use std::hint::black_box;

const POSES: usize = 5000;

/// Given poses in all rounds.
const CALLS: usize = 80 * POSES;

pub fn sections() -> [Section; 2] {
    let cases = [TABLES, HEAD_AND_TABLE].map(|machine| Case::new(machine, POSES));
    let rows = cases.map(|case| of_case(&case, case.words));
    let (solved, divided): (Vec<Row>, Vec<Row>) = rows
        .into_iter()
        .flatten()
        .partition(|row| row.entry == SOLVE.name);
    [
        Section {
            title: "Paths",
            unit: "Best of 80 rounds over 5,000 poses, ns:",
            other: "Rust",
            rows: solved,
        },
        Section {
            title: "Division",
            unit: "Best of 80 rounds over 5,000 poses, ns; 5,000 poses are inserted:",
            other: "Rust",
            rows: divided,
        },
    ]
}

pub fn grown(cases: &[Case]) -> Vec<Row> {
    cases.iter().flat_map(|case| of_case(case, "")).collect()
}

/// The three entries, division also by the tests of which it consists.
fn of_case(case: &Case, words: &str) -> [Row; 4] {
    let given = case.given();
    let row = |entry: &Entry, unit: &str, [port, rust]: [f64; 2]| {
        let words = match words {
            "" => unit.to_owned(),
            words => format!("{words}: {unit}"),
        };
        Row::new(entry.name, &words, given, port, rust)
    };
    let tests_of_a_pose = case.tests() as f64 / given as f64;
    let divided = timed(case, &SUBDIVIDE);
    let test = Row {
        lean: Some(lean(case) / tests_of_a_pose),
        asked: "3",
        ..row(
            &SUBDIVIDE,
            "a test",
            divided.map(|time| time / tests_of_a_pose),
        )
    };
    let chief = |row: Row| Row {
        chief: case.words == TABLES.0,
        ..row
    };
    [
        chief(row(&SOLVE, "a pose", timed(case, &SOLVE)).asked("2")),
        chief(test),
        row(&SUBDIVIDE, "a given pose", divided),
        chief(row(&BOTH, "a given pose", timed(case, &BOTH))),
    ]
}

/// In ns for each given pose, of the port and of the Rust.
fn timed(case: &Case, entry: &Entry) -> [f64; 2] {
    let mut space = case.ample_space();
    let port = || {
        assert_eq!((entry.port)(case, &mut space), 0, "a path was refused");
        black_box(&space);
    };
    let handed = case.handed();
    let rust = || {
        black_box((entry.rust)(&handed));
    };
    of_both(CALLS, case.given(), port, rust)
}

/// Of a division, the same, alone: in more rounds.
fn lean(case: &Case) -> f64 {
    let lean = Lean::new(&case.chain);
    let divided = case.given() + case.inserted;
    let mut path = Vec::with_capacity(divided);
    let time = of_each(5 * CALLS, case.given(), || {
        let (poses, joints) = (black_box(&case.poses), &case.joints);
        lean.divide(poses, joints, case.tolerances, &mut path);
        black_box(&path);
    });
    assert_eq!(
        path.len(),
        divided,
        "lean arithmetic inserts another number"
    );
    time
}
