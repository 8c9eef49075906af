//! A quotation beside the division of the same path, through the exports: both test the same pairs, and only the division writes a path.

use super::finishing::{Case, HEAD_AND_TABLE, TABLES};
use crate::rows::{Row, Section};
use crate::timing::of_both;
use oracle::quotes::ENOUGH;
use std::hint::black_box;

const POSES: usize = 5000;

/// Rounds of a whole call.
const ROUNDS: usize = 80;

/// Few poses, with many between two of them: the first that waits is then mostly one that was inserted.
const FEW: usize = 20;
const MANY: usize = 8000;

pub fn section() -> Section {
    let rows = [TABLES, HEAD_AND_TABLE]
        .into_iter()
        .flat_map(|machine| {
            let long = Case::new(machine, POSES);
            let deep = Case::inserting(machine, FEW, MANY);
            [rows(&long, "5,000 poses"), rows(&deep, "20 poses")]
        })
        .flatten();
    Section {
        title: "Quotation",
        unit: "Best of 80 rounds, beside the division of the same path with space for 10,000 more poses, ns:",
        other: "division",
        rows: rows.collect(),
    }
}

fn rows(case: &Case, path: &str) -> [Row; 2] {
    let mut scratch = ENOUGH.map(|length| vec![0.0; length]);
    let mut space = case.ample_space();
    let quote = || assert_eq!(black_box(case.quote(&mut scratch)), case.inserted);
    let divide = || {
        assert_eq!(case.subdivide(&mut space), 0, "a path was refused");
        black_box(&space);
    };
    let whole = of_both(ROUNDS, 1, quote, divide);
    let tests = case.tests() as f64;
    let row = |unit: &str, [port, other]: [f64; 2], asked| {
        let words = format!("{}, {path} and {} inserted: {unit}", case.words, case.inserted);
        Row::new("quote", &words, case.given(), port, other).asked(asked)
    };
    let asked = if path.starts_with("5,000") { "at most 1" } else { "" };
    [
        row("a test", whole.map(|time| time / tests), "at most 1.1"),
        row("the call", whole, asked),
    ]
}
