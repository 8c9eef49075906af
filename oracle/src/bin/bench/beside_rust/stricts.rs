//! The strict division and its quotation beside the old ones of the same path, through the exports. Each is divided by
//! its own number of tests: the strict one may insert more.

use super::finishing::{Case, HEAD_AND_TABLE, Space, TABLES};
use crate::rows::{Row, Section};
use crate::timing::of_both;
use oracle::quotes::ENOUGH;
use std::cell::RefCell;
use std::hint::black_box;

const POSES: usize = 5000;

/// Rounds of a whole call.
const ROUNDS: usize = 80;

pub fn section() -> Section {
    let cases = [TABLES, HEAD_AND_TABLE]
        .into_iter()
        .flat_map(|machine| [Case::passing(machine, POSES), Case::new(machine, POSES)]);
    Section {
        title: "Strict division",
        unit: "Best of 80 rounds over 5,000 poses, beside the old call on the same path, ns a test:",
        other: "old",
        rows: cases
            .flat_map(|case| [divided(&case), quoted(&case)])
            .collect(),
    }
}

fn divided(case: &Case) -> Row {
    let space = RefCell::new(case.ample_space());
    let call = |divide: fn(&Case, &mut Space) -> u32| {
        assert_eq!(
            divide(case, &mut space.borrow_mut()),
            0,
            "a path was refused"
        );
        space.borrow().inserted()
    };
    let (strict, old) = (|| call(Case::subdivide_strict), || call(Case::subdivide));
    beside("subdivide_strict", case, strict, old).asked("at most 2.8")
}

fn quoted(case: &Case) -> Row {
    let scratch = RefCell::new(ENOUGH.map(|length| vec![0.0; length]));
    let call =
        |quote: fn(&Case, &mut [Vec<f64>; 2]) -> usize| quote(case, &mut scratch.borrow_mut());
    let (strict, old) = (|| call(Case::quote_strict), || call(Case::quote));
    beside("quote_strict", case, strict, old)
}

/// Two calls that answer how many poses are inserted, each by its own number of tests.
fn beside(
    entry: &'static str,
    case: &Case,
    strict: impl Fn() -> usize,
    old: impl Fn() -> usize,
) -> Row {
    let inserted = [strict(), old()];
    let whole = of_both(
        ROUNDS,
        1,
        || assert_eq!(black_box(strict()), inserted[0]),
        || assert_eq!(black_box(old()), inserted[1]),
    );
    let tests = inserted.map(|inserted| (case.given() - 1 + 2 * inserted) as f64);
    let [more, fewer] = inserted;
    let words = format!("{}, {more} inserted beside {fewer}: a test", case.words);
    Row::new(
        entry,
        &words,
        case.given(),
        whole[0] / tests[0],
        whole[1] / tests[1],
    )
}
