//! A division that is charged to a shop beside the plain one, on the finishing path and in the same buffers.

use super::finishing::{Case, HEAD_AND_TABLE, SUBDIVIDE, TABLES};
use crate::rows::{Row, Section};
use crate::timing::of_both;
use oracle::quotas::{MOST_BALANCE, SHOPS};
use std::cell::RefCell;
use std::hint::black_box;

const POSES: usize = 5000;

/// Given poses in all rounds.
const CALLS: usize = 400 * POSES;

pub fn section() -> Section {
    let cases = [TABLES, HEAD_AND_TABLE].map(|machine| Case::new(machine, POSES));
    Section {
        title: "Quotas",
        unit: "Best of 400 rounds over 5,000 poses, ns a given pose; 5,000 poses are inserted:",
        other: "plain division",
        rows: cases.iter().map(charged).collect(),
    }
}

fn charged(case: &Case) -> Row {
    let space = RefCell::new(case.ample_space());
    let mut balances = [0; SHOPS];
    let charged = || {
        balances[0] = MOST_BALANCE;
        let number = case.divide_for(black_box(&mut balances), &mut space.borrow_mut());
        assert_eq!(number, 0, "a path was refused");
    };
    let plain = || {
        let number = (SUBDIVIDE.port)(case, &mut space.borrow_mut());
        assert_eq!(number, 0, "a path was refused");
    };
    let [port, other] = of_both(CALLS, case.given(), charged, plain);
    Row::new("divide_for", case.words, case.given(), port, other).asked("under 1.01")
}
