//! 16 paths that a dispatcher divides in turns, beside the same 16 divided one after another: the finishing path, in
//! the same buffers.

use super::finishing::{Case, HEAD_AND_TABLE, Space, TABLES};
use crate::rows::{Row, Section};
use crate::timing::of_both;
use oracle::cell_calls::{NUMBERS, PATHS, WORDS};
use oracle::maztubel::{self, Dispatcher};
use std::cell::RefCell;
use std::hint::black_box;

const POSES: usize = 100;

/// Given poses of one path in all rounds.
const CALLS: usize = 1000 * POSES;

pub fn section() -> Section {
    let cases = [TABLES, HEAD_AND_TABLE].map(|machine| Case::new(machine, POSES));
    Section {
        title: "Many paths in turns",
        unit: "Best of 1,000 rounds over 16 paths of 100 poses, ns a given pose; 100 poses are inserted in each path:",
        other: "one after another",
        rows: cases.iter().map(in_turns).collect(),
    }
}

fn in_turns(case: &Case) -> Row {
    let spaces: Vec<Space> = (0..PATHS).map(|_| case.least_space()).collect();
    let spaces = RefCell::new(spaces);
    let turns = || served(case, &mut spaces.borrow_mut());
    let alone = || {
        for space in spaces.borrow_mut().iter_mut() {
            assert_eq!(case.subdivide(black_box(space)), 0, "a path was refused");
        }
    };
    let [port, other] = of_both(CALLS, case.given(), turns, alone);
    let [port, other] = [port, other].map(|time| time / PATHS as f64);
    let words = format!("16 paths in turns, {}", case.words);
    Row::new("turn", &words, case.given(), port, other).asked("at most 1.03")
}

/// All are admitted, and then served until none is left.
fn served(case: &Case, spaces: &mut [Space]) {
    let (mut words, mut numbers) = ([0; WORDS], [0.0; NUMBERS]);
    for space in spaces.iter_mut() {
        let state = lent(&mut words, &mut numbers);
        assert_eq!(case.admit(state, space), 0, "a path was refused");
    }
    loop {
        let mut path = 0;
        maztubel::next(black_box(&words), &mut path);
        let Some(space) = spaces.get_mut(path as usize) else {
            return;
        };
        if space.turn(lent(&mut words, &mut numbers)) {
            assert_eq!(space.inserted(), case.inserted, "another count");
        }
    }
}

fn lent<'a>(words: &'a mut [u64; WORDS], numbers: &'a mut [f64; NUMBERS]) -> Dispatcher<'a> {
    Dispatcher { words, numbers }
}
