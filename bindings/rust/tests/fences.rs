//! That the fences of the other tests hold: a call that is lent one word more than stands there, past either end, ends its process
//! with a fault, whether it reads that word or writes it.

mod common;

use common::fenced::{FLUSHES, Fenced, Flush};
use common::table_a;
use maztubel::flat::{self, Told};
use std::os::unix::process::ExitStatusExt;
use std::process::{Command, ExitStatus};
use std::{env, slice};

/// Says to `lends`, in a process of its own, what to lend.
const VARIABLE: &str = "MAZTUBEL_TEST_LENDS";

const SEGMENTATION_FAULT: i32 = 11;

/// A call on what stands in a fence, and so many words more.
type Touch = fn(&mut Fenced, Flush, usize) -> Told;

const TOUCHES: [Touch; 4] = [numbers_read, numbers_written, bytes_read, bytes_written];

fn numbers_read(fence: &mut Fenced, flush: Flush, more: usize) -> Told {
    let xs = stretched(fence.lend(&[0.5; 3], flush), flush, more);
    flat::sines(xs, &mut vec![0.0; xs.len()])
}

fn numbers_written(fence: &mut Fenced, flush: Flush, more: usize) -> Told {
    let answers = stretched(fence.lend(&[0.0; 3], flush), flush, more);
    flat::sines(&vec![0.5; answers.len()], answers)
}

/// A chain, of which with one byte more the first or the last is missing.
fn bytes_read(fence: &mut Fenced, flush: Flush, more: usize) -> Told {
    let chain = table_a().bytes();
    let there = match flush {
        Flush::Start => &chain[more..],
        Flush::End => &chain[..chain.len() - more],
    };
    flat::check_chain(stretched(fence.lend(there, flush), flush, more))
}

/// A job, of which with one byte more the first or the last has no place.
fn bytes_written(fence: &mut Fenced, flush: Flush, more: usize) -> Told {
    let chain = table_a().bytes();
    let room = vec![0; chain.len() + 40 - more];
    let room = stretched(fence.lend(&room, flush), flush, more);
    flat::write_job(&chain, &[], 1.0, 0.25, 0.5, room)
}

/// Past the end that is at a wall.
fn stretched<T>(lent: &mut [T], flush: Flush, more: usize) -> &mut [T] {
    let start = match flush {
        Flush::Start => lent.as_mut_ptr().wrapping_sub(more),
        Flush::End => lent.as_mut_ptr(),
    };
    // Unsound where there is more, and meant to be: the process does not outlive the call.
    unsafe { slice::from_raw_parts_mut(start, lent.len() + more) }
}

/// Each at either end.
fn calls() -> impl Iterator<Item = (Touch, Flush)> {
    let at_either_end = |touch: Touch| FLUSHES.map(|flush| (touch, flush));
    TOUCHES.into_iter().flat_map(at_either_end)
}

#[test]
#[ignore = "run by the test below, which says what to lend"]
fn lends() {
    let chosen = env::var(VARIABLE).unwrap_or_default();
    for (index, (touch, flush)) in calls().enumerate() {
        for more in [0, 1] {
            if chosen == format!("{index} {more}") {
                assert_eq!(touch(&mut Fenced::new(200), flush, more).number, 0);
            }
        }
    }
}

fn process_that_lends(index: usize, more: usize) -> ExitStatus {
    let child = Command::new(env::current_exe().expect("this test's program"))
        .args(["--exact", "lends", "--ignored"])
        .env(VARIABLE, format!("{index} {more}"))
        .output();
    child.expect("a process").status
}

#[test]
fn one_word_more_is_a_fault() {
    for index in 0..calls().count() {
        assert!(process_that_lends(index, 0).success());
        let fault = process_that_lends(index, 1).signal();
        assert_eq!(fault, Some(SEGMENTATION_FAULT), "call {index}");
    }
}
