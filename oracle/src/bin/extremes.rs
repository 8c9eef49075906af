//! Compares the extremes beside a path with what document 02 says of them:
//!
//!     extremes [SEED] [THOUSANDS]
//!
//! draws THOUSANDS (30) thousand rounds. Each builds a summary, makes a row of replacements that is held to building
//! anew, asks beside summaries that are the joints' own and beside forged ones, and asks again with every skipped group
//! overwritten. Paths have 0 to 200 joint sets, above all those about a group's end; a few have 110,000. Every answer
//! is compared: the number, and each lent number bit for bit, guards and inputs too. Prints how often each answer was
//! met, and the first differences. Ends with status 1 where there is a difference, or where something was not met.

use oracle::extremes_tally::Extremes;
use oracle::parts::{Outcome, argument, compared};
use std::process::ExitCode;

/// How many rounds there are in a part.
const ROUNDS: u64 = 250;

/// How many long paths there are.
const LONG: u64 = 8;

fn main() -> ExitCode {
    let seed = argument(1, 1);
    let thousands = argument(2, 30);
    println!("seed {seed}, {thousands} thousand rounds");
    let parts = (1000 * thousands).div_ceil(ROUNDS);
    let mut total: Extremes = compared(seed, parts, |tally: &mut Extremes, random| {
        tally.compare_drawn(ROUNDS, random);
    });
    total.add(compared(seed, LONG, Extremes::compare_long));
    total.print(parts)
}
