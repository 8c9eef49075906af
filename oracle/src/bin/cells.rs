//! Compares the dispatcher of a cell with what document 02 says of it, beside the Rust's division:
//!
//!     cells [SEED] [THOUSANDS]
//!
//! makes THOUSANDS (50) thousand rows of calls, each from an empty dispatcher over 1 to 20 paths until all have ended,
//! with turns in outputs of other lengths and with other contents, 17th paths, numbers that no path has, and calls on
//! forged states. A queue in Rust says which path is served, the Rust's division alone what each path ends with, and a
//! machine of single tests what it has come to after every turn. Every answer is compared, and each word and number of
//! the state and of the outputs bit for bit, guards and inputs too. Prints how often each answer was met, and the first
//! differences. Ends with status 1 where there is a difference, or where something was not met.

use std::process::ExitCode;

fn main() -> ExitCode {
    #[cfg(original)]
    return comparison::run();
    #[cfg(not(original))]
    oracle::parts::without_the_rust()
}

#[cfg(original)]
mod comparison {
    use oracle::cell_tally::Cells;
    use oracle::parts::{Outcome, argument, compared};
    use std::process::ExitCode;

    /// How many rows there are in a part.
    const ROWS: u64 = 50;

    /// How many rows of paths there are that need thousands of insertions.
    const MANY: u64 = 2;

    pub fn run() -> ExitCode {
        let seed = argument(1, 1);
        let thousands = argument(2, 50);
        println!("seed {seed}, {thousands} thousand rows");
        let parts = (1000 * thousands).div_ceil(ROWS);
        let mut total: Cells = compared(seed, parts, |tally: &mut Cells, random| {
            tally.compare_drawn(ROWS, random);
        });
        total.add(compared(seed, MANY, Cells::compare_many));
        total.print(1)
    }
}
