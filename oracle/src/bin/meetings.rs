//! Compares the first links that meet on a path with what document 02 says of them, over the frames of the Rust's `link_world`:
//!
//!     meetings [SEED] [THOUSANDS]
//!
//! on THOUSANDS (400) thousand paths of up to 8 joint sets and machines of up to 66 links, some of which have balls that touch or miss
//! by one place, and on a few paths of 110,001. Every answer is compared: the number, the place, the letter and the four lent numbers,
//! guards and inputs too. Prints how often each answer and each way was met, and the first differences. Ends with status 1 where there
//! is a difference, or where something was not met.

use std::process::ExitCode;

fn main() -> ExitCode {
    #[cfg(original)]
    return comparison::run();
    #[cfg(not(original))]
    oracle::parts::without_the_rust()
}

#[cfg(original)]
mod comparison {
    use oracle::meeting_tally::Meetings;
    use oracle::parts::{Outcome, argument, compared};
    use std::process::ExitCode;

    /// How many paths there are in a part.
    const PATHS: u64 = 10_000;

    /// How many long paths there are.
    const LONG: u64 = 4;

    pub fn run() -> ExitCode {
        let seed = argument(1, 1);
        let thousands = argument(2, 400);
        println!("seed {seed}, {thousands} thousand paths");
        let parts = (1000 * thousands).div_ceil(PATHS);
        let mut total: Meetings = compared(seed, parts, |tally: &mut Meetings, random| {
            tally.compare_drawn(PATHS, random);
        });
        total.add(compared(seed, LONG, Meetings::compare_long));
        total.print(parts)
    }
}
