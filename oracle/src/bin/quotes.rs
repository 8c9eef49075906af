//! Compares the exported quotation with the Rust, whose sine, cosine, arctangent and arccosine are the exported ones and whose calls of
//! `forward` are counted, and with document 02 where it adds to the Rust:
//!
//!     quotes [SEED] [THOUSANDS]
//!
//! on THOUSANDS (100) thousand paths, mostly of 0 to 20 poses, each at three pairs of tolerances and with scratches that are enough, too
//! short, longer and broken; on paths that need 9,999, 10,000 and 10,001 insertions exactly; on remarkable ones; and on some of 100,000
//! poses. Every answer is compared: the number, the three figures, the place, the letter, and each number of both scratches, guards and
//! inputs too. Prints how often each answer was met, and the first differences. Ends with status 1 where there is a difference, or
//! where something was not met.

use std::process::ExitCode;

fn main() -> ExitCode {
    #[cfg(original)]
    return comparison::run();
    #[cfg(not(original))]
    oracle::parts::without_the_rust()
}

#[cfg(original)]
mod comparison {
    use oracle::parts::{Outcome, argument, compared};
    use oracle::quote_tally::Quotes;
    use oracle::random::Random;
    use std::process::ExitCode;

    /// How many paths there are in a part.
    const PATHS: u64 = 500;

    /// How many rounds of paths of each exact number of insertions there are.
    const EXACT: u64 = 2;

    pub fn run() -> ExitCode {
        let seed = argument(1, 1);
        let thousands = argument(2, 100);
        println!("seed {seed}, {thousands} thousand paths, each quoted three times");
        let parts = (1000 * thousands).div_ceil(PATHS);
        let mut total: Quotes = compared(seed, parts, |quotes: &mut Quotes, random| {
            quotes.compare_drawn(PATHS, random);
        });
        total.add(compared(seed, EXACT, Quotes::compare_exact));
        total.compare_others(&mut Random::new(seed));
        total.print(parts.div_ceil(10))
    }
}
