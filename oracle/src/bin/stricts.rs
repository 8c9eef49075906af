//! Compares the exported strict division and its quotation with a reference that repeats "the first two neighbours that
//! divide get their midpoint between them" on a list. It is built of the Rust's own test, lerp, slerp, gaps and
//! midpoint, whose sine, cosine, arctangent and arccosine are the exported ones; document 02 says what else a pair must
//! pass, and what a test counts:
//!
//!     stricts [SEED] [THOUSANDS]
//!
//! on THOUSANDS (200) thousand paths, half of them drawn as for the old division, half of them waists, whole turns,
//! tolerances that are the gap at a quarter or the next double below, and joints that do not change; on paths that need
//! 9,999, 10,000 and 10,001 insertions exactly; on remarkable ones; and on some of 100,000 poses. Each is divided with
//! several spaces and quoted. Every answer is compared: the number, the count, the three figures, the place, the
//! letter, and each lent number bit for bit, guards and inputs too. What is served is also held to the old division,
//! divided with looser tolerances, and its result divided again. Prints how often each answer and each way was met, and
//! the first differences. Ends with status 1 where there is a difference, or where something was not met.

use std::process::ExitCode;

fn main() -> ExitCode {
    #[cfg(original)]
    return comparison::run();
    #[cfg(not(original))]
    oracle::parts::without_the_rust()
}

#[cfg(original)]
mod comparison {
    use oracle::parts::{Outcome, argument, compared};
    use oracle::random::Random;
    use oracle::strict_tally::Stricts;
    use std::process::ExitCode;

    /// How many paths there are in a part.
    const PATHS: u64 = 500;

    /// How many rounds of paths of each exact number of insertions there are.
    const EXACT: u64 = 2;

    pub fn run() -> ExitCode {
        let seed = argument(1, 1);
        let thousands = argument(2, 200);
        println!("seed {seed}, {thousands} thousand paths that are divided strictly and quoted");
        let parts = (1000 * thousands).div_ceil(PATHS);
        let mut total: Stricts = compared(seed, parts, |stricts: &mut Stricts, random| {
            stricts.compare_drawn(PATHS, random);
        });
        total.add(compared(seed, EXACT, Stricts::compare_exact));
        total.compare_others(&mut Random::new(seed));
        total.print(parts.div_ceil(10))
    }
}
