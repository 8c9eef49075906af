//! Compares the exported subdivide_path and the call that solves and divides with the Rust, whose sine, cosine, arctangent and
//! arccosine are the exported ones, and with document 01 where it adds to the Rust:
//!
//!     divisions [SEED] [THOUSANDS]
//!
//! on THOUSANDS (300) thousand paths for each of the two, mostly of 0 to 20 poses, each with several spaces; on paths
//! that need 9,999, 10,000 and 10,001 insertions exactly; on remarkable ones with every space; and on one of 100,000
//! poses for each, and of a pose more. Each that is served is divided with looser tolerances too, and its result is
//! divided again. Every answer is compared: the number, the count, the pose, rotary or offset, the letter, and
//! each lent number bit for bit. Prints how often each refusal and each kind of path was met, the first differences,
//! and the largest distances from the Rust with libm. Ends with status 1 where there is a difference, or where
//! something was not met.

use std::process::ExitCode;

fn main() -> ExitCode {
    #[cfg(original)]
    return comparison::run();
    #[cfg(not(original))]
    oracle::parts::without_the_rust()
}

#[cfg(original)]
mod comparison {
    use oracle::insertions::Insertions;
    use oracle::parts::{Outcome, argument, compared};
    use oracle::random::Random;
    use std::process::ExitCode;

    /// How many paths there are in a part, for each of the two.
    const PATHS: u64 = 1000;

    /// How often each answer must be met in ten parts, on the average.
    const FEWEST: u64 = 1;

    /// How many paths of each exact number of insertions there are.
    const EXACT: u64 = 2;

    pub fn run() -> ExitCode {
        let seed = argument(1, 1);
        let thousands = argument(2, 300);
        println!(
            "seed {seed}, {thousands} thousand paths that are divided, and as many that are solved and divided"
        );
        let parts = (1000 * thousands).div_ceil(PATHS);
        let mut total = compared(seed, parts, compare_part);
        total.add(compared(seed, EXACT, Insertions::compare_exact));
        total.compare_others(&mut Random::new(seed));
        total.print((parts * FEWEST).div_ceil(10))
    }

    fn compare_part(insertions: &mut Insertions, random: &mut Random) {
        insertions.compare_drawn(PATHS, random);
    }
}
