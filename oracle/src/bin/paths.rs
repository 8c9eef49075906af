//! Compares the exported solve_path with the Rust, whose sine, cosine, arctangent and arccosine are the exported ones, and with
//! document 01 where it adds to the Rust:
//!
//!     paths [SEED] [THOUSANDS]
//!
//! on THOUSANDS (320) thousand paths of 0 to 500 poses, as many of 1 to 4 beside a stop in the cone, sixteen of 5,000, one of 100,000
//! and three of a pose more. Every answer is compared: the number, the pose, rotary or offset, the letter, and each lent number bit
//! for bit. Prints how often each refusal and each way to a pose was met, the first differences, and the largest distances from the
//! Rust with libm. Ends with status 1 where there is a difference, or where something was not met.

use std::process::ExitCode;

fn main() -> ExitCode {
    #[cfg(original)]
    return comparison::run();
    #[cfg(not(original))]
    oracle::parts::without_the_rust()
}

#[cfg(original)]
mod comparison {
    use oracle::parts::{argument, compared};
    use oracle::random::Random;
    use oracle::ways::Ways;
    use std::process::ExitCode;

    /// How many paths there are in a part.
    const PATHS: u64 = 1000;

    /// How often each answer and each way must be met in ten parts, on the average.
    const FEWEST: u64 = 4;

    /// On how many paths of a part a lock must leave a rotary's limits, on the average: 200,000 in all.
    const LEFT: u64 = 625;

    pub fn run() -> ExitCode {
        let seed = argument(1, 1);
        let thousands = argument(2, 320);
        println!("seed {seed}, {thousands} thousand paths");
        let parts = (1000 * thousands).div_ceil(PATHS);
        let mut total = compared(seed, parts, compare_part);
        total.compare_long(&mut Random::new(seed));
        total.print((parts * FEWEST).div_ceil(10), parts * LEFT)
    }

    fn compare_part(ways: &mut Ways, random: &mut Random) {
        ways.compare_drawn(PATHS, random);
    }
}
