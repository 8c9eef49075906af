//! Compares the exported inverse and choose with the Rust, whose sine, cosine, arctangent and arccosine are the exported ones, and
//! with document 01 where it adds to the Rust:
//!
//!     inverses [SEED] [MILLIONS]
//!
//! on MILLIONS (5) million cases, each through both. Every answer is compared: the number, the index or offset, the letter, the
//! count, and each lent number bit for bit. Prints how often each refusal, each count and each kind of machine was met, the first
//! differences, and the largest distances from the Rust with libm. Ends with status 1 where there is a difference, or where
//! something that can be met was met too seldom.

use std::process::ExitCode;

fn main() -> ExitCode {
    #[cfg(original)]
    return comparison::run();
    #[cfg(not(original))]
    oracle::parts::without_the_rust()
}

#[cfg(original)]
mod comparison {
    use oracle::inverse_tally::Tally;
    use oracle::parts::{argument, compared};
    use oracle::random::Random;
    use std::process::ExitCode;

    /// How many parts a million has, and how many cases a part.
    const PARTS: u64 = 20;
    const CASES: u64 = 50_000;

    /// How often each answer must be met in a part, on the average.
    const FEWEST: u64 = 1;

    pub fn run() -> ExitCode {
        let seed = argument(1, 1);
        let millions = argument(2, 5);
        println!("seed {seed}, {millions} million cases");
        let parts = millions * PARTS;
        compared(seed, parts, compare_part).print(parts * FEWEST)
    }

    fn compare_part(tally: &mut Tally, random: &mut Random) {
        tally.compare_drawn(CASES, random);
    }
}
