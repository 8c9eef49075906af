//! Compares the exported chain check, forward, model check and link frames with the Rust, whose sine, cosine, arctangent and
//! arccosine are the exported ones, and with document 01 where it adds to the Rust:
//!
//!     chains [SEED] [MILLIONS]
//!
//! on MILLIONS (6) million chains with joints, and 60,000 models for each million. Every answer is compared: the number, the
//! index or offset, the letter, and each lent number bit for bit. Prints how often each refusal was met, the first differences,
//! and the largest distances from the Rust with libm. Ends with status 1 where there is a difference.

use std::process::ExitCode;

fn main() -> ExitCode {
    #[cfg(original)]
    return comparison::run();
    #[cfg(not(original))]
    oracle::parts::without_the_rust()
}

#[cfg(original)]
mod comparison {
    use oracle::parts::{argument, compared};
    use oracle::random::Random;
    use oracle::tally::Tally;
    use std::process::ExitCode;

    /// How many parts a million has, and what is compared in each.
    const PARTS: u64 = 10;
    const CHAINS: u64 = 100_000;
    const MODELS: u64 = 6_000;

    /// How often each answer of each entry must be met in a part, on the average.
    const FEWEST: u64 = 10;

    pub fn run() -> ExitCode {
        let seed = argument(1, 1);
        let millions = argument(2, 6);
        let models = 60_000 * millions;
        println!("seed {seed}, {millions} million chains, {models} models");
        let parts = millions * PARTS;
        compared(seed, parts, compare_part).print(parts * FEWEST)
    }

    fn compare_part(tally: &mut Tally, random: &mut Random) {
        tally.compare_drawn(CHAINS, MODELS, random);
    }
}
