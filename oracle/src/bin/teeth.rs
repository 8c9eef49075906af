//! Compares the exported choose_tooth with document 02: the Rust's choose, and its own steps for a pair of angles with the turns of
//! the oracle's own table of half degrees:
//!
//!     teeth [SEED] [THOUSANDS]
//!
//! on THOUSANDS (1,000) thousand calls. Every answer is compared: the number, the index or offset, the letter, and each lent number
//! bit for bit. Prints how often each refusal, each way and each kind of machine was met, how far the tip is off at most, and the
//! first differences. Ends with status 1 where there is a difference, where something was met too seldom, or where a tip is off by
//! more than 1e-9 mm.

use std::process::ExitCode;

fn main() -> ExitCode {
    #[cfg(original)]
    return comparison::run();
    #[cfg(not(original))]
    oracle::parts::without_the_rust()
}

#[cfg(original)]
mod comparison {
    use oracle::parts::{argument, compared};
    use oracle::random::Random;
    use oracle::tooth_tally::Teeth;
    use std::process::ExitCode;

    /// How many calls a part has.
    const CALLS: u64 = 10_000;

    /// How often each thing must be met in a part, on the average.
    const FEWEST: u64 = 1;

    pub fn run() -> ExitCode {
        let seed = argument(1, 1);
        let parts = argument(2, 1000) * 1000 / CALLS;
        println!("seed {seed}, {} calls", parts * CALLS);
        compared(seed, parts, compare_part).print(parts * FEWEST)
    }

    fn compare_part(tally: &mut Teeth, random: &mut Random) {
        tally.compare_drawn(CALLS, random);
    }
}
