//! Compares what writes jobs with a packer of its own, and with what the port reads from them; the Rust checks the
//! chains:
//!
//!     writes [SEED] [THOUSANDS]
//!
//! THOUSANDS (1000) thousand random jobs are written, each is read and written again; as many files with gaps between
//! their parts are read and written; and twice as many are tried that have faults, half of them with every later fault
//! beside the first. The room is a byte short, just enough, a byte more, or any. Every answer is compared: the number,
//! the place, the letter, the length, and each byte of what was lent. Prints how often each answer was met, and the
//! first differences. Ends with status 1 where there is a difference, or where something was not met.

use std::process::ExitCode;

fn main() -> ExitCode {
    #[cfg(original)]
    return comparison::run();
    #[cfg(not(original))]
    oracle::parts::without_the_rust()
}

#[cfg(original)]
mod comparison {
    use oracle::parts::{argument, compared};
    use oracle::random::Random;
    use oracle::write_tally::WriteTally;
    use std::process::ExitCode;

    /// How many jobs there are in a part.
    const JOBS: u64 = 1000;

    /// How often each answer must be met in a hundred parts, on the average.
    const FEWEST: u64 = 1;

    pub fn run() -> ExitCode {
        let seed = argument(1, 1);
        let thousands = argument(2, 1000);
        println!("seed {seed}, {thousands} thousand jobs");
        let parts = (1000 * thousands).div_ceil(JOBS);
        let total = compared(seed, parts, compare_part);
        total.print((parts * FEWEST).div_ceil(100))
    }

    fn compare_part(tally: &mut WriteTally, random: &mut Random) {
        tally.compare_drawn(JOBS, random);
    }
}
