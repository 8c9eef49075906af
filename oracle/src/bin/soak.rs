//! Compares every entry with what is expected of it, as the other comparisons do, for as long as is asked:
//!
//!     soak [SEED] [MINUTES]
//!
//! goes round all entries for MINUTES (2) minutes, part after part with a generator of its own, and says each minute how far it has
//! come. A comparison is one call of an entry, or one run of the program, with all that it told and wrote held to what is expected.
//! Prints the comparisons of each entry, what was not met, and the first differences with all their inputs. Ends with status 1 where
//! there is a difference.

use std::process::ExitCode;

fn main() -> ExitCode {
    #[cfg(original)]
    return comparison::run();
    #[cfg(not(original))]
    oracle::parts::without_the_rust()
}

#[cfg(original)]
mod comparison {
    use oracle::parts::{argument, compared_for};
    use oracle::soak::Soak;
    use std::process::ExitCode;
    use std::time::{Duration, Instant};

    const MINUTE: Duration = Duration::from_secs(60);

    pub fn run() -> ExitCode {
        let seed = argument(1, 1);
        let minutes = argument(2, 2);
        println!("seed {seed}, {minutes} minutes");
        let start = Instant::now();
        let time = MINUTE * minutes as u32;
        let soak = compared_for(seed, [time, MINUTE], Soak::compare_part, Soak::print_total);
        soak.print(start.elapsed())
    }
}
