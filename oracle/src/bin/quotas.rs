//! Compares quotas by shop with what document 02 says of them, beside the Rust's division:
//!
//!     quotas [SEED] [THOUSANDS]
//!
//! makes THOUSANDS (8) thousand rows of 50 grants and charged divisions each, from empty balances, over all 32 shops and unknown
//! ones in any order, and after each row a few calls on balances of any size and of another number. Every answer is compared: the
//! number, the count, the place and the letter, each balance and each lent number bit for bit, guards and inputs too; and after every
//! call of a row the sums of what the calls said that they granted and charged are held to the balances. Prints how often each answer
//! was met, and the first differences. Ends with status 1 where there is a difference, or where something was not met.

use std::process::ExitCode;

fn main() -> ExitCode {
    #[cfg(original)]
    return comparison::run();
    #[cfg(not(original))]
    oracle::parts::without_the_rust()
}

#[cfg(original)]
mod comparison {
    use oracle::parts::{Outcome, argument, compared};
    use oracle::quota_tally::Quotas;
    use std::process::ExitCode;

    /// How many rows there are in a part.
    const ROWS: u64 = 50;

    /// How many rows of divisions there are that need thousands of insertions.
    const MANY: u64 = 2;

    pub fn run() -> ExitCode {
        let seed = argument(1, 1);
        let thousands = argument(2, 8);
        println!("seed {seed}, {thousands} thousand rows");
        let parts = (1000 * thousands).div_ceil(ROWS);
        let mut total: Quotas = compared(seed, parts, |tally: &mut Quotas, random| {
            tally.compare_drawn(ROWS, random);
        });
        total.add(compared(seed, MANY, Quotas::compare_many));
        total.print(1)
    }
}
