//! Compares the exported sine, cosine, arctangent and arccosine with document 01's S and C, and with the machine's libm:
//!
//!     waves [SEED] [MILLIONS]
//!
//! on MILLIONS (20) million angles, a fifth as many points, a fifth as many cosines, and slices of each; and the pair by which a
//! turn is made on three fifths as many angles in degrees, and on every multiple of 45 degrees with its neighbours. Prints the
//! largest differences, and ends with status 1 where a promise is broken.

use oracle::exact::Sums;
use oracle::parts::{argument, compared};
use oracle::random::Random;
use oracle::wave_tally::Waves;
use std::process::ExitCode;

/// How many angles there are in a part.
const ANGLES: u64 = 1_000_000;

fn main() -> ExitCode {
    let seed = argument(1, 1);
    let parts = argument(2, 20);
    println!("seed {seed}, {parts} million angles");
    let sums = Sums::default();
    let work = |waves: &mut Waves, random: &mut Random| waves.compare_drawn(ANGLES, &sums, random);
    let mut waves: Waves = compared(seed, parts, work);
    waves.compare_eighth_turns(&sums);
    waves.print()
}
