//! How a time is taken: the shortest of many rounds, each of which goes once over all the inputs.

use std::time::Instant;

/// However many inputs there are.
const FEWEST_ROUNDS: usize = 10;

/// Of two that are timed beside each other.
const TURNS: usize = 10;

/// In ns.
pub fn shortest(rounds: usize, mut round: impl FnMut()) -> f64 {
    let mut least = f64::INFINITY;
    for _ in 0..rounds {
        let start = Instant::now();
        round();
        least = least.min(start.elapsed().as_nanos() as f64);
    }
    least
}

/// In ns for each of the inputs of a round, of which there are as many as come to so many calls.
pub fn of_each(calls: usize, inputs: usize, round: impl FnMut()) -> f64 {
    shortest((calls / inputs).max(FEWEST_ROUNDS), round) / inputs as f64
}

/// The same of two that take turns, so that what disturbs the one disturbs the other.
pub fn of_both(
    calls: usize,
    inputs: usize,
    mut port: impl FnMut(),
    mut other: impl FnMut(),
) -> [f64; 2] {
    let rounds = (calls / inputs).max(FEWEST_ROUNDS) / TURNS;
    let mut least = [f64::INFINITY; 2];
    for _ in 0..TURNS {
        least[0] = least[0].min(shortest(rounds, &mut port));
        least[1] = least[1].min(shortest(rounds, &mut other));
    }
    least.map(|time| time / inputs as f64)
}
