//! A long comparison in parts that threads share. A part has a generator of its own, so a run is the same however many threads
//! there are.

use crate::random::Random;
use std::env;
use std::process::ExitCode;
use std::sync::Mutex;
use std::sync::atomic::{AtomicU64, Ordering::Relaxed};
use std::thread;
use std::time::{Duration, Instant};

/// What a comparison comes to: nothing at first, and more with each part.
pub trait Outcome: Default + Send {
    fn add(&mut self, more: Self);
}

/// A whole number from the command line.
pub fn argument(place: usize, otherwise: u64) -> u64 {
    let Some(word) = env::args().nth(place) else {
        return otherwise;
    };
    word.parse()
        .unwrap_or_else(|_| panic!("'{word}' is no whole number: [SEED] [MILLIONS]"))
}

/// Does the work of each part, and gives what all come to.
pub fn compared<T: Outcome>(seed: u64, parts: u64, work: impl Fn(&mut T, &mut Random) + Sync) -> T {
    let mut total = T::default();
    for more in shared_out(seed, parts, &work) {
        total.add(more);
    }
    total
}

/// The status of a comparison that needs the Rust, where there is none.
pub fn without_the_rust() -> ExitCode {
    println!("the Rust that is compared is not beside this repository");
    ExitCode::from(2)
}

/// A part's own.
fn generator(seed: u64, part: u64) -> Random {
    Random::new(Random::new(seed).bits() ^ Random::new(part).bits())
}

/// Does one part after another until the time is over, each by its index, and shows what all have come to so far, again and again
/// with so much time between. The generators are others than those of `compared`.
pub fn compared_for<T: Outcome>(
    seed: u64,
    [time, between]: [Duration; 2],
    work: impl Fn(&mut T, u64, &mut Random) + Sync,
    show: impl Fn(&T),
) -> T {
    let end = Instant::now() + time;
    let next = AtomicU64::new(0);
    let total = Mutex::new(T::default());
    let added = || total.lock().expect("no thread of the comparison panicked");
    let one = || {
        while Instant::now() < end {
            let part = next.fetch_add(1, Relaxed);
            let mut sum = T::default();
            work(&mut sum, part, &mut generator(!seed, part));
            added().add(sum);
        }
    };
    thread::scope(|scope| {
        for _ in 0..threads() {
            scope.spawn(one);
        }
        while end > Instant::now() + between {
            thread::sleep(between);
            show(&added());
        }
    });
    total
        .into_inner()
        .expect("no thread of the comparison panicked")
}

fn threads() -> u64 {
    thread::available_parallelism().map_or(1, |n| n.get() as u64)
}

/// What each thread came to.
fn shared_out<T: Outcome>(
    seed: u64,
    parts: u64,
    work: &(impl Fn(&mut T, &mut Random) + Sync),
) -> Vec<T> {
    let threads = threads();
    let one = |first: u64| {
        let mut sum = T::default();
        for part in (first..parts).step_by(threads as usize) {
            work(&mut sum, &mut generator(seed, part));
        }
        sum
    };
    thread::scope(|scope| {
        let each: Vec<_> = (0..threads).map(|t| scope.spawn(move || one(t))).collect();
        each.into_iter()
            .map(|thread| thread.join().expect("a thread of the comparison panicked"))
            .collect()
    })
}
