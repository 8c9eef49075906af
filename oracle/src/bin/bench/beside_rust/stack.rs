//! How deep a call goes into the stack: below the frame from which it is made the stack is painted, and what is no longer painted after
//! the call is the call's.

use std::hint::black_box;
use std::thread;

const PAINT: u64 = 0xC0A7_C0A7_C0A7_C0A7;
/// Words that are painted.
const DEPTH: usize = 1 << 18;
const STACK: usize = 4 * 8 * DEPTH;

/// In bytes, without those of the measuring itself.
pub fn peak(call: &mut (dyn FnMut() + Send)) -> u64 {
    let measured = thread::scope(|scope| {
        let thread = thread::Builder::new().stack_size(STACK);
        let thread = thread.spawn_scoped(scope, || {
            let nothing = overwritten(&mut || ());
            overwritten(call).saturating_sub(nothing)
        });
        thread.expect("a thread").join()
    });
    measured.expect("a depth")
}

#[inline(never)]
fn overwritten(call: &mut dyn FnMut()) -> u64 {
    let deepest = paint();
    black_box(&mut *call)();
    still_painted(deepest)
}

/// Where the paint starts.
#[inline(never)]
fn paint() -> *const u64 {
    let mut room = [PAINT; DEPTH];
    black_box(&mut room).as_ptr()
}

/// Bytes from the first word that has lost its paint to where the paint ended.
#[inline(never)]
fn still_painted(deepest: *const u64) -> u64 {
    // SAFETY: the words are this thread's stack, of which nothing so deep is in use.
    let painted = |word: &usize| unsafe { deepest.add(*word).read_volatile() } == PAINT;
    let count = (0..DEPTH).take_while(painted).count();
    assert_ne!(count, 0, "a call goes deeper than the paint");
    8 * (DEPTH - count) as u64
}
