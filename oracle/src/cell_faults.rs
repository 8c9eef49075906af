//! Wrong dispatchers: the exports with one answer, one place of the state or one output changed. The comparison must
//! see each of them.

use crate::cell_calls::{Calls, PORT};
use crate::cell_tally::Cells;
use crate::maztubel::{self, Dispatcher, Solved};
use crate::met::Account;
use crate::random::Random;

const WAITING: usize = 144;

type Outputs<'a> = [&'a mut [f64]; 2];
type Lent<'a> = (&'a mut u64, &'a mut u8, &'a mut u64);
type Place<'a> = (&'a mut u64, &'a mut u8);

/// The export, and then `change` by the number: of the state's words, the outputs and the path.
fn admitted(
    state: Dispatcher,
    solved: Solved,
    tolerances: [f64; 2],
    [poses, joints]: Outputs,
    path: &mut u64,
    place: Place,
    change: impl FnOnce(u32, &mut [u64], &mut [f64], &mut u64) -> u32,
) -> u32 {
    let Dispatcher { words, numbers } = state;
    let lent = Dispatcher {
        words: &mut *words,
        numbers,
    };
    let outputs = [&mut *poses, joints];
    let number = maztubel::admit(lent, solved, tolerances, outputs, path, place);
    change(number, words, poses, path)
}

fn largest_number(s: Dispatcher, c: Solved, t: [f64; 2], o: Outputs, p: &mut u64, l: Place) -> u32 {
    admitted(s, c, t, o, p, l, |number, words, _, path| {
        if number == 0 {
            let last = words[WAITING] as usize - 1;
            let taken = |number: &u64| (0..last).any(|i| words[9 * i] == *number);
            *path = (0..16).rev().find(|number| !taken(number)).unwrap_or(0);
            words[9 * last] = *path;
        }
        number
    })
}

fn kept_by_28(s: Dispatcher, c: Solved, t: [f64; 2], o: Outputs, p: &mut u64, l: Place) -> u32 {
    let before = o[0].to_vec();
    admitted(s, c, t, o, p, l, |number, _, poses, _| {
        if number == 28 {
            poses.copy_from_slice(&before);
        }
        number
    })
}

fn number_for_28(s: Dispatcher, c: Solved, t: [f64; 2], o: Outputs, p: &mut u64, l: Place) -> u32 {
    admitted(s, c, t, o, p, l, |number, words, _, _| {
        if let Some(waiting) = words.get_mut(WAITING) {
            *waiting += u64::from(number == 28);
        }
        number
    })
}

fn lengths_first(s: Dispatcher, c: Solved, t: [f64; 2], o: Outputs, p: &mut u64, l: Place) -> u32 {
    let broken = !o[0].len().is_multiple_of(6) || !o[1].len().is_multiple_of(5);
    admitted(s, c, t, o, p, l, |number, _, _, _| match number {
        32 if broken => 20,
        _ => number,
    })
}

fn path_told(s: Dispatcher, c: Solved, t: [f64; 2], o: Outputs, p: &mut u64, l: Place) -> u32 {
    admitted(s, c, t, o, p, l, |number, _, _, path| {
        if number == 19 {
            *path = 0;
        }
        number
    })
}

fn word_behind(s: Dispatcher, c: Solved, t: [f64; 2], o: Outputs, p: &mut u64, l: Place) -> u32 {
    admitted(s, c, t, o, p, l, |number, words, _, _| {
        if number == 0 && words[WAITING] < 16 {
            words[WAITING - 1] ^= 1;
        }
        number
    })
}

fn last_is_next(words: &[u64], path: &mut u64) -> u32 {
    let number = maztubel::next(words, path);
    if number == 0 && *path < 16 {
        *path = words[9 * (words[WAITING] as usize - 1)];
    }
    number
}

fn nobody_is_0(words: &[u64], path: &mut u64) -> u32 {
    let number = maztubel::next(words, path);
    *path %= 16;
    number
}

/// The export, and then `change` with the number: of the words, the poses and what else is lent.
fn turned(
    state: Dispatcher,
    [poses, joints]: Outputs,
    (path, ended, inserted): Lent,
    change: impl FnOnce(u32, &mut [u64], &mut [f64], &mut [f64], Lent) -> u32,
) -> u32 {
    let Dispatcher { words, numbers } = state;
    let lent = Dispatcher {
        words: &mut *words,
        numbers: &mut *numbers,
    };
    let outputs = [&mut *poses, joints];
    let number = maztubel::turn(lent, outputs, (&mut *path, &mut *ended, &mut *inserted));
    change(number, words, numbers, poses, (path, ended, inserted))
}

fn first_again(s: Dispatcher, o: Outputs, l: Lent) -> u32 {
    turned(s, o, l, |number, words, numbers, _, (_, ended, _)| {
        let count = words.get(WAITING).copied().unwrap_or(0) as usize;
        if number == 0 && *ended == 0 && count <= 16 {
            words[..9 * count].rotate_right(9.min(9 * count));
            numbers[..23 * count].rotate_right(23.min(23 * count));
        }
        number
    })
}

fn queue_moved_by_20(s: Dispatcher, o: Outputs, l: Lent) -> u32 {
    turned(s, o, l, |number, words, numbers, _, _| {
        let count = words.get(WAITING).copied().unwrap_or(0) as usize;
        if number == 20 && words.len() == 145 && numbers.len() == 368 && count <= 16 {
            words[..9 * count].rotate_left(9.min(9 * count));
            numbers[..23 * count].rotate_left(23.min(23 * count));
        }
        number
    })
}

fn nobody_is_20(s: Dispatcher, o: Outputs, l: Lent) -> u32 {
    turned(s, o, l, |number, _, _, _, (path, _, _)| match *path {
        16 => 20,
        _ => number,
    })
}

fn end_not_told(s: Dispatcher, o: Outputs, l: Lent) -> u32 {
    turned(s, o, l, |number, _, _, _, (_, ended, _)| {
        if number == 28 {
            *ended = 0;
        }
        number
    })
}

fn count_before(s: Dispatcher, o: Outputs, l: Lent) -> u32 {
    turned(s, o, l, |number, _, _, _, (_, ended, inserted)| {
        if number == 0 && *ended == 1 {
            *inserted = inserted.saturating_sub(1);
        }
        number
    })
}

fn rest_not_cleared(s: Dispatcher, o: Outputs, l: Lent) -> u32 {
    turned(s, o, l, |number, _, _, poses, (path, ended, _)| {
        if let (0, 0..16, 1, Some(last)) = (number, *path, *ended, poses.last_mut()) {
            *last = f64::from_bits(last.to_bits() ^ 1);
        }
        number
    })
}

fn another_count(s: Dispatcher, o: Outputs, l: Lent) -> u32 {
    turned(s, o, l, |number, words, _, _, (path, _, _)| {
        if number == 0 && *path < 16 && words[WAITING] > 1 {
            words[6] += 1;
        }
        number
    })
}

/// A path that is alone gets 128 tests.
fn twice_alone(s: Dispatcher, o: Outputs, (path, ended, inserted): Lent) -> u32 {
    let Dispatcher { words, numbers } = s;
    let [poses, joints] = o;
    let mut number = 0;
    for _ in 0..2 {
        let lent = Dispatcher {
            words: &mut *words,
            numbers: &mut *numbers,
        };
        let outputs = [&mut *poses, &mut *joints];
        number = maztubel::turn(lent, outputs, (&mut *path, &mut *ended, &mut *inserted));
        if number != 0 || *ended != 0 || words.get(WAITING) != Some(&1) {
            break;
        }
    }
    number
}

fn dead_has_none(words: &[u64], path: u64, inserted: &mut u64) -> u32 {
    match maztubel::count(words, path, inserted) {
        33 if path < 16 => {
            *inserted = 0;
            0
        }
        number => number,
    }
}

fn count_with_20(words: &[u64], path: u64, inserted: &mut u64) -> u32 {
    match words.len() {
        145 => maztubel::count(words, path, inserted),
        _ => 20,
    }
}

fn wrong() -> Vec<(&'static str, Calls)> {
    let admit = |admit| Calls { admit, ..PORT };
    let next = |next| Calls { next, ..PORT };
    let turn = |turn| Calls { turn, ..PORT };
    let count = |count| Calls { count, ..PORT };
    vec![
        ("the largest free number", admit(largest_number as _)),
        ("28 keeps its outputs", admit(kept_by_28)),
        ("28 takes a number", admit(number_for_28)),
        ("20 before 32", admit(lengths_first)),
        ("19 tells a path", admit(path_told)),
        ("a word behind the entries", admit(word_behind)),
        ("the last is next", next(last_is_next as _)),
        ("no path is path 0", next(nobody_is_0)),
        ("the first is served again", turn(first_again as _)),
        ("20 moves the queue", turn(queue_moved_by_20)),
        ("no path is 20", turn(nobody_is_20)),
        ("28 without an end", turn(end_not_told)),
        ("one insertion fewer", turn(count_before)),
        ("a number behind the path", turn(rest_not_cleared)),
        ("another path's count", turn(another_count)),
        ("128 tests", turn(twice_alone)),
        ("a dead number has no insertions", count(dead_has_none as _)),
        ("20 before 33", count(count_with_20)),
    ]
}

fn differences(calls: Calls) -> u64 {
    let mut cells = Cells::of(calls);
    cells.compare_drawn(200, &mut Random::new(5));
    cells.noted().iter().map(|noted| noted.count()).sum()
}

#[test]
fn the_exports_show_no_difference() {
    assert_eq!(differences(PORT), 0);
}

#[test]
fn each_wrong_dispatcher_is_seen() {
    for (what, calls) in wrong() {
        assert!(differences(calls) > 0, "{what}");
    }
}
