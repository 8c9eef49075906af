//! What inverse and choose must answer: the Rust's answer, and document 01 where it adds to the Rust: lengths and choices (20),
//! bytes (29), a hint that is not finite (16) and the sizes (17), which stand before any solving.

use crate::inverse_cases::{Case, Entry, HINT, MOST_TIP, POSE};
use crate::joints::{MOST_ANGLE, MOST_TOOL};
use crate::reading;
use crate::reference::{
    LENGTHS_DIFFER, NOT_FINITE, NOT_REACHABLE, OUTSIDE_LIMITS, Refusal, TOO_LARGE, bare,
    chain_fits, exceeds, finite, malformed, refusal, refused,
};
use crate::rust::{ported, untouched};

/// The joint sets: of choose one.
pub type Sets = Vec<[f64; 5]>;

/// The joint sets or a refusal.
pub type Answer = Result<Sets, Refusal>;

pub fn expected(entry: Entry, case: &Case) -> Answer {
    if !lengths_fit(entry, case) {
        return refused(LENGTHS_DIFFER);
    }
    let chain = reading::chain(&case.chain).map_err(malformed)?;
    let (hint, tool) = (hint(entry, case), case.tool_length);
    let finite_hint = finite(&hint);
    let fit = chain_fits(&chain)
        && !case.pose[..3].iter().any(|&x| exceeds(x, MOST_TIP))
        && !hint.iter().any(|&x| exceeds(x, MOST_ANGLE))
        && !exceeds(tool, MOST_TOOL);
    let machine = bare(&chain);
    let rust = ported::kinematics(&machine);
    let told = if fit && finite_hint {
        match entry {
            Entry::Inverse => ported::inverse(&rust, &case.pose, tool, hint),
            Entry::Choose => {
                ported::choose(&rust, &case.pose, tool, case.choice, hint).map(|set| vec![set])
            }
        }
    } else {
        ported::inverse(&rust, &still(&case.pose), stilled(tool), [0.0; 2])
    };
    match told {
        Err(words) if !of_solving(&words) => Err(refusal(&words, &machine)),
        _ if !finite_hint => refused(NOT_FINITE),
        _ if !fit => refused(TOO_LARGE),
        told => told.map_err(|words| refusal(&words, &machine)),
    }
}

/// The untouched Rust's answer to a call that comes to its solving: its joint sets, or the refusal's number.
pub fn with_libm(entry: Entry, case: &Case) -> Result<Sets, u32> {
    let chain = reading::chain(&case.chain).expect("a chain that is served");
    let machine = bare(&chain);
    let rust = untouched::kinematics(&machine);
    let (hint, tool) = (hint(entry, case), case.tool_length);
    let told = match entry {
        Entry::Inverse => untouched::inverse(&rust, &case.pose, tool, hint),
        Entry::Choose => {
            untouched::choose(&rust, &case.pose, tool, case.choice, hint).map(|set| vec![set])
        }
    };
    told.map_err(|words| refusal(&words, &machine).number)
}

fn lengths_fit(entry: Entry, case: &Case) -> bool {
    let lent = case.pose.len() == POSE && case.hint.len() == HINT && case.missing == 0;
    lent && (entry == Entry::Inverse || case.choice < 3)
}

/// Choices but the nearest have none.
fn hint(entry: Entry, case: &Case) -> [f64; 2] {
    match (entry, case.choice) {
        (Entry::Choose, 1 | 2) => [0.0; 2],
        _ => [case.hint[0], case.hint[1]],
    }
}

/// Where some size is above its limit, or the hint is not finite, only what the Rust refuses before it solves is asked for: each
/// finite number of the tip, and a tool length, is 0.
fn still(pose: &[f64]) -> Vec<f64> {
    let (tip, axis) = pose.split_at(3);
    let tip = tip.iter().map(|&x| if x.is_finite() { 0.0 } else { x });
    tip.chain(axis.iter().copied()).collect()
}

fn stilled(tool: f64) -> f64 {
    if tool.is_finite() && tool > 0.0 {
        0.0
    } else {
        tool
    }
}

/// Words that the Rust says behind all its checks.
fn of_solving(words: &str) -> bool {
    let overflows = [
        "joint position must be finite",
        "joint angle must be finite",
    ];
    words.ends_with(NOT_REACHABLE) || words.ends_with(OUTSIDE_LIMITS) || overflows.contains(&words)
}

#[cfg(test)]
mod tests {
    use super::*;
    use crate::chains::Chain;
    use crate::inverse_calls::{ask, telling};

    /// A head C about z with the spindle along x, the limits -360 and 360, and a tool along -x: -180 and 180.
    fn half_turns() -> (Case, Chain) {
        let mut chain = Chain {
            count: 1,
            spindle: [1.0, 0.0, 0.0],
            ..Chain::default()
        };
        let rotary = &mut chain.rotaries[0];
        (rotary.letter, rotary.carrier, rotary.limited) = (b'C', 1, 1);
        rotary.axis = [0.0, 0.0, 1.0];
        rotary.limits = [-360.0, 360.0];
        let case = Case {
            chain: chain.bytes(),
            pose: vec![0.0, 0.0, 0.0, -1.0, 0.0, 0.0],
            tool_length: 0.0,
            hint: vec![170.0, 0.0],
            choice: 0,
            missing: 0,
        };
        (case, chain)
    }

    fn number(case: &Case) -> u32 {
        let answer = expected(Entry::Inverse, case);
        let told = ask(Entry::Inverse, case);
        assert_eq!(told, telling(Entry::Inverse, case, &answer));
        told.number
    }

    fn chosen(case: &Case) -> f64 {
        let answer = expected(Entry::Choose, case);
        assert_eq!(
            ask(Entry::Choose, case),
            telling(Entry::Choose, case, &answer)
        );
        answer.expect("a joint set")[0][3]
    }

    #[test]
    fn the_second_hint_counts_with_one_rotary() {
        let (mut case, _) = half_turns();
        for (second, angle) in [(0.0, 180.0), (349.0, 180.0), (350.0, -180.0), (1e4, -180.0)] {
            case.hint[1] = second;
            assert_eq!(chosen(&case), angle, "{second}");
        }
        for (choice, angle) in [(1, 180.0), (2, -180.0)] {
            (case.choice, case.hint[1]) = (choice, f64::NAN);
            assert_eq!(chosen(&case), angle, "{choice}");
        }
    }

    #[test]
    fn checks_stand_in_order() {
        let asked = |change: fn(&mut Case)| {
            let (mut case, _) = half_turns();
            change(&mut case);
            number(&case)
        };
        assert_eq!(asked(|_| ()), 0);
        assert_eq!(asked(|case| case.hint[1] = f64::NAN), 16);
        assert_eq!(asked(|case| case.hint[1] = 36_000.0_f64.next_up()), 17);
        assert_eq!(asked(|case| case.pose[3] = 1e200), 15);
        let length = |case: &mut Case| (case.tool_length, case.pose[3]) = (-1.0, 0.0);
        assert_eq!(asked(length), 14);
        let chain = |case: &mut Case| (case.chain[0], case.pose[3]) = (3, 0.0);
        assert_eq!(asked(chain), 15);
        assert_eq!(asked(|case| case.chain[0] = 3), 3);
        assert_eq!(asked(|case| case.pose[5] = 1.0), 21);
        let sizes = |case: &mut Case| (case.pose[5], case.pose[0]) = (1.0, 1e6);
        assert_eq!(asked(sizes), 17);
    }

    /// On two rotaries with limits, so that every number of the bytes is read.
    #[test]
    fn every_number_is_tested() {
        let (mut case, mut chain) = half_turns();
        chain.count = 2;
        chain.rotaries[1] = chain.rotaries[0];
        (chain.rotaries[1].letter, chain.rotaries[1].axis) = (b'A', [1.0, 0.0, 0.0]);
        chain.rested = true;
        case.chain = chain.bytes();
        assert_eq!(number(&case), 0);
        for x in [f64::NAN, f64::INFINITY, f64::NEG_INFINITY] {
            for at in (16..88).chain(96..192).step_by(8) {
                let mut case = case.clone();
                case.chain[at..at + 8].copy_from_slice(&x.to_le_bytes());
                assert!([6, 8].contains(&number(&case)), "{at}");
            }
            for slot in 0..9 {
                let mut case = case.clone();
                let (place, refusal) = match slot {
                    0..3 => (&mut case.pose[slot], 16),
                    3..6 => (&mut case.pose[slot], 15),
                    6 => (&mut case.tool_length, 14),
                    _ => (&mut case.hint[slot - 7], 16),
                };
                *place = x;
                assert_eq!(number(&case), refusal, "{slot}");
            }
        }
    }

    /// Off the circle by more than 1e-9 and less than 1e-7: the limits are judged first.
    #[test]
    fn limits_stand_between_the_tests_of_an_axis() {
        let (mut case, mut chain) = half_turns();
        case.pose[5] = 1e-8;
        assert_eq!(number(&case), 21);
        chain.rotaries[0].limits = [0.0, 90.0];
        case.chain = chain.bytes();
        assert_eq!(number(&case), 22);
    }
}
