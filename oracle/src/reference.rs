//! What each entry must answer: the Rust's answer where the Rust has the check, with its words turned into document 01's
//! numbers, and document 01 where it has not. Those are the lengths of what is lent (20), the bytes (29), an angle that the chain
//! does not use (16) and the sizes (17), each in the place that document 01's order of checks gives it.

use crate::cases::{Case, Entry, FRAME, POSE};
use crate::chains::{Chain, MOST_PIVOT, MOST_REST};
use crate::joints::{MOST_ANGLE, MOST_POSITION, MOST_TOOL};
use crate::models::Link;
use crate::original::ported::kinematics::Kinematics;
use crate::reading;
use crate::rust::ported::Told;
use crate::rust::{Machine, chain_name, ported, untouched};

pub const NOT_FINITE: u32 = 16;
pub const TOO_LARGE: u32 = 17;
pub const LENGTHS_DIFFER: u32 = 20;
const MALFORMED: u32 = 29;
const NOT_FINITE_IN_CHAIN: u32 = 6;
const LIMITS: u32 = 8;

const JOINTS: usize = 5;

/// How the Rust's words end where no angles reach a tool axis, and where none within the limits do.
pub const NOT_REACHABLE: &str = ") is not reachable";
pub const OUTSIDE_LIMITS: &str = ") is outside the rotary limits";

/// A refusal's number, and the index or the offset that goes with it, else 0. None of the entries that are compared names a letter.
#[derive(Clone, Copy, Debug, PartialEq)]
pub struct Refusal {
    pub number: u32,
    pub at: u64,
}

/// The numbers that are written, none for a check, or a refusal.
pub type Answer = Result<Vec<f64>, Refusal>;

pub fn refused<T>(number: u32) -> Result<T, Refusal> {
    Err(Refusal { number, at: 0 })
}

pub fn malformed(offset: usize) -> Refusal {
    Refusal {
        number: MALFORMED,
        at: offset as u64,
    }
}

pub fn expected(entry: Entry, case: &Case) -> Answer {
    match entry {
        Entry::CheckChain => check_chain(case),
        Entry::Forward => forward(case),
        Entry::CheckModel => check_model(case),
        Entry::LinkWorld => link_frame(case, ported::link_world),
        Entry::LinkInPart => link_frame(case, ported::link_in_part),
    }
}

/// The same call's numbers with libm's sine and cosine, for a case that is served.
pub fn with_libm(entry: Entry, case: &Case) -> Option<Vec<f64>> {
    let chain = reading::chain(&case.chain).ok()?;
    let rust = untouched::kinematics(&bare(&chain));
    let carrier = String::from_utf8_lossy(&case.carrier);
    match entry {
        Entry::Forward => untouched::forward(&rust, &case.joints, case.tool_length).ok(),
        Entry::LinkWorld => untouched::link_world(&rust, &case.joints, &carrier).ok(),
        Entry::LinkInPart => untouched::link_in_part(&rust, &case.joints, &carrier).ok(),
        Entry::CheckChain | Entry::CheckModel => None,
    }
}

/// A chain under a name of one byte, and no model.
pub fn bare(chain: &Chain) -> Machine<'_> {
    Machine {
        name_length: 1,
        chain,
        links: &[],
    }
}

fn check_chain(case: &Case) -> Answer {
    let chain = reading::chain(&case.chain).map_err(malformed)?;
    check(&bare(&chain))
}

fn check_model(case: &Case) -> Answer {
    let chain = reading::chain(&case.chain).map_err(malformed)?;
    let links = reading::model(&case.model).map_err(malformed)?;
    check(&Machine {
        name_length: case.name.len(),
        chain: &chain,
        links: &links,
    })
}

fn check(machine: &Machine) -> Answer {
    ported::check(&ported::kinematics(machine)).map_err(|words| refusal(&words, machine))?;
    if !chain_fits(machine.chain) {
        return refused(TOO_LARGE);
    }
    Ok(Vec::new())
}

fn forward(case: &Case) -> Answer {
    let (joints, tool_length) = (&case.joints, case.tool_length);
    if joints.len() != JOINTS || case.room != POSE {
        return refused(LENGTHS_DIFFER);
    }
    let chain = reading::chain(&case.chain).map_err(malformed)?;
    let machine = bare(&chain);
    let fit = chain_fits(&chain) && joints_fit(joints) && !exceeds(tool_length, MOST_TOOL);
    let rust = ported::kinematics(&machine);
    let pose = ported::forward(&rust, &turned(joints, fit), tool_length)
        .map_err(|words| refusal(&words, &machine))?;
    if !finite(joints) {
        return refused(NOT_FINITE);
    }
    if !fit {
        return refused(TOO_LARGE);
    }
    Ok(pose)
}

fn link_frame(case: &Case, frame_of: fn(&Kinematics, &[f64], &str) -> Told<Vec<f64>>) -> Answer {
    let joints = &case.joints;
    if joints.len() != JOINTS || case.room != FRAME {
        return refused(LENGTHS_DIFFER);
    }
    let chain = reading::chain(&case.chain).map_err(malformed)?;
    let links = reading::model(&case.model).map_err(malformed)?;
    let machine = Machine {
        name_length: case.name.len(),
        chain: &chain,
        links: &links,
    };
    let fit = chain_fits(&chain) && joints_fit(joints);
    let rust = ported::kinematics(&machine);
    let carrier = String::from_utf8_lossy(&case.carrier);
    let frame = match frame_of(&rust, &turned(joints, fit), &carrier) {
        Err(words) if asked_carrier(&words, &machine) && !finite(joints) => {
            return refused(NOT_FINITE);
        }
        Err(words) => return Err(refusal(&words, &machine)),
        Ok(frame) => frame,
    };
    if !finite(joints) {
        return refused(NOT_FINITE);
    }
    if !fit {
        return refused(TOO_LARGE);
    }
    Ok(frame)
}

pub fn finite(numbers: &[f64]) -> bool {
    numbers.iter().all(|x| x.is_finite())
}

pub fn exceeds(x: f64, most: f64) -> bool {
    x.abs() > most
}

/// The pivots and the rest angles.
pub fn chain_fits(chain: &Chain) -> bool {
    chain.present().all(|rotary| {
        let far = rotary.pivot.iter().any(|&x| exceeds(x, MOST_PIVOT));
        !far && !exceeds(rotary.rest, MOST_REST)
    })
}

/// The angle that the chain may not use too.
pub(crate) fn joints_fit(joints: &[f64]) -> bool {
    let (position, angles) = joints.split_at(3);
    let far = position.iter().any(|&x| exceeds(x, MOST_POSITION));
    !far && !angles.iter().any(|&x| exceeds(x, MOST_ANGLE))
}

/// The joints as the Rust gets them. Where some size is above its limit only the Rust's refusals are asked for, and an angle past
/// those of the sine would bring one that is not the chain's: each finite number is 0.
fn turned(joints: &[f64], fit: bool) -> Vec<f64> {
    let still = |&x: &f64| if fit || !x.is_finite() { x } else { 0.0 };
    joints.iter().map(still).collect()
}

/// Whom a refusal of the Rust names.
#[derive(Clone, Copy, Debug, PartialEq)]
enum Whose {
    NoOne,
    Rotary,
    Link,
    AskedCarrier,
}

/// What the Rust refuses, as a number with its index. Limits that it refuses though they are good stand for a rest angle.
pub fn refusal(words: &str, machine: &Machine) -> Refusal {
    let (number, whose) = cause(words, machine.name_length);
    let at = match whose {
        Whose::NoOne | Whose::AskedCarrier => 0,
        Whose::Rotary => rotary_at_fault(machine.chain),
        Whose::Link => link_at_fault(machine),
    };
    let number = match (number, machine.chain.rotaries.get(at as usize)) {
        (LIMITS, Some(rotary)) if rotary.limits_served() => NOT_FINITE_IN_CHAIN,
        _ => number,
    };
    Refusal { number, at }
}

fn asked_carrier(words: &str, machine: &Machine) -> bool {
    cause(words, machine.name_length).1 == Whose::AskedCarrier
}

/// The first, where the Rust refuses it alone under a sound spindle.
fn rotary_at_fault(chain: &Chain) -> u64 {
    let alone = Chain {
        count: 1,
        spindle: [0.0, 0.0, 1.0],
        ..*chain
    };
    u64::from(ported::check(&ported::kinematics(&bare(&alone))).is_ok())
}

/// The last of the fewest links that the Rust refuses.
fn link_at_fault(machine: &Machine) -> u64 {
    let served = |links: &[Link]| {
        let part = Machine { links, ..*machine };
        ported::check(&ported::kinematics(&part)).is_ok()
    };
    let counts: Vec<usize> = (1..=machine.links.len()).collect();
    counts.partition_point(|&count| served(&machine.links[..count])) as u64
}

/// The number of a refusal in the Rust's words, and whom it names.
fn cause(words: &str, name_length: usize) -> (u32, Whose) {
    let of_chain = format!("kinematics `{}`: ", chain_name(name_length));
    match words.strip_prefix(&of_chain) {
        Some(words) => cause_in_chain(words),
        None => cause_elsewhere(words),
    }
}

fn cause_elsewhere(words: &str) -> (u32, Whose) {
    match words {
        "kinematics name is empty" => (1, Whose::NoOne),
        "kinematics name is longer than 256 bytes" => (2, Whose::NoOne),
        "rotary limit minimum must be finite"
        | "rotary limit maximum must be finite"
        | "rotary limit minimum is not less than maximum" => (LIMITS, Whose::Rotary),
        "tool length must be finite and non-negative" => (14, Whose::NoOne),
        "tool axis is zero" => (15, Whose::NoOne),
        "tool tip must be finite"
        | "joint position must be finite"
        | "joint angle must be finite" => (NOT_FINITE, Whose::NoOne),
        _ if words.ends_with(NOT_REACHABLE) => (21, Whose::NoOne),
        _ if words.ends_with(OUTSIDE_LIMITS) => (22, Whose::NoOne),
        _ => panic!("the Rust refuses with '{words}'"),
    }
}

fn cause_in_chain(words: &str) -> (u32, Whose) {
    if let Some(words) = words.strip_prefix("link `") {
        let (_, words) = words.split_once("` ").expect("a link's name");
        return cause_in_link(words);
    }
    if words.starts_with("carrier ") {
        return (12, Whose::AskedCarrier);
    }
    match words {
        "needs one or two rotary joints" => (3, Whose::NoOne),
        "rotary letter must be A, B or C" => (4, Whose::Rotary),
        "spindle axis must be finite" => (6, Whose::NoOne),
        "spindle axis is zero" => (9, Whose::NoOne),
        "more than 64 links" => (10, Whose::NoOne),
        "link name is empty" => (1, Whose::NoOne),
        "link name is longer than 256 bytes" => (2, Whose::NoOne),
        _ => cause_in_rotary(words),
    }
}

/// `rotary A listed twice`, and so on for each letter.
fn cause_in_rotary(words: &str) -> (u32, Whose) {
    let number = match words
        .strip_prefix("rotary ")
        .and_then(|words| words.get(1..))
    {
        Some(" listed twice") => 5,
        Some(" axis must be finite" | " pivot must be finite") => 6,
        Some(" axis is zero") => 7,
        _ => panic!("the Rust refuses with '{words}'"),
    };
    (number, Whose::Rotary)
}

/// The words behind a link's name.
fn cause_in_link(words: &str) -> (u32, Whose) {
    let number = match words {
        "is listed twice" => 11,
        "coordinate must be finite"
        | "box size must be positive"
        | "cylinder radius must be finite"
        | "cylinder radius must be positive"
        | "cylinder length must be finite"
        | "cylinder length must be positive"
        | "cylinder axis is zero" => 13,
        _ if words.starts_with("carrier ") => 12,
        _ => panic!("the Rust refuses with a link that '{words}'"),
    };
    (number, Whose::Link)
}

#[cfg(test)]
mod tests {
    use super::*;
    use crate::models::{self, CYLINDER};
    use crate::random::Random;
    use std::collections::BTreeSet;

    /// A table A about x, with a model of no links.
    fn sound() -> (Case, Chain) {
        let mut chain = Chain {
            count: 1,
            spindle: [0.0, 0.0, 1.0],
            ..Chain::default()
        };
        chain.rotaries[0].letter = b'A';
        chain.rotaries[0].axis = [1.0, 0.0, 0.0];
        let case = Case {
            name: b"n".to_vec(),
            chain: chain.bytes(),
            joints: vec![0.0; JOINTS],
            carrier: b"table".to_vec(),
            room: FRAME,
            ..Case::default()
        };
        (case, chain)
    }

    fn links(count: u8) -> Vec<u8> {
        let link = |i| Link {
            name: vec![i],
            carrier: b"base".to_vec(),
            kind: CYLINDER,
            numbers: [0.0, 0.0, 0.0, 0.0, 0.0, 1.0, 1.0, 1.0],
        };
        models::bytes(&(0..count).map(link).collect::<Vec<_>>())
    }

    fn number(entry: Entry, case: &Case) -> u32 {
        expected(entry, case)
            .err()
            .map_or(0, |refusal| refusal.number)
    }

    #[test]
    fn checks_stand_in_order() {
        let frame = |change: fn(&mut Case)| {
            let (mut case, _) = sound();
            change(&mut case);
            number(Entry::LinkWorld, &case)
        };
        assert_eq!(frame(|_| ()), 0);
        assert_eq!(frame(|case| case.joints[4] = f64::NAN), 16);
        assert_eq!(frame(|case| case.carrier = b"B".to_vec()), 12);
        let far = |case: &mut Case| (case.carrier, case.joints[0]) = (b"B".to_vec(), 2e7);
        assert_eq!(frame(far), 12);
        let unused = |case: &mut Case| (case.carrier, case.joints[4]) = (b"B".to_vec(), f64::NAN);
        assert_eq!(frame(unused), 16);
        let cut = |case: &mut Case| (case.name, case.model) = (Vec::new(), vec![7]);
        assert_eq!(frame(cut), 29);
        assert_eq!(frame(|case| (case.name, case.room) = (Vec::new(), 11)), 20);
    }

    /// Of the first rotary: 4, 5, 6 and 7, 6, 8, and then the rest angle's 6; behind it the second rotary, and the spindle.
    #[test]
    fn a_rest_angle_stands_behind_its_limits() {
        let (case, mut chain) = sound();
        (chain.count, chain.rested) = (2, true);
        chain.rotaries[1] = chain.rotaries[0];
        chain.rotaries[1].letter = b'B';
        let told = |chain: &Chain| {
            let chain = chain.bytes();
            let case = Case {
                chain,
                ..case.clone()
            };
            let refusal = expected(Entry::CheckChain, &case).err();
            refusal.map_or((0, 0), |refusal| (refusal.number, refusal.at))
        };
        assert_eq!(told(&chain), (0, 0));
        chain.rotaries[0].rest = 36_000f64.next_up();
        assert_eq!(told(&chain), (17, 0));
        chain.spindle = [0.0; 3];
        assert_eq!(told(&chain), (9, 0));
        chain.rotaries[1].rest = f64::INFINITY;
        assert_eq!(told(&chain), (6, 1));
        chain.rotaries[1].letter = b'A';
        assert_eq!(told(&chain), (5, 1));
        chain.rotaries[0].rest = f64::NAN;
        assert_eq!(told(&chain), (6, 0));
        (chain.rotaries[0].limited, chain.rotaries[0].limits) = (1, [1.0, 1.0]);
        assert_eq!(told(&chain), (8, 0));
    }

    #[test]
    fn a_model_is_read_whole_before_it_is_checked() {
        let (mut case, mut chain) = sound();
        case.model = links(64);
        assert_eq!(number(Entry::CheckModel, &case), 0);
        case.model = links(65);
        assert_eq!(number(Entry::CheckModel, &case), 10);
        chain.count = 3;
        case.chain = chain.bytes();
        assert_eq!(number(Entry::CheckModel, &case), 3);
        case.model.push(0);
        let refusal = expected(Entry::CheckModel, &case).expect_err("a byte too many");
        assert_eq!(
            (refusal.number, refusal.at),
            (29, case.model.len() as u64 - 1)
        );
    }

    #[test]
    fn every_refusal_of_a_chain_is_drawn() {
        let rotaries = [4, 6, 7, 8].map(|number| [(number, 0), (number, 1)]);
        let alone = [(3, 0), (5, 1), (9, 0), (17, 0)];
        let fields = (0..8)
            .chain(9..16)
            .chain([64, 72])
            .chain(81..88)
            .chain([136, 144])
            .chain(89..96)
            .chain([144, 152]);
        let mut all: BTreeSet<(u32, u64)> = fields.map(|at| (29, at)).collect();
        all.extend(rotaries.iter().flatten().chain(&alone));
        let mut random = Random::new(1);
        let cases = (0..100_000).map(|_| Case::of_chain(&mut random));
        let refusals = cases.filter_map(|case| expected(Entry::CheckChain, &case).err());
        let met: BTreeSet<(u32, u64)> = refusals.map(|r| (r.number, r.at)).collect();
        assert_eq!(met, all);
    }
}
