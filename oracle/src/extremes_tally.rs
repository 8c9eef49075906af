//! What comes of building extremes, of replacing joint sets and of asking: how often each answer was met, and the
//! differences.

use crate::angles::{moved, signed, within};
use crate::extremes::{
    self, GROUP, SET, TEN, alike, ask_holds, build_holds, is_opened, replace_holds, summary,
    summary_length,
};
use crate::floats;
use crate::joints::{MOST_ANGLE, MOST_POSITION, joints as one_set};
use crate::met::{Account, Differences, Met};
use crate::numbers::{not_finite, refused, served};
use crate::parts::Outcome;
use crate::random::Random;
use std::process::ExitCode;

pub const ENTRIES: [&str; 3] = ["build_extremes", "replace_joints", "first_above"];

/// So many joint sets are more than any call with poses takes.
const LONG: usize = 110_000;

/// How many joint sets there are, beside any number up to 200.
const COUNTS: [usize; 12] = [0, 1, 2, 5, 62, 63, 64, 65, 127, 128, 129, 192];

/// With so many joint sets each entry must be served, but that in none nothing is replaced.
const SERVED: [usize; 9] = [0, 1, 63, 64, 65, 127, 128, 129, LONG];

/// What must be met of zeros. As extremes -0.0 stands before +0.0, and as angles they are equal.
const ZEROS: [&str; 5] = [
    "build_extremes, -0.0 the smallest beside +0.0",
    "build_extremes, +0.0 the largest beside -0.0",
    "first_above, of +0.0",
    "first_above, of -0.0",
    "first_above, of a zero, a largest the other zero",
];

#[derive(Default)]
pub struct Extremes {
    calls: [u64; 3],
    met: Met,
    differences: Differences,
}

impl Outcome for Extremes {
    fn add(&mut self, more: Extremes) {
        for (calls, more) in self.calls.iter_mut().zip(more.calls) {
            *calls += more;
        }
        self.met.add(more.met);
        self.differences.add(more.differences);
    }
}

/// Joints with a summary beside them.
struct Beside {
    joints: Vec<f64>,
    summary: Vec<f64>,
}

impl Beside {
    fn own(joints: Vec<f64>) -> Self {
        let summary = summary(&joints);
        Beside { joints, summary }
    }

    fn both(&self) -> [&[f64]; 2] {
        [&self.joints, &self.summary]
    }

    fn sets(&self) -> u64 {
        (self.joints.len() / SET) as u64
    }
}

impl Extremes {
    /// A round: each kind of case once, some of them with many calls.
    pub fn compare_drawn(&mut self, rounds: u64, random: &mut Random) {
        for _ in 0..rounds {
            self.building(random);
            self.row(random);
            self.asking_own(random);
            self.forged(random);
            self.opened_in_vain(random);
        }
    }

    /// 110,000 joint sets: built, replaced in the first, the last and any group, and asked.
    pub fn compare_long(&mut self, random: &mut Random) {
        let joints = path(LONG, random);
        let lent = vec![f64::from_bits(extremes::LENT); summary_length(LONG)];
        self.build(&joints, &lent);
        let mut beside = Beside::own(joints);
        for index in [0, LONG as u64 - 1, random.below(LONG as u64)] {
            let fresh = sound_set(random);
            self.replace(&mut beside, index, &fresh);
        }
        self.built_anew(&beside);
        for rotary in 0..2 {
            for angle in [MOST_ANGLE, -MOST_ANGLE, angle_near(&beside, random)] {
                self.ask(&beside, rotary, angle);
            }
        }
    }

    /// Damaged half of the time.
    fn building(&mut self, random: &mut Random) {
        let sets = count(random);
        let mut joints = path(sets, random);
        let mut room = summary_length(sets);
        if random.below(2) == 0 {
            for _ in 0..1 + random.below(3) {
                damage(&mut joints, random);
            }
            if random.below(8) == 0 {
                room = off(room, random);
            }
        }
        self.build(&joints, &vec![f64::from_bits(extremes::LENT); room]);
    }

    /// A row of replacements in joints and their own summary, refused ones among them, held to building anew.
    fn row(&mut self, random: &mut Random) {
        let mut beside = Beside::own(path(count(random), random));
        for _ in 0..random.below(12) {
            let fresh = match random.below(4) {
                0 => one_set(random),
                _ => sound_set(random).to_vec(),
            };
            let index = match (beside.sets(), random.below(8)) {
                (0, _) | (_, 0) => {
                    random.one_of(&[beside.sets(), beside.sets() + 1, 1 << 32, u64::MAX])
                }
                (sets, _) => random.below(sets),
            };
            self.replace(&mut beside, index, &fresh);
        }
        self.built_anew(&beside);
    }

    fn asking_own(&mut self, random: &mut Random) {
        let beside = Beside::own(path(count(random), random));
        for _ in 0..4 {
            let rotary = random.below(2);
            let angle = angle_near(&beside, random);
            self.ask(&beside, rotary, angle);
            let whole = extremes::full_reading(&beside.joints, rotary as usize, angle);
            let skipping = extremes::asked(&beside.joints, &beside.summary, rotary, angle);
            self.hold(
                skipping == Ok(whole),
                "not as a full reading",
                &beside,
                angle,
            );
            self.overwritten(&beside, rotary, angle, random);
        }
        let angle = refused(MOST_ANGLE, random);
        self.ask(&beside, random.below(2), angle);
        let rotary = random.one_of(&[2, 3, 1 << 32, u64::MAX]);
        self.ask(&beside, rotary, angle_near(&beside, random));
    }

    /// Summaries that are not the joints' own, joints that are not finite, and lengths that do not belong together.
    fn forged(&mut self, random: &mut Random) {
        let mut beside = Beside::own(path(count(random), random));
        for _ in 0..random.below(4) {
            damage(&mut beside.joints, random);
        }
        let groups = beside.summary.len() as u64;
        for _ in 0..random.below(6) * u64::from(groups > 0) {
            let place = random.below(groups) as usize;
            beside.summary[place] = match random.below(4) {
                0 => not_finite(random),
                1 => angle_near(&beside, random),
                _ => within(MOST_ANGLE, random),
            };
        }
        if random.below(8) == 0 {
            let length = off(beside.summary.len(), random);
            beside.summary.resize(length, 0.0);
        }
        for _ in 0..3 {
            let (rotary, angle) = (random.below(2), angle_near(&beside, random));
            self.ask(&beside, rotary, angle);
            self.overwritten(&beside, rotary, angle, random);
        }
        let index = random.below(beside.sets() + 1);
        let fresh = sound_set(random);
        self.replace(&mut beside, index, &fresh);
    }

    /// The first group's largest is forged, and what is asked is the largest itself: the search goes on behind the
    /// group.
    fn opened_in_vain(&mut self, random: &mut Random) {
        let sets = GROUP + 1 + random.below(130) as usize;
        let mut beside = Beside::own(path(sets, random));
        let rotary = random.below(2);
        let largest = &mut beside.summary[SET + 3 + rotary as usize];
        let angle = *largest;
        *largest = random.one_of(&[MOST_ANGLE, f64::INFINITY, 1e300]);
        self.ask(&beside, rotary, angle);
        self.overwritten(&beside, rotary, angle, random);
    }

    /// The joints of each group that is skipped become a nan or any number: the answer stays.
    fn overwritten(&mut self, beside: &Beside, rotary: u64, angle: f64, random: &mut Random) {
        let answer = extremes::asked(&beside.joints, &beside.summary, rotary, angle);
        if answer.is_err() {
            return;
        }
        let mut joints = beside.joints.clone();
        let mut skipped = false;
        for (group, sets) in joints.chunks_mut(GROUP * SET).enumerate() {
            if !is_opened(&beside.summary, group, rotary as usize, angle) {
                skipped = true;
                let word = random.one_of(&[f64::NAN, f64::INFINITY, 1e300]);
                sets.fill(word);
            }
        }
        let held = ask_holds([&joints, &beside.summary], rotary, angle, &answer);
        self.calls[2] += 1;
        self.met
            .count_if("first_above, a skipped group overwritten", skipped);
        self.hold(held, "a skipped group changed the answer", beside, angle);
    }

    fn build(&mut self, joints: &[f64], lent: &[f64]) {
        let expected = extremes::built(joints, lent);
        self.calls[0] += 1;
        self.met
            .count(number("build_extremes", expected.as_ref().err()));
        if let Ok(summary) = &expected {
            self.count_served("build_extremes", joints);
            let [smallest, largest] = zero_extremes(joints, summary);
            self.met.count_if(ZEROS[0], smallest);
            self.met.count_if(ZEROS[1], largest);
        }
        let held = build_holds(joints, lent, &expected);
        self.differ(!held, || {
            format!(
                "build_extremes of {}: expected {expected:?}",
                spelled(joints)
            )
        });
    }

    fn replace(&mut self, beside: &mut Beside, index: u64, fresh: &[f64]) {
        let expected = extremes::replaced(&beside.joints, &beside.summary, index, fresh);
        self.calls[1] += 1;
        self.met
            .count(number("replace_joints", expected.as_ref().err()));
        let held = replace_holds(beside.both(), index, fresh, &expected);
        self.differ(!held, || {
            let Beside { joints, summary } = &*beside;
            format!(
                "replace_joints {index} by {} in {} beside {}: expected {expected:?}",
                spelled(fresh),
                spelled(joints),
                spelled(summary)
            )
        });
        if let Ok([joints, summary]) = expected {
            self.count_served("replace_joints", &joints);
            self.met.count_if(
                "replace_joints, an extreme taken away",
                shrank(beside, &summary),
            );
            *beside = Beside { joints, summary };
        }
    }

    /// By the definition and by the export.
    fn built_anew(&mut self, beside: &Beside) {
        let afresh = summary(&beside.joints);
        let same = alike(&afresh, &beside.summary);
        self.hold(same, "a row is not as worked out afresh", beside, 0.0);
        let lent = vec![f64::from_bits(extremes::LENT); beside.summary.len()];
        self.build(&beside.joints, &lent);
    }

    fn ask(&mut self, beside: &Beside, rotary: u64, angle: f64) {
        let expected = extremes::asked(&beside.joints, &beside.summary, rotary, angle);
        self.calls[2] += 1;
        self.met.count(match &expected {
            Ok(found) => found_words(beside, *found, rotary as usize, angle),
            Err(refusal) => number("first_above", Some(refusal)),
        });
        if expected.is_ok() {
            self.count_served("first_above", &beside.joints);
            self.count_zero(beside, rotary as usize, angle);
        }
        let held = ask_holds(beside.both(), rotary, angle, &expected);
        self.hold(
            held,
            &format!("first_above of rotary {rotary}: expected {expected:?}"),
            beside,
            angle,
        );
    }

    fn count_served(&mut self, entry: &str, joints: &[f64]) {
        let sets = joints.len() / SET;
        if SERVED.contains(&sets) {
            self.met.count(with_sets(entry, sets));
        }
    }

    /// An angle of zero, and whether the largest of a group is the zero of the other sign.
    fn count_zero(&mut self, beside: &Beside, rotary: usize, angle: f64) {
        if angle != 0.0 {
            return;
        }
        let negative = angle.is_sign_negative();
        self.met.count(ZEROS[2 + usize::from(negative)]);
        let mut largest = beside.summary.chunks(TEN).map(|ten| ten[SET + 3 + rotary]);
        let other = largest.any(|x| x == 0.0 && x.is_sign_negative() != negative);
        self.met.count_if(ZEROS[4], other);
    }

    fn hold(&mut self, held: bool, words: &str, beside: &Beside, angle: f64) {
        let Beside { joints, summary } = beside;
        self.differ(!held, || {
            format!(
                "{words}: angle {:016X}, {} beside {}",
                angle.to_bits(),
                spelled(joints),
                spelled(summary)
            )
        });
    }

    fn differ(&mut self, is: bool, words: impl FnOnce() -> String) {
        if is {
            self.differences.note(words);
        }
    }

    /// Status 1 where there is a difference, or something was met less often than `fewest` times.
    pub fn print(&self, fewest: u64) -> ExitCode {
        for (entry, calls) in self.calls() {
            println!("{entry:48} {calls:12}");
        }
        let rare = self.met.print(ways().into_iter().map(|way| {
            let long = way.ends_with(&format!(" {LONG} joint sets"));
            let fewest = if long { 1 } else { fewest };
            (way, fewest)
        }));
        let differs = self.differences.print("extremes");
        ExitCode::from(u8::from(rare || differs))
    }
}

impl Account for Extremes {
    fn calls(&self) -> Vec<(&'static str, u64)> {
        ENTRIES.into_iter().zip(self.calls).collect()
    }

    fn noted(&self) -> Vec<&Differences> {
        vec![&self.differences]
    }

    fn unmet(&self) -> Vec<String> {
        self.met.unmet(ways())
    }
}

/// All that can be met.
fn ways() -> Vec<String> {
    let numbers = ENTRIES.iter().flat_map(|entry| {
        let refusals = [16, 17, 20].map(|refusal| number(entry, Some(&refusal)));
        let served = (*entry != "first_above").then(|| number(entry, None));
        served.into_iter().chain(refusals)
    });
    let words = [
        "first_above, of an empty path",
        "first_above, in the first group",
        "first_above, behind skipped groups alone",
        "first_above, behind a group that was opened in vain",
        "first_above, none, every group skipped",
        "first_above, none, a group opened in vain",
        "first_above, none, at the largest itself",
        "first_above, a skipped group overwritten",
        "replace_joints, an extreme taken away",
    ];
    let lengths = ENTRIES.iter().flat_map(|entry| {
        let none = usize::from(*entry == "replace_joints");
        SERVED[none..].iter().map(|sets| with_sets(entry, *sets))
    });
    let words = words.into_iter().chain(ZEROS).map(String::from);
    numbers.chain(words).chain(lengths).collect()
}

fn with_sets(entry: &str, sets: usize) -> String {
    format!("{entry}, served, {sets} joint sets")
}

/// Whether -0.0 is the smallest of a number of which a group has +0.0 too; and whether +0.0 is the largest beside -0.0.
fn zero_extremes(joints: &[f64], summary: &[f64]) -> [bool; 2] {
    let groups = || joints.chunks(GROUP * SET).zip(summary.chunks(TEN));
    let is = |x: f64, zero: f64| x.to_bits() == zero.to_bits();
    let has = |group: &[f64], slot: usize, zero: f64| {
        let mut numbers = group.iter().skip(slot).step_by(SET);
        numbers.any(|x| is(*x, zero))
    };
    let smallest = |(group, ten): (&[f64], &[f64])| {
        (0..SET).any(|slot| is(ten[slot], -0.0) && has(group, slot, 0.0))
    };
    let largest = |(group, ten): (&[f64], &[f64])| {
        (0..SET).any(|slot| is(ten[SET + slot], 0.0) && has(group, slot, -0.0))
    };
    [groups().any(smallest), groups().any(largest)]
}

fn number(entry: &str, refusal: Option<&u32>) -> String {
    match refusal {
        None => format!("{entry}, served"),
        Some(refusal) => format!("{entry}, {refusal}"),
    }
}

fn found_words(beside: &Beside, found: Option<usize>, rotary: usize, angle: f64) -> String {
    let groups = beside.summary.len() / TEN;
    let opened = |group: &usize| is_opened(&beside.summary, *group, rotary, angle);
    let ties = (0..groups).any(|group| beside.summary[TEN * group + SET + 3 + rotary] == angle);
    let words = match found {
        _ if groups == 0 => "of an empty path",
        Some(index) if index < GROUP => "in the first group",
        Some(index) if (0..index / GROUP).any(|group| opened(&group)) => {
            "behind a group that was opened in vain"
        }
        Some(_) => "behind skipped groups alone",
        None if (0..groups).any(|group| opened(&group)) => "none, a group opened in vain",
        None if ties => "none, at the largest itself",
        None => "none, every group skipped",
    };
    format!("first_above, {words}")
}

/// Whether a smallest number grew or a largest one shrank.
fn shrank(before: &Beside, after: &[f64]) -> bool {
    let pairs = before.summary.iter().zip(after).enumerate();
    let mut pairs = pairs.map(|(place, (old, new))| (place % TEN < SET, old, new));
    pairs.any(|(smallest, old, new)| if smallest { new > old } else { new < old })
}

fn count(random: &mut Random) -> usize {
    match random.below(4) {
        0 => random.below(200) as usize,
        _ => random.one_of(&COUNTS),
    }
}

/// A length that is not the right one.
fn off(length: usize, random: &mut Random) -> usize {
    match random.below(4) {
        0 => length + 1,
        1 => length + TEN,
        2 => length.saturating_sub(1),
        _ => length.saturating_sub(TEN),
    }
}

/// So many joint sets that are served. Half of the paths have few different numbers, so that extremes are met more than
/// once.
fn path(sets: usize, random: &mut Random) -> Vec<f64> {
    if random.below(2) == 0 {
        return (0..sets).flat_map(|_| sound_set(random)).collect();
    }
    let few: Vec<[f64; SET]> = (0..4).map(|_| sound_set(random)).collect();
    let zeros = [0.0, -0.0];
    let mut numbers = Vec::with_capacity(SET * sets);
    for _ in 0..sets {
        let mut set = random.one_of(&few);
        for slot in 0..SET {
            match random.below(8) {
                0..=2 => set[slot] = random.one_of(&zeros),
                3 => set[slot] = random.one_of(&few)[slot],
                _ => {}
            }
        }
        numbers.extend(set);
    }
    numbers
}

fn sound_set(random: &mut Random) -> [f64; SET] {
    [0, 1, 2, 3, 4].map(|slot| match slot {
        0..=2 => served(MOST_POSITION, 1000.0, random),
        _ => served(MOST_ANGLE, 180.0, random),
    })
}

/// One that is served, often an angle of the path or of its summary, or a place beside it.
fn angle_near(beside: &Beside, random: &mut Random) -> f64 {
    let some = |numbers: &[f64], random: &mut Random| match numbers.len() as u64 {
        0 => 0.0,
        length => numbers[random.below(length) as usize],
    };
    let angle = match random.below(8) {
        0 => random.one_of(&[0.0, -0.0]),
        1 => served(MOST_ANGLE, 180.0, random),
        2 => signed(MOST_ANGLE, random),
        3 => moved(some(&beside.joints, random), 1, random),
        4 => some(&beside.joints, random),
        5 => moved(some(&beside.summary, random), 1, random),
        _ => some(&beside.summary, random),
    };
    match angle.is_finite() {
        true => angle.clamp(-MOST_ANGLE, MOST_ANGLE),
        false => 0.0,
    }
}

fn damage(joints: &mut Vec<f64>, random: &mut Random) {
    let length = joints.len() as u64;
    if length == 0 || random.below(32) == 0 {
        let length = length.saturating_sub(4) + random.below(9);
        return joints.resize(length as usize, 0.0);
    }
    let place = random.below(length) as usize;
    let most = if place % SET < 3 {
        MOST_POSITION
    } else {
        MOST_ANGLE
    };
    joints[place] = match random.below(4) {
        0 => not_finite(random),
        1 => signed(most.next_up(), random),
        2 => floats::any(random),
        _ => refused(most, random),
    };
}

fn spelled(numbers: &[f64]) -> String {
    let words: Vec<String> = numbers
        .iter()
        .map(|x| format!("{:016X}", x.to_bits()))
        .collect();
    format!("[{}]", words.join(" "))
}

#[cfg(test)]
mod tests {
    use super::*;

    /// A wrong answer of each kind is noticed.
    #[test]
    fn every_wrong_answer_is_noticed() {
        let joints = vec![1.0, 2.0, 3.0, 4.0, 5.0];
        let beside = Beside::own(joints.clone());
        let right = beside.summary.clone();
        assert!(build_holds(&joints, &[0.0; TEN], &Ok(right.clone())));
        let mut wrong = right.clone();
        wrong[9] = 5.5;
        assert!(!build_holds(&joints, &[0.0; TEN], &Ok(wrong)));
        assert!(!build_holds(&joints, &[0.0; TEN], &Err(17)));
        let fresh = [1.0, 2.0, 3.0, 4.5, 5.0];
        let kept = Ok([fresh.to_vec(), right]);
        assert!(!replace_holds(beside.both(), 0, &fresh, &kept));
        assert!(!ask_holds(beside.both(), 0, 4.0, &Ok(Some(0))));
        assert!(!ask_holds(beside.both(), 0, 3.0, &Ok(None)));
        assert!(!ask_holds(beside.both(), 0, 3.0, &Err(20)));
    }

    /// A zero stands beside the other one only in a group that has both.
    #[test]
    fn zeros_beside_each_other() {
        let met = |x: f64, y: f64| {
            let joints = [x, 1.0, 1.0, 1.0, 1.0, y, 1.0, 1.0, 1.0, 1.0];
            zero_extremes(&joints, &summary(&joints))
        };
        assert_eq!(met(0.0, -0.0), [true, true]);
        assert_eq!(met(0.0, 0.0), [false, false]);
        assert_eq!(met(-0.0, 1.0), [false, false]);
    }
}
