//! A call of choose_tooth, drawn at random, and what it must answer: document 02's order of checks, the Rust's `choose`, and then
//! the Rust's own steps for a pair of angles, with the turns of the teeth.

use crate::calls::{GUARD, Guarded, LENT, LENT_AT, LENT_LETTER};
use crate::floats::subnormal;
use crate::inverse_calls::{LENT_COUNT, Told};
use crate::inverse_cases::{Case, Entry, HINT};
use crate::inverse_reference::{Answer, expected as chosen};
use crate::maztubel::{self, Asked};
use crate::numbers::not_finite;
use crate::original::on_teeth;
use crate::random::Random;
use crate::reading;
use crate::reference::{bare, refused};
use crate::rust::ported;
use crate::teeth::snapped;
use std::fmt;

pub const TOLERANCE: u32 = 19;
pub const TOOTH_MISSES: u32 = 31;

/// What choose is given, and the tolerance.
#[derive(Clone, Debug)]
pub struct Toothed {
    pub call: Case,
    pub tolerance: f64,
}

/// A solution that choose gives, and what it is on its teeth.
pub struct Placed {
    pub solution: [f64; 5],
    pub joints: [f64; 5],
    /// How far the axis that is reached is from the wanted one, in degrees.
    pub gap: f64,
    pub inside: bool,
}

/// None where choose refuses.
pub fn placed(call: &Case) -> Option<Placed> {
    let solution = *chosen(Entry::Choose, call).ok()?.first()?;
    let chain = reading::chain(&call.chain).ok()?;
    let rust = ported::kinematics(&bare(&chain));
    let angles = [solution[3], solution[4]].map(snapped);
    let steps = on_teeth(|| ported::placed(&rust, &call.pose, call.tool_length, angles));
    let (joints, gap, inside) = steps.expect("angles that are finite");
    Some(Placed {
        solution,
        joints,
        gap,
        inside,
    })
}

impl Placed {
    pub fn holds(&self, tolerance: f64) -> bool {
        self.gap <= tolerance
    }
}

pub fn good(tolerance: f64) -> bool {
    tolerance.is_finite() && tolerance > 0.0
}

/// Beside what the solution is on its teeth, where the call comes to it.
pub fn expected(toothed: &Toothed) -> (Answer, Option<Placed>) {
    if !good(toothed.tolerance) {
        return (refused(TOLERANCE), None);
    }
    if let Err(refusal) = chosen(Entry::Choose, &toothed.call) {
        return (Err(refusal), None);
    }
    let placed = placed(&toothed.call).expect("a solution");
    let answer = match placed.inside && placed.holds(toothed.tolerance) {
        true => Ok(vec![placed.joints]),
        false => refused(TOOTH_MISSES),
    };
    (answer, Some(placed))
}

/// Calls the export. Each input stands between guards too, and all must stand as it did afterwards.
pub fn ask(toothed: &Toothed) -> Told {
    let case = &toothed.call;
    let (mut at, mut letter) = ([LENT_AT; 3], [LENT_LETTER; 3]);
    let room = case.room(Entry::Choose);
    let mut numbers = vec![f64::from_bits(LENT); GUARD + room + GUARD];
    let lent = &mut numbers[GUARD..GUARD + room];
    let chain = Guarded::bytes(&case.chain);
    let [pose, hint] = [&case.pose, &case.hint].map(|numbers| Guarded::numbers(numbers));
    let asked = Asked {
        chain: chain.inner(),
        pose: pose.inner(),
        tool_length: case.tool_length,
        hint: hint.inner(),
    };
    let number = maztubel::choose_tooth(
        asked,
        case.choice,
        toothed.tolerance,
        lent,
        &mut at[1],
        &mut letter[1],
    );
    let kept = chain.kept() && pose.kept() && hint.kept();
    assert!(kept, "an input was written to: {toothed}");
    Told {
        number,
        at,
        letter,
        count: [LENT_COUNT; 3],
        numbers: numbers.iter().map(|x| x.to_bits()).collect(),
    }
}

impl Toothed {
    /// As for choose; often with hints between two teeth, so that free angles are halves, with limits between an angle and its
    /// tooth, and with a tolerance at the angle that is reached or beside it.
    pub fn new(random: &mut Random) -> Self {
        let mut call = Case::new(random);
        if random.below(3) == 0 && call.hint.len() == HINT {
            call.hint.fill_with(|| between_teeth(random));
        }
        if random.below(5) == 0 {
            meet_teeth(&mut call, random);
        }
        let tolerance = tolerance(&call, random);
        Toothed { call, tolerance }
    }
}

/// A quarter of a degree, a tooth, or a little beside one.
fn between_teeth(random: &mut Random) -> f64 {
    let quarters = random.below(288_001) as f64 - 144_000.0;
    let near = random.below(17) as f64 - 8.0;
    match random.below(6) {
        0 => near / 4.0,
        1 => (near / 4.0).next_up(),
        2 => (near / 4.0).next_down(),
        3 => random.one_of(&[-0.2, -0.0, 0.0, -1e-300, 36_000.0, -36_000.0]),
        _ => quarters / 4.0,
    }
}

/// Gives a rotary a limit between its angle and its tooth, or on one of them, so that the angle stays within.
fn meet_teeth(call: &mut Case, random: &mut Random) {
    let (Ok(mut chain), Some(placed)) = (reading::chain(&call.chain), placed(call)) else {
        return;
    };
    let slot = random.below(u64::from(chain.count)) as usize;
    let (angle, tooth) = (placed.solution[3 + slot], placed.joints[3 + slot]);
    if angle == tooth {
        return;
    }
    let beside = match angle < tooth {
        true => tooth.next_down(),
        false => tooth.next_up(),
    };
    let limit = random.one_of(&[tooth, beside, (angle + tooth) / 2.0, angle]);
    let wide = random.one_of(&[1.0, 360.0, 720.0, 2000.0]);
    let rotary = &mut chain.rotaries[slot];
    rotary.limited = 1;
    rotary.limits = match angle < tooth {
        true => [limit - wide, limit],
        false => [limit, limit + wide],
    };
    call.chain = chain.bytes();
}

fn tolerance(call: &Case, random: &mut Random) -> f64 {
    let reached = placed(call).map_or(0.25, |placed| placed.gap);
    let reached = reached.max(f64::from_bits(2));
    match random.below(16) {
        0 => random.one_of(&[0.0, -0.0, -1.0, -f64::from_bits(1), f64::MIN]),
        1 => not_finite(random),
        2..=4 => reached,
        5..=7 => reached.next_down(),
        8 => reached.next_up(),
        9 => subnormal(random).abs().max(f64::from_bits(1)),
        10 => random.one_of(&[f64::MAX, 180.0, 1e-300]),
        11 | 12 => random.below(1 << 20) as f64 / (1 << 21) as f64 + 1e-9,
        _ => 1.0,
    }
}

impl fmt::Display for Toothed {
    fn fmt(&self, f: &mut fmt::Formatter<'_>) -> fmt::Result {
        let bits = self.tolerance.to_bits();
        write!(f, "{} tolerance {bits:016X}", self.call)
    }
}
