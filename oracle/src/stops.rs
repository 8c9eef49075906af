//! What solve_path must answer where the lock leaves a rotary's limits inside the cone. The Rust ends the path there, so the judge is
//! its own loop with one rule more (docs/landings/R-8.md): its exact solution is taken, from the same angles before, unless that is
//! refused or winds past 36,000 degrees. On every other path the Rust itself is the judge, and that loop must answer as it does.

use crate::joints::MOST_ANGLE;
use crate::original::ported::kinematics::FiveAxisSetup;
use crate::original::untouched::kinematics::FiveAxisSetup as WithLibm;
use crate::paths::JOINTS;
use crate::reference::exceeds;
use crate::rust::ported::{self, Told};
use crate::rust::untouched;

/// A pose whose lock leaves a rotary's limits, with the lock's words.
#[derive(Clone, Debug, PartialEq)]
pub struct Stop {
    pub lock: String,
    pub exact: Exact,
}

/// What the exact rule comes to there.
#[derive(Clone, Debug, PartialEq)]
pub enum Exact {
    Taken,
    PastMost,
    Refused(String),
}

type Set = [f64; JOINTS];

/// The Rust's answer, with the rule for the stops.
pub fn solve_path(
    setup: &FiveAxisSetup,
    poses: &[f64],
    start: &[f64],
    cone: f64,
) -> Told<Vec<f64>> {
    let rust = ported::solve_path(setup, poses, start, cone);
    if rust
        .as_ref()
        .is_err_and(|words| !words.starts_with("pose "))
    {
        return rust;
    }
    let (looped, stops) = with_stops(setup, poses, start, cone);
    match stops.first() {
        None => {
            assert_eq!(bits(&looped), bits(&rust), "the loop is not the Rust's");
            rust
        }
        Some(first) => {
            assert_eq!(rust, Err(first.lock.clone()), "the loop is not the Rust's");
            looped
        }
    }
}

/// The loop's answer, and the stops on its way.
pub fn with_stops(
    setup: &FiveAxisSetup,
    poses: &[f64],
    start: &[f64],
    cone: f64,
) -> (Told<Vec<f64>>, Vec<Stop>) {
    let mut stops = Vec::new();
    let joints = ported::solve_by(setup, poses, start, cone, |locked, exact| {
        rule(locked, exact, &mut stops)
    });
    (joints, stops)
}

/// The same with libm.
pub fn with_libm(
    setup: &WithLibm,
    poses: &[f64],
    start: &[f64],
    cone: f64,
) -> (Told<Vec<f64>>, Vec<Stop>) {
    let mut stops = Vec::new();
    let joints = untouched::solve_by(setup, poses, start, cone, |locked, exact| {
        rule(locked, exact, &mut stops)
    });
    (joints, stops)
}

fn rule(locked: Told<Set>, exact: &dyn Fn() -> Told<Set>, stops: &mut Vec<Stop>) -> Told<Set> {
    let lock = match &locked {
        Err(words) if words.contains(" leaves axis ") => words.clone(),
        _ => return locked,
    };
    let (chosen, exact) = match exact() {
        Ok(set) if within(&set) => (Ok(set), Exact::Taken),
        Ok(_) => (locked, Exact::PastMost),
        Err(words) => (locked, Exact::Refused(words)),
    };
    stops.push(Stop { lock, exact });
    chosen
}

fn within(set: &Set) -> bool {
    set[3..].iter().all(|&angle| !exceeds(angle, MOST_ANGLE))
}

fn bits(answer: &Told<Vec<f64>>) -> Result<Vec<u64>, &String> {
    let joints = answer.as_ref()?;
    Ok(joints.iter().map(|x| x.to_bits()).collect())
}
