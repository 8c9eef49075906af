//! Sine, cosine, arctangent and arccosine in radians, with proved bounds.

use crate::flat::{self, Told};
use crate::refusal::Refusal;

/// The sine of x radians, for x from -800 to 800.
///
/// ```
/// assert_eq!(maztubel::sine(-0.0)?.to_bits(), (-0.0f64).to_bits());
/// assert!(maztubel::sine(800.1).is_err());
/// # Ok::<(), maztubel::Refusal>(())
/// ```
pub fn sine(x: f64) -> Result<f64, Refusal> {
    answered(|answer| flat::sine(x, answer))
}

/// The cosine of x radians, for x from -800 to 800.
///
/// ```
/// assert_eq!(maztubel::cosine(0.0)?, 1.0);
/// # Ok::<(), maztubel::Refusal>(())
/// ```
pub fn cosine(x: f64) -> Result<f64, Refusal> {
    answered(|answer| flat::cosine(x, answer))
}

/// The angle of the point (x, y), from -pi to pi, with the sign of y, for finite y and x.
///
/// ```
/// assert_eq!(maztubel::arctangent(0.0, -0.0)?, std::f64::consts::PI);
/// # Ok::<(), maztubel::Refusal>(())
/// ```
pub fn arctangent(y: f64, x: f64) -> Result<f64, Refusal> {
    answered(|answer| flat::arctangent(y, x, answer))
}

/// The angle from 0 to pi whose cosine is c, for c from -1 to 1.
///
/// ```
/// assert_eq!(maztubel::arccosine(1.0)?, 0.0);
/// assert_eq!(maztubel::arccosine(1.5).unwrap_err().number(), 17);
/// # Ok::<(), maztubel::Refusal>(())
/// ```
pub fn arccosine(c: f64) -> Result<f64, Refusal> {
    answered(|answer| flat::arccosine(c, answer))
}

fn answered(ask: impl FnOnce(&mut f64) -> Told) -> Result<f64, Refusal> {
    let mut answer = 0.0;
    ask(&mut answer).served()?;
    Ok(answer)
}

/// The sine of each.
///
/// ```
/// assert_eq!(maztubel::sines(&[0.0, 0.0])?, [0.0, 0.0]);
/// # Ok::<(), maztubel::Refusal>(())
/// ```
pub fn sines(xs: &[f64]) -> Result<Vec<f64>, Refusal> {
    of_each(xs, sines_into)
}

/// The sine of each, in a slice of as many, which a refusal keeps.
///
/// ```
/// let mut answers = [9.0; 2];
/// assert_eq!(maztubel::sines_into(&[0.0, f64::NAN], &mut answers).unwrap_err().number(), 17);
/// assert_eq!(answers, [9.0; 2]);
/// ```
pub fn sines_into(xs: &[f64], answers: &mut [f64]) -> Result<(), Refusal> {
    flat::sines(xs, answers).served()
}

/// The cosine of each.
///
/// ```
/// assert_eq!(maztubel::cosines(&[0.0, -0.0])?, [1.0, 1.0]);
/// # Ok::<(), maztubel::Refusal>(())
/// ```
pub fn cosines(xs: &[f64]) -> Result<Vec<f64>, Refusal> {
    of_each(xs, cosines_into)
}

/// The cosine of each, in a slice of as many, which a refusal keeps.
///
/// ```
/// let mut answers = [9.0; 1];
/// maztubel::cosines_into(&[0.0], &mut answers)?;
/// assert_eq!(answers, [1.0]);
/// # Ok::<(), maztubel::Refusal>(())
/// ```
pub fn cosines_into(xs: &[f64], answers: &mut [f64]) -> Result<(), Refusal> {
    flat::cosines(xs, answers).served()
}

/// The angle of each point (xs\[i\], ys\[i\]).
///
/// ```
/// assert_eq!(maztubel::arctangents(&[0.0, -0.0], &[1.0, 1.0])?, [0.0, -0.0]);
/// # Ok::<(), maztubel::Refusal>(())
/// ```
pub fn arctangents(ys: &[f64], xs: &[f64]) -> Result<Vec<f64>, Refusal> {
    of_each(ys, |ys, answers| arctangents_into(ys, xs, answers))
}

/// The angle of each point, in a slice of as many, which a refusal keeps.
///
/// ```
/// let mut answers = [9.0; 1];
/// assert_eq!(maztubel::arctangents_into(&[1.0], &[], &mut answers).unwrap_err().number(), 20);
/// assert_eq!(answers, [9.0]);
/// ```
pub fn arctangents_into(ys: &[f64], xs: &[f64], answers: &mut [f64]) -> Result<(), Refusal> {
    flat::arctangents(ys, xs, answers).served()
}

/// The angle of each of the cosines.
///
/// ```
/// assert_eq!(maztubel::arccosines(&[1.0, -1.0])?, [0.0, std::f64::consts::PI]);
/// # Ok::<(), maztubel::Refusal>(())
/// ```
pub fn arccosines(cs: &[f64]) -> Result<Vec<f64>, Refusal> {
    of_each(cs, arccosines_into)
}

/// The angle of each of the cosines, in a slice of as many, which a refusal keeps.
///
/// ```
/// let mut answers = [9.0; 1];
/// maztubel::arccosines_into(&[1.0], &mut answers)?;
/// assert_eq!(answers, [0.0]);
/// # Ok::<(), maztubel::Refusal>(())
/// ```
pub fn arccosines_into(cs: &[f64], answers: &mut [f64]) -> Result<(), Refusal> {
    flat::arccosines(cs, answers).served()
}

fn of_each(
    arguments: &[f64],
    ask: impl FnOnce(&[f64], &mut [f64]) -> Result<(), Refusal>,
) -> Result<Vec<f64>, Refusal> {
    let mut answers = vec![0.0; arguments.len()];
    ask(arguments, &mut answers)?;
    Ok(answers)
}
