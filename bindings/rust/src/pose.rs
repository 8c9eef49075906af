//! Poses and joint sets, laid out as the library's records.

/// A tool pose: its tip in the part frame, and its axis from the tip toward the spindle, which need not be a unit vector.
///
/// ```
/// let pose = maztubel::Pose { tip: [1.0, 2.0, 3.0], axis: [0.0, 0.0, 1.0] };
/// assert_eq!(size_of_val(&pose), 48);
/// ```
#[repr(C)]
#[derive(Clone, Copy, Debug, Default, PartialEq)]
pub struct Pose {
    /// Each number at most 100,000 in size.
    pub tip: [f64; 3],
    /// Not zero.
    pub axis: [f64; 3],
}

/// A joint set: the position of the gauge point, and an angle in degrees for each of two rotaries, the second +0.0 where the
/// chain has one alone.
///
/// ```
/// let joints = maztubel::Joints { position: [0.0; 3], angles: [90.0, 0.0] };
/// assert_eq!(size_of_val(&joints), 40);
/// ```
#[repr(C)]
#[derive(Clone, Copy, Debug, Default, PartialEq)]
pub struct Joints {
    /// Each number at most 10,000,000 in size.
    pub position: [f64; 3],
    /// Each at most 36,000 in size.
    pub angles: [f64; 2],
}
