//! The exports of the crate `probe`: what was proved of `float`, `root` and the two pairs of sine and cosine of `trig`, under
//! Rust's names.

use std::cmp::Ordering;

// Each is total (its contract has no `requires`) and changes nothing but what it is lent, so a call is safe. `probe_roots` alone takes slices, which C
// passes as a pointer and a length.
unsafe extern "C" {
    #[link_name = "probe_finite"]
    pub safe fn finite(x: f64) -> bool;
    #[link_name = "probe_size"]
    pub safe fn size(x: f64) -> f64;
    #[link_name = "probe_round"]
    pub safe fn round(x: f64) -> f64;
    #[link_name = "probe_clamp_unit"]
    pub safe fn clamp_unit(x: f64) -> f64;
    #[link_name = "probe_to_radians"]
    pub safe fn to_radians(degrees: f64) -> f64;
    #[link_name = "probe_to_degrees"]
    pub safe fn to_degrees(radians: f64) -> f64;
    #[link_name = "probe_root"]
    pub safe fn root(x: f64) -> f64;
    #[link_name = "probe_order_key"]
    pub safe fn order_key(x: f64) -> u64;
    #[link_name = "probe_minimum"]
    pub safe fn minimum(x: f64, y: f64) -> f64;
    #[link_name = "probe_maximum"]
    pub safe fn maximum(x: f64, y: f64) -> f64;
    #[link_name = "probe_sine_cosine"]
    pub safe fn sine_cosine(x: f64, sine: &mut f64, cosine: &mut f64) -> u32;
    #[link_name = "probe_turn"]
    pub safe fn turn(degrees: f64, sine: &mut f64, cosine: &mut f64) -> u32;
    safe fn probe_total_cmp(x: f64, y: f64) -> u32;
    fn probe_roots(xs: *const f64, count: usize, answers: *mut f64, room: usize);
    fn probe_forwards(
        chain: *const u8,
        bytes: usize,
        joints: *const f64,
        count: usize,
        tool_length: f64,
    ) -> f64;
}

pub fn total_cmp(x: f64, y: f64) -> Ordering {
    match probe_total_cmp(x, y) {
        0 => Ordering::Less,
        1 => Ordering::Equal,
        2 => Ordering::Greater,
        other => panic!("probe_total_cmp answers {other}"),
    }
}

/// The root of each of `xs`, written to `answers` as far as both reach.
pub fn roots(xs: &[f64], answers: &mut [f64]) {
    // SAFETY: each pointer goes with its own length, and the two slices do not overlap.
    unsafe { probe_roots(xs.as_ptr(), xs.len(), answers.as_mut_ptr(), answers.len()) }
}

/// The sum of all the numbers of the poses that forward's inner form gives for each record of five `joints`, on a chain that is
/// prepared once.
pub fn forwards(chain: &[u8], joints: &[f64], tool_length: f64) -> f64 {
    // SAFETY: each pointer goes with its own length.
    unsafe {
        probe_forwards(
            chain.as_ptr(),
            chain.len(),
            joints.as_ptr(),
            joints.len(),
            tool_length,
        )
    }
}
