//! The rotary kinematics of a five-axis postprocessor: joints for tool poses on a chain of one or two rotaries, poses
//! inserted until two tolerances hold, and jobs from and to their bytes. The work is done by the static library
//! `maztubel`, whose every function is proved against its contract; this crate gives it Rust's types.
//!
//! ```
//! use maztubel::{Carrier, Chain, Pose, Rotary, Start, Tolerances, solve_and_divide};
//!
//! let chain = Chain {
//!     rotaries: vec![Rotary {
//!         letter: b'C',
//!         carrier: Carrier::Head,
//!         axis: [0.0, 0.0, 1.0],
//!         pivot: [0.0; 3],
//!         limits: None,
//!         rest: 0.0,
//!     }],
//!     spindle: [0.0, 0.0, 1.0],
//! };
//! let poses = [1.0, 3.0].map(|x| Pose { tip: [x, 2.0, 3.0], axis: [0.0, 0.0, 1.0] });
//! let tolerances = Tolerances { chord: 0.5, axis: 0.5 };
//!
//! let path = solve_and_divide(&chain, &poses, Start::AtZero, 1.0, tolerances)?;
//! assert_eq!(path.inserted, 0);
//! assert_eq!(path.joints[1].position, [3.0, 2.0, 3.0]);
//! # Ok::<(), maztubel::Refusal>(())
//! ```
//!
//! Lengths are mm, angles degrees but for the four functions of `sine`. Nothing panics and nothing is undefined for any
//! argument: what cannot be served is refused with a [`Refusal`], whose number is that of document 01's refusal table.
//!
//! A function that answers a `Vec` has a sibling that ends in `_into` and writes to slices of the caller's. [`flat`] has
//! every entry over plain numbers and bytes, as C sees it; it is the one module with unsafe code. [`raw`] has the declarations that
//! it calls.

#![deny(unsafe_code)]
#![warn(missing_docs)]

mod cell;
mod chain;
mod extremes;
#[allow(unsafe_code, clippy::too_many_arguments)]
pub mod flat;
mod inverse;
mod job;
mod meet;
mod model;
mod path;
mod pose;
mod quote;
mod quotas;
#[allow(unsafe_code, missing_docs)]
pub mod raw;
mod refusal;
mod trig;

pub use cell::{Cell, MOST_PATHS, Standing, Turned};
pub use chain::{Carrier, Chain, Limits, Rotary, check_chain, forward};
pub use extremes::{Extremes, GROUP};
pub use inverse::{Choice, MOST_SOLUTIONS, choose, choose_tooth, inverse};
pub use job::{Job, cable_number, job_poses_into};
pub use meet::{Meeting, links_meet};
pub use model::{Frame, Link, Machine, Mount, Solid, check_model, link_in_part, link_world};
pub use path::{
    Divided, MOST_INSERTED, Start, Tolerances, given_indices, solve_and_divide,
    solve_and_divide_into, solve_path, solve_path_into, subdivide_path, subdivide_path_into,
    subdivide_strict, subdivide_strict_into,
};
pub use pose::{Joints, Pose};
pub use quote::{Quotation, quote, quote_into, quote_strict, quote_strict_into};
pub use quotas::{MOST_BALANCE, Quotas, SHOPS};
pub use refusal::{Place, Reason, Refusal};
pub use trig::{
    arccosine, arccosines, arccosines_into, arctangent, arctangents, arctangents_into, cosine,
    cosines, cosines_into, sine, sines, sines_into,
};
