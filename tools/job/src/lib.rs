//! Jobs as bytes, as text (described at the top of main.rs), and as a reader sees them (docs/FORMAT.md).

mod lines;
mod numbers;
mod packer;
mod reading;
mod telling;
#[cfg(feature = "writer")]
mod writer;

pub use lines::Fault;
pub use packer::pack;
pub use reading::{Breach, Job, MOST_BYTES, POSE, TRAILER, read};
pub use telling::text_of;
#[cfg(feature = "writer")]
pub use writer::{NotWritten, write};
