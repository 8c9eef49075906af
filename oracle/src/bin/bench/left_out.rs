//! In place of what needs the Rust that is compared, where that does not stand beside the repository.

use crate::rows::{Row, Section};

pub fn timed() -> (Vec<Section>, Vec<Row>) {
    println!("What stands beside the Rust is left out: ../shared is not beside this clone.\n");
    (Vec::new(), Vec::new())
}
