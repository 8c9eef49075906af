//! Writes what crates/edges must write, from the standard library alone:
//!
//!     cargo run --release --bin edges > ../crates/edges/stdout
//!
//! Where std leaves an answer open, or tells nans apart, `oracle::floats` says what is expected.

use oracle::floats::{EDGES, PAIRED, maximum, minimum, total_order};
use std::cmp::Ordering;
use std::fmt;
use std::io::{self, Write};

fn main() -> io::Result<()> {
    let mut out = io::BufWriter::new(io::stdout().lock());
    for x in EDGES.map(f64::from_bits) {
        of_one(&mut out, x)?;
    }
    for x in PAIRED.map(f64::from_bits) {
        for y in PAIRED.map(f64::from_bits) {
            of_two(&mut out, x, y)?;
        }
    }
    out.flush()
}

fn of_one(out: &mut impl Write, x: f64) -> io::Result<()> {
    let row = Bits(x);
    writeln!(out, "finite {row} {}", x.is_finite())?;
    writeln!(out, "size {row} {}", Bits(x.abs()))?;
    writeln!(out, "round {row} {}", Bits(x.round()))?;
    writeln!(out, "clamp_unit {row} {}", Bits(x.clamp(-1.0, 1.0)))?;
    writeln!(out, "to_radians {row} {}", Bits(x.to_radians()))?;
    writeln!(out, "to_degrees {row} {}", Bits(x.to_degrees()))?;
    writeln!(out, "root {row} {}", Bits(x.sqrt()))
}

fn of_two(out: &mut impl Write, x: f64, y: f64) -> io::Result<()> {
    let row = format!("{} {}", Bits(x), Bits(y));
    let order = total_order(x, y);
    writeln!(out, "minimum {row} {}", Bits(minimum(x, y)))?;
    writeln!(out, "maximum {row} {}", Bits(maximum(x, y)))?;
    writeln!(out, "precedes {row} {}", order == Ordering::Less)?;
    writeln!(out, "total_cmp {row} {}", word(order))
}

fn word(order: Ordering) -> &'static str {
    match order {
        Ordering::Less => "less",
        Ordering::Equal => "equal",
        Ordering::Greater => "greater",
    }
}

/// A double as crates/edges writes it.
struct Bits(f64);

impl fmt::Display for Bits {
    fn fmt(&self, f: &mut fmt::Formatter<'_>) -> fmt::Result {
        if self.0.is_nan() {
            f.write_str("nan")
        } else {
            write!(f, "{:016X}", self.0.to_bits())
        }
    }
}
