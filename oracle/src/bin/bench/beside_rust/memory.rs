//! What the calls on a path take at their peak: of the heap, of the stack and of what they are lent, the port's and the untouched
//! Rust's; then the heap and the stack of the other exports, and what the program takes. The heap is Rust's: of the system the archives
//! could call for memory, `nm -u` shows that they call memcpy and memset alone.

use super::exports::{EXPORTS, Given};
use super::finishing::{BOTH, Case, Entry, SOLVE, SUBDIVIDE};
use super::{heap, program, stack};
use crate::rows::{Table, whole};
use std::hint::black_box;

pub fn of_paths(cases: &[Case]) -> Table {
    let unit = "Bytes at the peak of a call, beyond what it reads; the port is lent its outputs, the Rust's are on its heap:";
    let head = [
        "",
        "poses, inserted",
        "port: heap",
        "lent outputs",
        "stack",
        "Rust: heap",
        "stack",
    ];
    let mut table = Table::new("Memory", unit, &head);
    for entry in [SOLVE, SUBDIVIDE, BOTH] {
        for case in cases {
            let (given, inserted) = (case.given() as u64, case.inserted as u64);
            let poses = match entry.name == SOLVE.name {
                true => whole(given),
                false => format!("{}, {}", whole(given), whole(inserted)),
            };
            let mut cells = vec![entry.name.to_owned(), poses];
            cells.extend(peaks(case, &entry).map(whole));
            table.row(cells);
        }
    }
    table
}

fn peaks(case: &Case, entry: &Entry) -> [u64; 5] {
    let mut space = case.least_space();
    let mut port = || assert_eq!((entry.port)(case, &mut space), 0, "a path was refused");
    let ports = [heap::peak(&mut port), stack::peak(&mut port)];
    let handed = case.handed();
    let mut rust = || {
        black_box((entry.rust)(&handed));
    };
    let rusts = [heap::peak(rust), stack::peak(&mut rust)];
    let lent = 8 * (entry.lent)(case) as u64;
    [ports[0], lent, ports[1], rusts[0], rusts[1]]
}

pub fn of_exports() -> Table {
    let unit = "Bytes at the peak of one call that is served:";
    let mut table = Table::new("Memory of a call", unit, &["", "heap", "stack"]);
    let mut given = Given::new();
    for (name, export) in EXPORTS {
        let mut call = || assert_eq!(export(&mut given), 0, "{name} refuses");
        let peaks = [heap::peak(&mut call), stack::peak(&mut call)];
        let cells = peaks.map(whole);
        table.row([name.to_owned()].into_iter().chain(cells).collect());
    }
    table
}

pub fn of_program(case: &Case) -> Table {
    let unit =
        "Bytes of the program's process at its peak, what the system loads with it included:";
    let mut table = Table::new("Memory of the program", unit, &["", "resident"]);
    let peak = program::peak(case).map_or_else(|| "not built".to_owned(), whole);
    table.row(vec![
        "a job of 65,536 bytes with 700 poses".to_owned(),
        peak,
    ]);
    table
}
