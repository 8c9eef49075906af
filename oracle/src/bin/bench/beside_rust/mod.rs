//! What needs the Rust that is compared: forward, inverse, paths, division and links that meet beside it, and the memory of both.

mod cells;
mod exports;
mod finishing;
mod forwards;
mod heap;
mod inverses;
mod meetings;
mod memory;
mod paths;
mod program;
mod quotations;
mod quotas;
mod stack;
mod stricts;
mod teeth;

use crate::rows::{GROWN, Row, Section};
use crate::show;
use finishing::{Case, TABLES};

#[global_allocator]
static HEAP: heap::Counting = heap::Counting;

/// All but the growth is shown.
pub fn timed() -> (Vec<Section>, Vec<Row>) {
    let mut sections = vec![
        forwards::section(),
        forwards::rested(),
        inverses::section(),
        teeth::section(),
    ];
    sections.extend(paths::sections());
    sections.push(stricts::section());
    sections.push(quotations::section());
    sections.push(quotas::section());
    sections.push(cells::section());
    sections.push(meetings::section());
    for section in &sections {
        show(&section.table());
    }
    let cases = GROWN.map(|count| Case::new(TABLES, count));
    let grown = [
        forwards::grown(),
        inverses::grown(),
        paths::grown(&cases),
        meetings::grown(),
    ];
    show(&memory::of_paths(&cases));
    show(&memory::of_exports());
    show(&memory::of_program(&cases[1]));
    (sections, grown.concat())
}
