//! Times what was proved beside what was not, in one run: `bench`. Prints Markdown; `bench --svg FILE` also draws the times as a
//! picture. All but the floats, the four functions and the extremes needs the Rust that is compared.

#[cfg_attr(not(original), path = "left_out.rs")]
mod beside_rust;
mod extremes;
mod floats;
mod jobs;
mod picture;
mod rows;
mod svg;
mod timing;
mod waves;

use rows::{Row, Section, Table, growth};
use std::{env, fs};

fn main() {
    let arguments: Vec<String> = env::args().skip(1).collect();
    let file = match arguments.as_slice() {
        [] => None,
        [flag, file] if flag == "--svg" => Some(file),
        _ => panic!("bench takes no arguments, or --svg and a file"),
    };
    let (sections, grown) = timed();
    let [rusts, libms] = ["Rust", "libm"].map(|other| chiefs(&sections, other));
    let all = Section {
        title: "Entries",
        unit: "ns, the four functions beside libm:",
        other: "Rust or libm",
        rows: [rusts.clone(), libms.clone()].concat(),
    };
    show(&all.table());
    if let Some(file) = file {
        let svg = picture::drawn(&rusts, &libms, &grown);
        fs::write(file, svg).expect("the picture can be written");
    }
}

/// Shown too.
fn timed() -> (Vec<Section>, Vec<Row>) {
    let mut sections = vec![floats::section(), waves::section(), extremes::section()];
    for section in &sections {
        show(&section.table());
    }
    show(&jobs::table());
    let of_waves = waves::grown();
    let (beside_rust, mut grown) = beside_rust::timed();
    sections.extend(beside_rust);
    grown.extend(of_waves);
    let unit =
        "ns, of the port / of the Rust or libm, by the number of different inputs in one round:";
    show(&growth("Growth", unit, &grown));
    (sections, grown)
}

/// The row of each entry that stands for it. What is asked is said where the ratio is that of the section.
fn chiefs(sections: &[Section], other: &str) -> Vec<Row> {
    let sections = sections.iter().filter(|section| section.other == other);
    let rows = sections.flat_map(|section| &section.rows);
    let chiefs = rows.filter(|row| row.chief).cloned();
    chiefs.map(|row| row.asked("")).collect()
}

fn show(table: &Table) {
    println!("{}", table.markdown());
}
