//! What was timed, as rows: the tables are made of them, and the picture.

use std::fmt::Write;

/// The numbers of inputs for which the growth is shown.
pub const GROWN: [usize; 4] = [100, 1000, 10_000, 100_000];

/// One entry on one kind of input, in ns for each input of so many in a round.
#[derive(Clone)]
pub struct Row {
    pub entry: &'static str,
    pub words: String,
    pub inputs: usize,
    pub port: f64,
    /// What is not proved: the untouched Rust's time, the machine's or libm's.
    pub other: f64,
    /// The port's without what an export does beside the arithmetic.
    pub inner: Option<f64>,
    /// What the arithmetic takes with libm and without checks.
    pub lean: Option<f64>,
    /// Of the ratio, and where there is lean arithmetic of that over it.
    pub asked: &'static str,
    /// Whether the row stands for its entry where there is one for each.
    pub chief: bool,
}

impl Row {
    pub fn new(entry: &'static str, words: &str, inputs: usize, port: f64, other: f64) -> Self {
        Row {
            entry,
            words: words.to_owned(),
            inputs,
            port,
            other,
            inner: None,
            lean: None,
            asked: "",
            chief: false,
        }
    }

    pub fn chief(self) -> Self {
        Row {
            chief: true,
            ..self
        }
    }

    pub fn asked(self, asked: &'static str) -> Self {
        Row { asked, ..self }
    }

    pub fn name(&self) -> String {
        match self.words.as_str() {
            "" => self.entry.to_owned(),
            words => format!("{}, {words}", self.entry),
        }
    }

    pub fn times_as_fast(&self) -> f64 {
        self.other / self.port
    }

    /// How much more than the arithmetic is taken.
    fn over_lean(&self) -> Option<f64> {
        Some(self.inner.unwrap_or(self.port) / self.lean?)
    }
}

/// Rows that stand in one table.
pub struct Section {
    pub title: &'static str,
    pub unit: &'static str,
    /// What stands beside the port.
    pub other: &'static str,
    pub rows: Vec<Row>,
}

impl Section {
    /// Beside the Rust one asks how much faster the port is, beside the machine how much slower.
    pub fn table(&self) -> Table {
        let beside_rust = self.other.starts_with("Rust");
        let ratio = match beside_rust {
            true => "times as fast",
            false => "ratio",
        };
        let mut table = Table::new(self.title, self.unit, &["", "port", self.other, ratio]);
        for row in &self.rows {
            let fast = row.times_as_fast();
            let ratio = if beside_rust { fast } else { 1.0 / fast };
            table.row(vec![
                row.name(),
                number(row.port),
                number(row.other),
                two(ratio),
            ]);
        }
        let of_rows = |cell: fn(&Row) -> Option<String>| self.rows.iter().map(cell).collect();
        table.column("inner form", of_rows(|row| row.inner.map(number)));
        table.column("lean", of_rows(|row| row.lean.map(number)));
        table.column("over lean", of_rows(|row| row.over_lean().map(two)));
        let asked = |row: &Row| (!row.asked.is_empty()).then(|| row.asked.to_owned());
        table.column("asked", of_rows(asked));
        table
    }
}

/// A row for each entry and kind, with a column for each number of inputs.
pub fn growth(title: &str, unit: &str, rows: &[Row]) -> Table {
    let [first, second, third, last] = GROWN.map(|count| whole(count as u64));
    let mut table = Table::new(title, unit, &["", &first, &second, &third, &last]);
    for first in rows.iter().filter(|row| row.inputs == GROWN[0]) {
        let of_one = rows.iter().filter(|row| row.name() == first.name());
        let cell = |row: &Row| format!("{} / {}", number(row.port), number(row.other));
        let cells = of_one.map(cell);
        table.row([first.name()].into_iter().chain(cells).collect());
    }
    table
}

/// A title, a line on what the numbers are, and cells.
pub struct Table {
    title: String,
    unit: String,
    rows: Vec<Vec<String>>,
}

impl Table {
    pub fn new(title: &str, unit: &str, head: &[&str]) -> Self {
        Table {
            title: title.to_owned(),
            unit: unit.to_owned(),
            rows: vec![head.iter().map(|&cell| cell.to_owned()).collect()],
        }
    }

    /// One more, where some cell has something.
    fn column(&mut self, head: &str, cells: Vec<Option<String>>) {
        if cells.iter().all(Option::is_none) {
            return;
        }
        self.rows[0].push(head.to_owned());
        for (row, cell) in self.rows[1..].iter_mut().zip(cells) {
            row.push(cell.unwrap_or_default());
        }
    }

    pub fn row(&mut self, cells: Vec<String>) {
        self.rows.push(cells);
    }

    /// In Markdown, the columns under each other.
    pub fn markdown(&self) -> String {
        let columns = 0..self.rows[0].len();
        let width = |column: usize| {
            self.rows
                .iter()
                .map(|row| row[column].chars().count())
                .max()
        };
        let widths: Vec<usize> = columns
            .map(|column| width(column).unwrap_or(0).max(3))
            .collect();
        let mut text = format!("## {}\n\n{}\n\n", self.title, self.unit);
        for (index, row) in self.rows.iter().enumerate() {
            for (cell, width) in row.iter().zip(&widths) {
                let _ = write!(text, "| {cell:width$} ");
            }
            text += "|\n";
            if index == 0 {
                text.extend(
                    widths
                        .iter()
                        .map(|width| format!("|{}", "-".repeat(width + 2))),
                );
                text += "|\n";
            }
        }
        text
    }
}

/// To three digits and more.
pub fn number(x: f64) -> String {
    match x {
        x if x < 9.995 => two(x),
        x if x < 99.95 => format!("{x:.1}"),
        x => whole(x.round() as u64),
    }
}

pub fn two(x: f64) -> String {
    format!("{x:.2}")
}

/// With a comma between thousands.
pub fn whole(n: u64) -> String {
    let digits = n.to_string();
    let mut text = String::new();
    for (index, digit) in digits.chars().enumerate() {
        if index > 0 && (digits.len() - index).is_multiple_of(3) {
            text.push(',');
        }
        text.push(digit);
    }
    text
}
