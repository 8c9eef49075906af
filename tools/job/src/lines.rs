//! The lines of a text, and a line that is at fault.

use std::fmt;

/// A line with words, counted from 1.
#[derive(Clone, Debug)]
pub struct Line<'a> {
    pub number: usize,
    pub words: Vec<&'a str>,
}

impl Line<'_> {
    pub fn fault(&self, words: impl fmt::Display) -> Fault {
        Fault {
            line: self.number,
            words: format!("'{}' {words}", self.words.join(" ")),
        }
    }
}

/// The lines that have words in front of a `#`.
pub fn lines(text: &str) -> impl Iterator<Item = Line<'_>> {
    text.lines().enumerate().filter_map(|(index, line)| {
        let said = line.split('#').next().unwrap_or("");
        let words: Vec<&str> = said.split_whitespace().collect();
        let number = index + 1;
        (!words.is_empty()).then_some(Line { number, words })
    })
}

/// A line that cannot stand where it does, counted from 1.
#[derive(Clone, Debug, PartialEq, Eq)]
pub struct Fault {
    pub line: usize,
    pub words: String,
}

impl fmt::Display for Fault {
    fn fmt(&self, f: &mut fmt::Formatter) -> fmt::Result {
        write!(f, "line {}: {}", self.line, self.words)
    }
}
