//! What a comparison notes: how often each thing was met, and the differences, the first of them with all their inputs.

use std::collections::BTreeMap;

/// Of the differences, as many are shown.
const SHOWN: usize = 10;

#[derive(Default)]
pub struct Met(BTreeMap<String, u64>);

impl Met {
    pub fn count(&mut self, what: impl Into<String>) {
        *self.0.entry(what.into()).or_default() += 1;
    }

    pub fn count_if(&mut self, what: &str, met: bool) {
        if met {
            self.count(what);
        }
    }

    pub fn add(&mut self, more: Met) {
        for (what, count) in more.0 {
            *self.0.entry(what).or_default() += count;
        }
    }

    /// Those of `all` that were not met.
    pub fn unmet(&self, all: impl IntoIterator<Item = String>) -> Vec<String> {
        let met = |what: &String| self.0.contains_key(what);
        all.into_iter().filter(|what| !met(what)).collect()
    }

    /// A row for each of `all`, which comes with how often it must be met. Whether one was met less often.
    pub fn print(&self, all: impl IntoIterator<Item = (String, u64)>) -> bool {
        let mut rare = Vec::new();
        for (what, fewest) in all {
            let count = self.0.get(&what).copied().unwrap_or(0);
            println!("{what:48} {count:12}");
            if count < fewest {
                rare.push(format!("met less often than {fewest} times: {what}"));
            }
        }
        for what in &rare {
            println!("{what}");
        }
        !rare.is_empty()
    }
}

#[derive(Default)]
pub struct Differences {
    count: u64,
    examples: Vec<String>,
}

impl Differences {
    /// The words for it are asked for only where they are shown.
    pub fn note(&mut self, example: impl FnOnce() -> String) {
        self.count += 1;
        if self.examples.len() < SHOWN {
            self.examples.push(example());
        }
    }

    pub fn add(&mut self, more: Differences) {
        self.count += more.count;
        self.examples.extend(more.examples);
    }

    pub fn count(&self) -> u64 {
        self.count
    }

    pub fn print_examples(&self) {
        for example in self.examples.iter().take(SHOWN) {
            println!("{example}");
        }
    }

    /// Whether there are any.
    pub fn print(&self, comparison: &str) -> bool {
        self.print_examples();
        println!("{comparison}: {} differences", self.count);
        self.count > 0
    }
}

/// The calls of each entry, counted by the number that it must answer.
pub fn calls_by_number<const N: usize>(
    entries: impl IntoIterator<Item = &'static str>,
    met: &[[u64; N]],
) -> Vec<(&'static str, u64)> {
    let calls = met.iter().map(|counts| counts.iter().sum());
    entries.into_iter().zip(calls).collect()
}

/// What a comparison has come to, whichever entries it compares.
pub trait Account {
    /// The entries, each with how many calls of it were held to what is expected.
    fn calls(&self) -> Vec<(&'static str, u64)>;

    fn noted(&self) -> Vec<&Differences>;

    /// What can be met and was not.
    fn unmet(&self) -> Vec<String>;
}
