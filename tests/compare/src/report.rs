//! What is counted and told.

use std::collections::BTreeMap;

/// Counts by name, with the first few examples of some.
pub struct Report {
    counts: BTreeMap<String, u64>,
    examples: BTreeMap<String, Vec<String>>,
    /// How many examples of one name are kept.
    most: usize,
}

impl Report {
    pub fn new(most: usize) -> Report {
        Report { counts: BTreeMap::new(), examples: BTreeMap::new(), most }
    }

    pub fn add(&mut self, name: &str, number: u64) {
        *self.counts.entry(name.to_string()).or_insert(0) += number;
    }

    pub fn count(&mut self, name: &str) {
        self.add(name, 1);
    }

    /// Whether another example of this name is kept.
    pub fn wants(&self, name: &str) -> bool {
        self.examples.get(name).map_or(0, Vec::len) < self.most
    }

    pub fn count_with(&mut self, name: &str, example: impl FnOnce() -> String) {
        self.count(name);
        if self.wants(name) {
            self.examples.entry(name.to_string()).or_default().push(example());
        }
    }

    /// How many were counted under names that begin so.
    pub fn sum(&self, beginning: &str) -> u64 {
        self.counts.iter().filter(|it| it.0.starts_with(beginning)).map(|it| it.1).sum()
    }

    pub fn print(&self) {
        for (name, count) in &self.counts {
            println!("{count:>12}  {name}");
        }
        for (name, examples) in &self.examples {
            println!("\n{name}:");
            for example in examples {
                println!("    {example}");
            }
        }
    }
}
