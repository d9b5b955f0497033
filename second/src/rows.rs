//! Counts in rows of classes that are expected: each class must be reached, and no other.

use std::collections::BTreeMap;

/// Rows, each with the words of its classes.
pub type Expected = &'static [(&'static str, &'static str)];

pub struct Rows {
    expected: Expected,
    counts: BTreeMap<(&'static str, String), u64>,
}

impl Rows {
    pub fn new(expected: Expected) -> Rows {
        Rows { expected, counts: BTreeMap::new() }
    }

    pub fn count(&mut self, row: &'static str, class: &str) {
        if let Some(count) = self.counts.get_mut(&(row, class.to_string())) {
            *count += 1;
        } else {
            self.counts.insert((row, class.to_string()), 1);
        }
    }

    pub fn merge(&mut self, other: Rows) {
        for (key, count) in other.counts {
            *self.counts.entry(key).or_insert(0) += count;
        }
    }

    pub fn of(&self, row: &'static str, class: &str) -> u64 {
        self.counts.get(&(row, class.to_string())).copied().unwrap_or(0)
    }

    /// One line for each row, with its classes and their counts.
    pub fn table(&self) -> String {
        let mut table = String::new();
        for (row, classes) in self.expected {
            let counts: Vec<String> =
                classes.split_whitespace().map(|class| format!("{class}:{}", self.of(row, class))).collect();
            table.push_str(&format!("{row:<22}{}\n", counts.join("  ")));
        }
        table
    }

    /// What was expected and not reached, and what was reached and not expected.
    pub fn faults(&self) -> Vec<String> {
        let mut faults = Vec::new();
        for (row, classes) in self.expected {
            for class in classes.split_whitespace().filter(|class| self.of(row, class) == 0) {
                faults.push(format!("never reached: {row}: {class}"));
            }
        }
        for ((row, class), count) in &self.counts {
            let known = self
                .expected
                .iter()
                .any(|(name, classes)| name == row && classes.split_whitespace().any(|expected| expected == class));
            if !known {
                faults.push(format!("not expected: {row}: {class} ({count} times)"));
            }
        }
        faults
    }
}
