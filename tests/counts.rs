//! How often each refusal and each other thing was met. A comparison that never meets a thing says nothing about it.

use crate::planner::{Part, Refusal};
use std::collections::BTreeMap;

/// A function, the part that it refuses, and the number.
pub type Row = (&'static str, Part, u32);

#[derive(Default)]
pub struct Refusals {
    counts: BTreeMap<Row, u64>,
}

impl Refusals {
    pub fn count(&mut self, function: &'static str, refusal: &Refusal) {
        *self.counts.entry((function, refusal.part, refusal.number)).or_default() += 1;
    }

    /// Prints a table for each function, and says whether each refusal that can be was met so often, and no other.
    pub fn enough(&self, functions: &[&str], possible: &[Row], floor: u64) -> bool {
        let mut good = true;
        let last = possible.iter().map(|row| row.2).max().unwrap_or(0);
        for function in functions {
            println!("refusals of {function}");
            for number in 1..=last {
                let of_number = possible.iter().filter(|row| row.0 == *function && row.2 == number);
                let parts: Vec<_> = of_number.map(|row| (row.1, self.counts.get(row).copied().unwrap_or(0))).collect();
                if parts.is_empty() {
                    continue;
                }
                good &= parts.iter().all(|(_, count)| *count >= floor);
                let total: u64 = parts.iter().map(|(_, count)| count).sum();
                let words: Vec<String> = parts.iter().map(|(part, count)| format!("{part:?} {count}")).collect();
                println!("  {number}: {total}  ({})", words.join(", "));
            }
        }
        for (row, count) in self.counts.iter().filter(|(row, _)| !possible.contains(row)) {
            println!("  {row:?}: {count}, which can't be");
            good = false;
        }
        good
    }
}

#[derive(Default)]
pub struct Met {
    counts: BTreeMap<String, u64>,
}

impl Met {
    pub fn meet(&mut self, name: &str) {
        *self.counts.entry(name.to_string()).or_default() += 1;
    }

    pub fn meet_if(&mut self, met: bool, name: &str) {
        if met {
            self.meet(name);
        }
    }

    /// Prints how often each was met, and says whether it was so often.
    pub fn enough(&self, names: &[&str], floor: u64) -> bool {
        let mut good = true;
        for name in names {
            let count = self.counts.get(*name).copied().unwrap_or(0);
            good &= count >= floor;
            println!("  {name}: {count}");
        }
        good
    }
}
