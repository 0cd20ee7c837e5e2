//! How often each operation had each outcome: a refusal's number, or 0.

use std::collections::BTreeMap;
use std::fmt;

#[derive(Default)]
pub struct Outcomes {
    counts: BTreeMap<(&'static str, u8), u64>,
}

impl Outcomes {
    pub fn count<T>(&mut self, operation: &'static str, outcome: &Result<T, u8>) {
        let number = outcome.as_ref().map_or_else(|&number| number, |_| 0);
        *self.counts.entry((operation, number)).or_default() += 1;
    }

    /// Adds those of others.
    pub fn add(&mut self, other: &Outcomes) {
        for (key, count) in &other.counts {
            *self.counts.entry(*key).or_default() += count;
        }
    }

    pub fn calls(&self) -> u64 {
        self.counts.values().sum()
    }

    /// The outcomes that an operation can have and had not: those of every operation, and its own.
    pub fn missing(&self, of_all: &[u8]) -> Vec<(&'static str, u8)> {
        let possible = OWN.iter().flat_map(|&(operation, own)| {
            let numbers = of_all.iter().chain(own);
            numbers.map(move |&number| (operation, number))
        });
        possible
            .filter(|key| !self.counts.contains_key(key))
            .collect()
    }
}

/// The operations, and the refusals that each has beside those of every sheet.
const OWN: [(&str, &[u8]); 7] = [
    ("table", &[11, 12]),
    ("book", &[12]),
    ("list", &[11, 12]),
    ("verdict", &[]),
    ("goal", &[]),
    ("clean", &[18]),
    ("snapshot", &[13, 14, 15, 16, 17]),
];

impl fmt::Display for Outcomes {
    /// A line for each operation.
    fn fmt(&self, f: &mut fmt::Formatter<'_>) -> fmt::Result {
        let mut line = "";
        for ((operation, number), count) in &self.counts {
            if *operation != line {
                let before = if line.is_empty() { "" } else { "\n" };
                write!(f, "{before}{operation}: ")?;
                line = operation;
            } else {
                write!(f, ", ")?;
            }
            match number {
                0 => write!(f, "{count} answered")?,
                _ => write!(f, "{count} refused {number}")?,
            }
        }
        writeln!(f)
    }
}
