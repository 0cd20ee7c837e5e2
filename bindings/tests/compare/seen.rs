//! What the calls without limits had, so that nothing passes for want of calls.

use super::names::{self, NAMES};
use super::outcomes::Outcomes;
use super::sheets::Sheet;
use super::spelling::{self, SPELLINGS};
use super::values::{self, VALUES};
use std::fmt;

/// The outcomes, how many sheets had each spelling and each declaration of values and names, and how many calls were about accepted
/// sheets with values, or with two names that occur.
#[derive(Default)]
pub struct Seen {
    pub outcomes: Outcomes,
    spellings: [u64; SPELLINGS.len()],
    values: [u64; VALUES.len()],
    about_values: u64,
    names: [u64; NAMES.len()],
    about_names: u64,
}

impl Seen {
    /// A sheet that so many calls are about, with its outcome.
    pub fn count_sheet(&mut self, sheet: &Sheet, outcome: u8, calls: u64) {
        for place in spelling::spellings(&sheet.bytes, outcome) {
            self.spellings[place] += 1;
        }
        let values = values::values(sheet, outcome);
        if outcome == 0 && !values.is_empty() {
            self.about_values += calls;
        }
        for place in values {
            self.values[place] += 1;
        }
        for place in names::names(sheet, outcome) {
            self.names[place] += 1;
            if NAMES[place].0 == "two names that occur" {
                self.about_names += calls;
            }
        }
    }

    /// Adds what others have seen.
    pub fn add(&mut self, other: &Seen) {
        self.outcomes.add(&other.outcomes);
        for (place, count) in other.spellings.iter().enumerate() {
            self.spellings[place] += count;
        }
        for (place, count) in other.values.iter().enumerate() {
            self.values[place] += count;
        }
        self.about_values += other.about_values;
        for (place, count) in other.names.iter().enumerate() {
            self.names[place] += count;
        }
        self.about_names += other.about_names;
    }

    pub fn calls(&self) -> u64 {
        self.outcomes.calls()
    }

    /// The outcomes that an operation can have and had not. Each is refused a sheet for the same ten reasons.
    pub fn missing(&self) -> Vec<(&'static str, u8)> {
        self.outcomes.missing(&[0, 1, 2, 3, 4, 5, 6, 7, 8, 9, 10])
    }

    /// The spellings and the declarations of values and names, each with its outcome, and how many sheets had them.
    fn shapes(&self) -> impl Iterator<Item = (&'static str, u8, u64)> + '_ {
        let spellings = SPELLINGS.iter().zip(self.spellings);
        let values = VALUES.iter().zip(self.values);
        let names = NAMES.iter().zip(self.names);
        spellings
            .chain(values)
            .chain(names)
            .map(|(&(shape, outcome), count)| (shape, outcome, count))
    }

    /// Those that no sheet had.
    pub fn missing_shapes(&self) -> Vec<&'static str> {
        self.shapes()
            .filter(|&(_, _, count)| count == 0)
            .map(|(shape, _, _)| shape)
            .collect()
    }
}

impl fmt::Display for Seen {
    /// A line for each operation, for each spelling and declaration, and for the calls about values and about two names.
    fn fmt(&self, f: &mut fmt::Formatter<'_>) -> fmt::Result {
        write!(f, "{}", self.outcomes)?;
        for (shape, outcome, count) in self.shapes() {
            write_shape(f, shape, outcome, count)?;
        }
        writeln!(
            f,
            "{} calls about accepted sheets with values",
            self.about_values
        )?;
        writeln!(
            f,
            "{} calls about accepted sheets with two names that occur",
            self.about_names
        )
    }
}

/// A line for what so many sheets with an outcome had.
pub fn write_shape(
    f: &mut fmt::Formatter<'_>,
    shape: &str,
    outcome: u8,
    count: u64,
) -> fmt::Result {
    match outcome {
        0 => writeln!(f, "{shape}: {count} sheets accepted"),
        _ => writeln!(f, "{shape}: {count} sheets refused {outcome}"),
    }
}
