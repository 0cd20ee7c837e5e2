//! Names: how many of those that a sheet declares occur in it.

use super::sheets::Sheet;
use super::text::Text;
use second_checker::Refusal;

/// What calls are to be about, each with the outcome that the second checker has for the sheet: it accepts all of them.
pub const NAMES: [(&str, Refusal); 4] = [
    ("one name that occurs", 0),
    ("two names, one of which occurs", 0),
    ("two names that occur", 0),
    ("two names that occur, beside values", 0),
];

/// Which of these a sheet has, by their places.
pub fn names(sheet: &Sheet, outcome: Refusal) -> Vec<usize> {
    let text = Text::of(&sheet.bytes);
    let declared = text.declared("name");
    let occurring = declared.iter().filter(|name| text.occurs(name)).count();
    let has = [
        occurring == 1,
        declared.len() == 2 && occurring == 1,
        occurring == 2,
        occurring == 2 && !text.declared("value").is_empty(),
    ];
    (0..has.len())
        .filter(|&place| has[place] && NAMES[place].1 == outcome)
        .collect()
}
