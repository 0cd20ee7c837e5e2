//! Values: nodes of a snapshot that hold none or several of them, and which declarations of values a sheet has.

use super::sheets::Sheet;
use super::text::Text;
use second_checker::generate::{self, Chance};
use second_checker::sheet::Kind;
use second_checker::Refusal;

fn places(kinds: &[Kind], kind: Kind) -> Vec<usize> {
    (0..kinds.len())
        .filter(|&place| kinds[place] == kind)
        .collect()
}

/// A snapshot in which one node holds none of the values, all of them, or one more or less than it should.
pub fn misheld(c: &mut Chance, sheet: &Sheet) -> Vec<u8> {
    let mut picture = generate::picture(c, &sheet.symbols, &sheet.kinds);
    let values = places(&sheet.kinds, Kind::Value);
    let node = c.below(picture.rows.len());
    let entries = &mut picture.rows[node];
    match c.below(3) {
        0 => values.iter().for_each(|&value| entries[value] = 0),
        1 => values.iter().for_each(|&value| entries[value] = 1),
        _ if values.is_empty() => {}
        _ => {
            let value = c.pick(&values);
            entries[value] = 1 - entries[value];
        }
    }
    picture.bytes()
}

/// The sheet with further values on lines 1 and 2, up to 8 symbols in all: no formula has them, and the lean has.
pub fn more(c: &mut Chance, mut sheet: Sheet) -> Sheet {
    let text = String::from_utf8_lossy(&sheet.bytes).into_owned();
    let mut lines: Vec<String> = text.lines().map(String::from).collect();
    for letter in 'p'..=c.pick(&['p', 'q', 's', 'w']) {
        let symbol = format!("{letter}value");
        if sheet.symbols.len() == 8 || sheet.symbols.contains(&symbol) {
            break;
        }
        lines[0] = format!("{} {symbol}", lines[0]);
        lines[1].push_str(" value");
        sheet.symbols.push(symbol);
        sheet.kinds.push(Kind::Value);
    }
    sheet.bytes = format!("{}\n", lines.join("\n")).into_bytes();
    sheet
}

/// The declarations of values that calls are to be about, each with the outcome that the second checker has for the sheet; 0 if it accepts it.
pub const VALUES: [(&str, Refusal); 6] = [
    ("a value", 0),
    ("one value alone", 0),
    ("a value that does not occur", 0),
    ("a value beside a name", 0),
    ("a value, and over 8 places", 10),
    ("a value in braces", 7),
];

/// Which of these a sheet has, by their places.
pub fn values(sheet: &Sheet, outcome: Refusal) -> Vec<usize> {
    let text = Text::of(&sheet.bytes);
    let declared = text.declared("value");
    let some = !declared.is_empty();
    let has = [
        some,
        declared.len() == 1,
        declared.iter().any(|symbol| !text.occurs(symbol)),
        some && !text.declared("name").is_empty(),
        some,
        declared.iter().any(|symbol| text.in_braces(symbol)),
    ];
    (0..has.len())
        .filter(|&place| has[place] && VALUES[place].1 == outcome)
        .collect()
}
