//! How symbols are spelt in a sheet: runs of letters, other spellings for them, and which of the spellings that matter a sheet has.

use super::sheets::Sheet;
use second_checker::generate::Chance;
use second_checker::Refusal;
use std::ops::Range;

/// A symbol has at most so many letters.
const LETTERS: usize = 8;

/// A run of letters, as a symbol or a mode is spelt.
struct Run {
    at: Range<usize>,
    in_formula: bool,
    in_braces: bool,
}

/// The runs of line 1 and of the formulas: lower-case letters, in braces with a capital for the first.
fn runs(bytes: &[u8]) -> Vec<Run> {
    let (mut runs, mut begin) = (vec![], 0);
    for (number, line) in bytes.split(|&byte| byte == b'\n').enumerate() {
        let from = match number {
            0 => Some(0),
            1 => None,
            _ => line.iter().position(|&byte| byte == b' '),
        };
        let (mut at, mut in_braces) = (from.unwrap_or(line.len()), false);
        while at < line.len() {
            let first = line[at];
            let mut end = at + 1;
            if first.is_ascii_lowercase() || in_braces && first.is_ascii_uppercase() {
                end += lower_case(&line[end..]);
                runs.push(Run {
                    at: begin + at..begin + end,
                    in_formula: number > 0,
                    in_braces,
                });
            }
            in_braces = first == b'{' || in_braces && first != b'}';
            at = end;
        }
        begin += line.len() + 1;
    }
    runs
}

/// With how many lower-case letters it begins.
fn lower_case(bytes: &[u8]) -> usize {
    let end = bytes.iter().position(|byte| !byte.is_ascii_lowercase());
    end.unwrap_or(bytes.len())
}

/// A symbol spelt otherwise, with up to nine letters: in all places, in line 1 or the formulas alone, or in one place.
pub fn respelt(c: &mut Chance, mut sheet: Sheet) -> Sheet {
    let place = c.below(sheet.symbols.len());
    let former = sheet.symbols[place].clone();
    let symbol = stretched(c, &former);
    let mut runs = runs(&sheet.bytes);
    runs.retain(|run| sheet.bytes[run.at.clone()].eq_ignore_ascii_case(former.as_bytes()));
    match c.below(6) {
        0..=2 => {}
        3 => runs.retain(|run| !run.in_formula),
        4 => runs.retain(|run| run.in_formula),
        _ if runs.is_empty() => {}
        _ => runs = vec![runs.swap_remove(c.below(runs.len()))],
    }
    if runs.iter().any(|run| !run.in_formula) {
        sheet.symbols[place] = symbol.clone();
    }
    for run in runs.into_iter().rev() {
        let mut letters = symbol.clone().into_bytes();
        if sheet.bytes[run.at.start].is_ascii_uppercase() {
            letters[0].make_ascii_uppercase();
        }
        sheet.bytes.splice(run.at, letters);
    }
    sheet
}

/// The symbol with letters put behind it, most often up to the border; or its beginning.
fn stretched(c: &mut Chance, symbol: &str) -> String {
    if c.one_in(6) {
        return symbol[..c.between(1, symbol.len())].to_string();
    }
    let length = c.pick(&[2, 7, LETTERS, LETTERS, LETTERS, LETTERS + 1]);
    let mut letters = symbol.to_string();
    while letters.len() < length {
        letters.push(c.pick(&['a', 'b', 's', 'z']));
    }
    letters
}

/// A run in a formula stretched to one letter more than a symbol may have.
pub fn overlong(c: &mut Chance, mut sheet: Sheet) -> Sheet {
    let mut runs = runs(&sheet.bytes);
    runs.retain(|run| run.in_formula);
    if runs.is_empty() {
        return sheet;
    }
    let run = runs.swap_remove(c.below(runs.len()));
    let missing = (LETTERS + 1).saturating_sub(run.at.len());
    let end = run.at.end;
    sheet.bytes.splice(end..end, vec![b'z'; missing]);
    sheet
}

/// A letter, or every letter, of a run in a formula in capital.
pub fn capital(c: &mut Chance, mut sheet: Sheet) -> Sheet {
    let mut runs = runs(&sheet.bytes);
    runs.retain(|run| run.in_formula);
    if runs.is_empty() {
        return sheet;
    }
    let run = runs.swap_remove(c.below(runs.len()));
    let letters = &mut sheet.bytes[run.at];
    if c.one_in(4) {
        letters.make_ascii_uppercase();
    } else {
        let place = c.below(letters.len());
        letters[place].make_ascii_uppercase();
    }
    sheet
}

/// Two symbols, or two modes, typed together: the byte between them is left out.
pub fn joined(c: &mut Chance, mut sheet: Sheet) -> Sheet {
    let runs = runs(&sheet.bytes);
    let between: Vec<usize> = runs
        .windows(2)
        .filter(|pair| pair[0].at.end + 1 == pair[1].at.start)
        .map(|pair| pair[0].at.end)
        .collect();
    if !between.is_empty() {
        sheet.bytes.remove(c.pick(&between));
    }
    sheet
}

/// Line 1 with a symbol spelt otherwise, for a snapshot that does not copy it.
pub fn other_symbols(c: &mut Chance, symbols: &[String]) -> Vec<String> {
    let mut symbols = symbols.to_vec();
    let place = c.below(symbols.len());
    let symbol = &symbols[place];
    symbols[place] = if c.one_in(3) {
        symbol.to_ascii_uppercase()
    } else {
        stretched(c, symbol)
    };
    symbols
}

/// The spellings that calls are to be about, each with the outcome that the second checker has for the sheet; 0 if it accepts it.
pub const SPELLINGS: [(&str, Refusal); 9] = [
    ("a symbol of several letters", 0),
    ("a symbol of 8 letters", 0),
    ("a symbol that begins another", 0),
    ("a backward mode of several letters", 0),
    ("a run of over 8 letters in line 1", 4),
    ("a run of over 8 letters outside braces", 6),
    ("a run of over 8 letters in braces", 6),
    ("a capital inside a run in braces", 6),
    ("a run of 2 to 8 letters that line 1 has not", 7),
];

/// Which of these a sheet has, by their places.
pub fn spellings(bytes: &[u8], outcome: Refusal) -> Vec<usize> {
    let runs = runs(bytes);
    let letters = |run: &Run| bytes[run.at.clone()].to_ascii_lowercase();
    let (formulas, line_1): (Vec<&Run>, Vec<&Run>) = runs.iter().partition(|run| run.in_formula);
    let declared: Vec<Vec<u8>> = line_1.iter().map(|run| letters(run)).collect();
    let some = |has: &dyn Fn(&Run) -> bool| formulas.iter().any(|run| has(run));
    let begins_another = |run: &Run| {
        let symbol = letters(run);
        some(&|other| letters(other) != symbol && letters(other).starts_with(&symbol))
    };
    let backward = |run: &Run| run.in_braces && bytes[run.at.start].is_ascii_uppercase();
    let has = [
        some(&|run| run.at.len() > 1),
        some(&|run| run.at.len() == LETTERS),
        some(&begins_another),
        some(&|run| run.at.len() > 1 && backward(run)),
        declared.iter().any(|symbol| symbol.len() > LETTERS),
        some(&|run| run.at.len() > LETTERS && !run.in_braces),
        some(&|run| run.at.len() > LETTERS && run.in_braces),
        some(&|run| backward(run) && bytes[run.at.start - 1].is_ascii_lowercase()),
        some(&|run| (2..=LETTERS).contains(&run.at.len()) && !declared.contains(&letters(run))),
    ];
    (0..has.len())
        .filter(|&place| has[place] && SPELLINGS[place].1 == outcome)
        .collect()
}
