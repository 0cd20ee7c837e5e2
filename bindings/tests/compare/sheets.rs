//! Sheets and snapshots to ask about, from the second checker's generators: the one of document 01, whose symbols are single letters, and
//! the one of the requests that have landed, most of whose symbols are words.

use super::rules;
use super::spelling;
use super::values;
use second_checker::closure::accept;
use second_checker::generate::{self, Chance, Draft};
use second_checker::requests::sheets::{self as requested, Wish};
use second_checker::sheet::Kind;

/// Above this a book or a verdict takes long; a few sheets have more.
const NAMINGS: u64 = 64;

/// A sheet's bytes, and symbols and kinds for its snapshots.
pub struct Sheet {
    pub bytes: Vec<u8>,
    pub symbols: Vec<String>,
    pub kinds: Vec<Kind>,
}

impl Sheet {
    pub fn of(draft: &Draft) -> Sheet {
        Sheet {
            bytes: draft.bytes(),
            symbols: draft.symbols.clone(),
            kinds: draft.kinds.clone(),
        }
    }

    /// So of a refused sheet too.
    fn has_at_most(&self, namings: u64) -> bool {
        accept(rules(), &self.bytes).map_or(true, |accepted| accepted.namings() <= namings)
    }

    /// A snapshot's text, damaged one time in three; some have a node that holds no value or several, some begin with another line 1.
    pub fn picture(&self, c: &mut Chance) -> Vec<u8> {
        match c.below(12) {
            0..=3 => generate::damaged_picture(c, &self.symbols, &self.kinds).0,
            4 => values::misheld(c, self),
            5 => {
                let symbols = spelling::other_symbols(c, &self.symbols);
                generate::picture(c, &symbols, &self.kinds).bytes()
            }
            _ => generate::picture(c, &self.symbols, &self.kinds).bytes(),
        }
    }
}

/// A sheet that is not refused.
pub fn sound(c: &mut Chance) -> Sheet {
    match c.below(1024) {
        0 => many_namings(c),
        1..=256 => pressed(c),
        257..=576 => in_words(c),
        577..=640 => respelt(c),
        641..=699 => long_when_clean(c),
        700..=860 => with_values(c),
        861..=1000 => with_names(c),
        _ => {
            let size = c.between(2, 10);
            Sheet::of(&generate::sound(c, size, NAMINGS))
        }
    }
}

/// What is wished of the generator of the requests: the present level, and of it any request.
pub fn wish(c: &mut Chance) -> Wish {
    let level = rules().level;
    let focus = c.between(1, usize::from(level)) as u8;
    Wish { level, focus }
}

/// A sheet that is not refused, mostly with symbols of several letters.
fn in_words(c: &mut Chance) -> Sheet {
    let wish = wish(c);
    Sheet::of(&requested::sound(c, wish))
}

/// One that is longer when written clean: lines around 200 bytes, or all of it around 1,024.
fn long_when_clean(c: &mut Chance) -> Sheet {
    let level = rules().level;
    loop {
        let sheet = Sheet::of(&requested::long_when_clean(c, Wish { level, focus: 6 }));
        if accept(rules(), &sheet.bytes).is_ok() && sheet.has_at_most(NAMINGS) {
            return sheet;
        }
    }
}

/// One with values, mostly.
fn with_values(c: &mut Chance) -> Sheet {
    let level = rules().level;
    Sheet::of(&requested::sound(c, Wish { level, focus: 3 }))
}

/// One with two names, mostly.
fn with_names(c: &mut Chance) -> Sheet {
    let level = rules().level;
    loop {
        let sheet = Sheet::of(&requested::sound(c, Wish { level, focus: 4 }));
        if sheet.has_at_most(4 * NAMINGS) {
            return sheet;
        }
    }
}

/// One with much to strike, or any in words, with a symbol of it spelt otherwise in all places.
fn respelt(c: &mut Chance) -> Sheet {
    loop {
        let sheet = if c.one_in(2) { pressed(c) } else { in_words(c) };
        let sheet = spelling::respelt(c, sheet);
        if accept(rules(), &sheet.bytes).is_ok() {
            return sheet;
        }
    }
}

/// A sheet with up to the most namings that there can be.
fn many_namings(c: &mut Chance) -> Sheet {
    loop {
        let sheet = Sheet::of(&generate::sound(c, 6, 4096));
        if !sheet.has_at_most(4 * NAMINGS - 1) {
            return sheet;
        }
    }
}

/// A sheet with untils under globals that force or forbid steps: more is struck than in others.
fn pressed(c: &mut Chance) -> Sheet {
    const SHAPES: [(usize, usize, usize); 6] = [
        (1, 0, 1),
        (1, 0, 2),
        (2, 0, 2),
        (1, 1, 1),
        (0, 2, 1),
        (1, 1, 2),
    ];
    loop {
        let sheet = Sheet::of(&generate::pressed(c, &SHAPES));
        if accept(rules(), &sheet.bytes).is_ok() && sheet.has_at_most(NAMINGS) {
            return sheet;
        }
    }
}

/// A sheet with something wrong, mostly.
pub fn changed(c: &mut Chance) -> Sheet {
    loop {
        let sheet = match c.below(16) {
            0..=2 => damaged(c),
            3..=5 => byte_changed(c),
            6 => odd(c),
            7 => large(c),
            8 => {
                let sheet = in_words(c);
                values::more(c, sheet)
            }
            9..=11 => damaged_words(c),
            _ => misspelt(c),
        };
        if sheet.has_at_most(NAMINGS) {
            return sheet;
        }
    }
}

/// One, two or three damages, the later numbers first as they need more of the sheet whole.
fn damaged(c: &mut Chance) -> Sheet {
    let mut draft = generate::sound(c, 4, NAMINGS);
    let mut numbers: Vec<usize> = (0..c.between(1, 3)).map(|_| c.between(1, 10)).collect();
    numbers.sort_unstable_by(|a, b| b.cmp(a));
    numbers.dedup();
    for number in numbers {
        if draft.lines.len() >= 3 {
            generate::damage(c, &mut draft, number);
        }
    }
    Sheet::of(&draft)
}

/// The same in words, by the damages of the requests too; or one at the border of the closure.
fn damaged_words(c: &mut Chance) -> Sheet {
    let wish = wish(c);
    if c.one_in(8) {
        let members = c.between(62, 66);
        return Sheet::of(&requested::with_closure(c, wish, members));
    }
    Sheet::of(&requested::damaged(c, wish))
}

/// Symbols in words that are spelt otherwise in places, have a capital somewhere, are typed together or too long; or two of these.
fn misspelt(c: &mut Chance) -> Sheet {
    let mut sheet = in_words(c);
    for _ in 0..c.between(1, 2) {
        sheet = match c.below(4) {
            0 => spelling::respelt(c, sheet),
            1 => spelling::capital(c, sheet),
            2 => spelling::joined(c, sheet),
            _ => spelling::overlong(c, sheet),
        };
    }
    sheet
}

/// One to three bytes put in, taken out, or replaced by others.
fn byte_changed(c: &mut Chance) -> Sheet {
    let mut sheet = if c.one_in(3) {
        in_words(c)
    } else {
        let size = c.between(2, 6);
        Sheet::of(&generate::sound(c, size, NAMINGS))
    };
    for _ in 0..c.between(1, 3) {
        let from = c.below(sheet.bytes.len());
        let to = from + c.below(2);
        let put = some_bytes(c);
        sheet.bytes.splice(from..to, put);
    }
    sheet
}

/// None, one of the sheet's alphabet, or one of all.
fn some_bytes(c: &mut Chance) -> Vec<u8> {
    match c.below(5) {
        0 => vec![],
        1 => vec![c.word() as u8],
        _ => vec![c.pick(b"abfkvwAFKW01EXGUR(){},!&|> \n")],
    }
}

/// A formula or a sheet at the border of the first refusals.
fn odd(c: &mut Chance) -> Sheet {
    let symbols = vec![String::from("k"), String::from("f")];
    let kinds = vec![Kind::Mark, Kind::Field];
    if c.one_in(3) {
        let bytes = c.pick(generate::ODD_SHEETS).as_bytes().to_vec();
        return Sheet {
            bytes,
            symbols,
            kinds,
        };
    }
    let formulas: Vec<String> = (0..c.between(1, 3))
        .map(|_| c.pick(generate::ODD_FORMULAS).to_string())
        .collect();
    let (goal, globals) = formulas.split_first().expect("one or more");
    Sheet::of(&Draft::new(
        symbols,
        kinds,
        globals.to_vec(),
        vec![goal.clone()],
    ))
}

/// Formulas of any size: around and over the borders of closure, lean and length.
fn large(c: &mut Chance) -> Sheet {
    let size = c.between(6, 24);
    Sheet::of(&generate::draft(c, size))
}
