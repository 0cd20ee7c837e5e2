//! Sheets for calls within limits: with more places and more formulas than the usual limits allow.

use super::rules::{rules, rules_within};
use super::sheets::{self, Sheet};
use lockgraph::Limits;
use second_checker::closure::{accept, Accepted};
use second_checker::formula::{print, Formula};
use second_checker::generate::{self, Chance, Draft, Words};
use second_checker::requests::sheets as requested;
use second_checker::sheet::Kind;

/// The most formulas that a limit allows.
const FORMULAS: usize = 128;
/// The most lines that a sheet may have.
const LINES: usize = 7;
/// A line is not made longer than this, so that a formula more has room in it.
const LONG: usize = 150;
/// So many namings can be gone through, if few types are left under each.
const NAMINGS: u64 = 1 << 16;

/// A sheet that some limits accept, mostly: half of them have over 8 places.
pub fn sound(c: &mut Chance) -> Sheet {
    match c.below(32) {
        0..=13 => {
            let places = c.between(9, 12);
            Sheet::of(&with_places(c, places))
        }
        14 => Sheet::of(&with_places(c, 13)),
        15..=17 => with_both(c),
        18..=22 => with_formulas(c),
        23 => with_namings(c),
        _ => sheets::sound(c),
    }
}

/// One with something wrong, mostly; an empty one at times.
pub fn changed(c: &mut Chance) -> Sheet {
    if c.one_in(8) {
        return Sheet {
            bytes: vec![],
            ..sheets::sound(c)
        };
    }
    sheets::changed(c)
}

/// How many formulas with all parts and expansions, and how many places; nothing where 1 to 8 refuse the sheet.
pub fn measure(bytes: &[u8]) -> Option<(usize, usize)> {
    generate::measure(rules(), bytes)
}

/// Any sheet of few places with more formulas joined to it, until it has so many places.
fn with_places(c: &mut Chance, places: usize) -> Draft {
    const SHAPES: [(usize, usize, usize); 5] =
        [(1, 0, 1), (2, 0, 2), (1, 1, 1), (2, 1, 2), (0, 2, 1)];
    loop {
        let draft = if c.one_in(3) {
            generate::pressed(c, &SHAPES)
        } else {
            let wish = sheets::wish(c);
            requested::sound(c, wish)
        };
        if let Some(draft) = grown(c, draft, places) {
            return draft;
        }
    }
}

/// Nothing where the places were passed over, or the formulas became too many.
fn grown(c: &mut Chance, mut draft: Draft, places: usize) -> Option<Draft> {
    let words = Words::of(&draft.symbols, &draft.kinds, c.one_in(4));
    for _ in 0..12 {
        let (closure, lean) = measure(&draft.bytes())?;
        if lean >= places || closure > FORMULAS {
            return (lean == places && closure <= FORMULAS).then_some(draft);
        }
        let size = c.between(1, 3);
        let formula = generate::formula(c, &words, size);
        let line = draft.some_formula_line(c)?;
        if draft.lines.len() < LINES && c.one_in(2) {
            let global = match c.below(3) {
                0 => format!("all {formula}"),
                _ => format!("all ({})|({formula})", generate::unit(c, &words, 0)),
            };
            draft.lines.insert(2, global.into_bytes());
        } else if draft.lines[line].len() < LONG {
            let joined = format!("({formula}){}", c.pick(&["&", "|", ">"]));
            draft.put_before(line, &joined);
        }
    }
    None
}

/// Few places, and as many formulas as some limit, or one more or less.
fn with_formulas(c: &mut Chance) -> Sheet {
    let formulas = match c.below(3) {
        0 => c.pick(&[15, 16, 17, 63, 64, 65]),
        1 => c.pick(&[127, 128, 128, 129, 130]),
        _ => c.between(65, FORMULAS),
    };
    let wish = sheets::wish(c);
    Sheet::of(&requested::with_closure(c, wish, formulas))
}

/// Many places, and many formulas.
fn with_both(c: &mut Chance) -> Sheet {
    loop {
        let places = c.between(9, 13);
        let formulas = c.pick(&[65, 80, 100, 127, 128, 128, 129]);
        let draft = with_places(c, places);
        if let Some(draft) = filled(c, draft, formulas) {
            return Sheet::of(&draft);
        }
    }
}

/// One symbol joined to the lines again and again, until there are so many formulas.
fn filled(c: &mut Chance, mut draft: Draft, formulas: usize) -> Option<Draft> {
    let units = draft.of_kind(&[Kind::Mark, Kind::Name, Kind::Value]);
    let unit = if units.is_empty() {
        String::from("1")
    } else {
        c.pick(&units)
    };
    let filler = format!("{unit}{}", c.pick(&["&", "|"]));
    let mut line = draft.lines.len() - 1;
    loop {
        let (closure, _) = measure(&draft.bytes())?;
        if closure >= formulas {
            return (closure == formulas).then_some(draft);
        }
        if draft.lines[line].len() > LONG {
            if draft.lines.len() == LINES {
                return None;
            }
            draft.lines.insert(2, b"all 1".to_vec());
            line = 2;
        }
        draft.put_before(line, &filler);
    }
}

/// Many places and a name or two, and globals that leave few types: all namings can be gone through.
fn with_namings(c: &mut Chance) -> Sheet {
    loop {
        let places = c.between(9, 12);
        let mut draft = with_places(c, places);
        let Some(global) = narrow(c, &draft) else {
            continue;
        };
        draft.lines.insert(2, global.into_bytes());
        let sheet = Sheet::of(&draft);
        let read = accept(rules_within(Limits::MOST), &sheet.bytes);
        if read.is_ok_and(|accepted| accepted.lean.len() == places) {
            return sheet;
        }
    }
}

/// A global that holds in few types: some of the places, or the contrary of a mark's. Nothing where the sheet has no name that occurs,
/// has too many namings, or has no line left.
fn narrow(c: &mut Chance, draft: &Draft) -> Option<String> {
    let bytes = draft.bytes();
    let accepted = accept(rules_within(Limits::MOST), &bytes).ok()?;
    let namings = 2..=NAMINGS;
    if draft.lines.len() == LINES || !namings.contains(&accepted.namings()) {
        return None;
    }
    let many = c.between(4, 6);
    let demands: Vec<String> = (0..many).map(|_| demand(c, &accepted)).collect();
    Some(format!("all {}", demands.join("&")))
}

fn demand(c: &mut Chance, accepted: &Accepted) -> String {
    let place = c.pick(&accepted.lean);
    let text = print(&place, &accepted.sheet.symbols);
    match place {
        Formula::Letter(_) if c.one_in(2) => format!("!{text}"),
        _ => text,
    }
}
