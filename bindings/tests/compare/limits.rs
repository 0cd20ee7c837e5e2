//! Limits to call within, and which bounds that matter a sheet met within them.

use super::seen::write_shape;
use super::sheets::Sheet;
use super::text::Text;
use super::ways::Way;
use lockgraph::Limits;
use second_checker::generate::Chance;
use second_checker::Refusal;
use std::fmt;

/// What a sheet has, whatever the limits are; one that 1 to 8 refuse has neither.
#[derive(Clone, Copy)]
pub struct Size {
    pub closure: usize,
    pub lean: usize,
}

/// Numbers that are no lean limit: those beside the range, and some that are in it if they are cut to fewer bits.
const NO_LEAN: [usize; 10] = [
    0,
    0,
    13,
    13,
    14,
    64,
    256 + 8,
    (1 << 32) + 12,
    (1 << 63) + 8,
    usize::MAX,
];
const NO_CLOSURE: [usize; 10] = [
    0,
    12,
    15,
    15,
    129,
    129,
    256 + 64,
    (1 << 32) + 128,
    (1 << 63) + 64,
    usize::MAX,
];

/// Without limits at times; mostly within some that the sheet fits, or hardly fits; and within some that are refused, more often where
/// nothing but the sheet can be.
pub fn some_way(c: &mut Chance, size: Option<Size>) -> Way {
    let Size { closure, lean } = size.unwrap_or(Size {
        closure: 64,
        lean: 8,
    });
    let refused = size.is_none() && c.one_in(3);
    Way::Within(match c.below(16) {
        0 => return Way::Without,
        1 => Limits::USUAL,
        2 => Limits::MOST,
        3..=6 if refused => Limits {
            lean: c.pick(&NO_LEAN),
            ..Limits::USUAL
        },
        7..=10 if refused => Limits {
            closure: c.pick(&NO_CLOSURE),
            ..Limits::USUAL
        },
        _ => Limits {
            lean: some_lean(c, lean.clamp(1, 12)),
            closure: some_closure(c, closure.clamp(16, 128)),
        },
    })
}

fn some_lean(c: &mut Chance, own: usize) -> usize {
    match c.below(16) {
        0 => c.pick(&NO_LEAN),
        1 => own - 1,
        2 => own + 1,
        3..=6 => own,
        7 | 8 => c.between(1, 12),
        _ => c.between(own, 12),
    }
}

fn some_closure(c: &mut Chance, own: usize) -> usize {
    match c.below(16) {
        0 => c.pick(&NO_CLOSURE),
        1 => own - 1,
        2 => own + 1,
        3..=6 => own,
        7 => c.between(16, 128),
        8 => 16,
        _ => c.between(own, 128),
    }
}

/// What is known of a sheet that calls are about, within their limits.
pub struct Asked<'a> {
    pub sheet: &'a Sheet,
    pub size: Option<Size>,
    pub way: Way,
    /// The second checker's refusal of the sheet; 0 if it accepts it.
    pub outcome: Refusal,
    /// The rounds under the first naming.
    pub rounds: usize,
}

impl Asked<'_> {
    fn places(&self) -> usize {
        self.size.map_or(0, |size| size.lean)
    }

    fn formulas(&self) -> usize {
        self.size.map_or(0, |size| size.closure)
    }

    fn limits(&self) -> Limits {
        match self.way {
            Way::Without => Limits::USUAL,
            Way::Within(limits) => limits,
        }
    }

    /// How many of the names occur.
    fn names(&self) -> usize {
        let text = Text::of(&self.sheet.bytes);
        let names = text.declared("name");
        names.iter().filter(|name| text.occurs(name)).count()
    }

    fn has_values(&self) -> bool {
        let text = Text::of(&self.sheet.bytes);
        !text.declared("value").is_empty()
    }
}

/// A bound that calls are to meet: its words, the outcome that the second checker has for the sheet, and whether the sheet meets it.
type Bound = (&'static str, Refusal, fn(&Asked) -> bool);

const BOUNDS: [Bound; 26] = [
    ("9 places", 0, |a| a.places() == 9),
    ("10 places", 0, |a| a.places() == 10),
    ("11 places", 0, |a| a.places() == 11),
    ("12 places", 0, |a| a.places() == 12),
    ("over 8 places, and one name that occurs", 0, |a| {
        a.places() > 8 && a.names() == 1
    }),
    ("over 8 places, and two names that occur", 0, |a| {
        a.places() > 8 && a.names() == 2
    }),
    ("over 8 places, and values", 0, |a| {
        a.places() > 8 && a.has_values()
    }),
    ("over 8 places, and over one round", 0, |a| {
        a.places() > 8 && a.rounds > 1
    }),
    ("over 64 formulas", 0, |a| a.formulas() > 64),
    ("128 formulas", 0, |a| a.formulas() == 128),
    ("over 8 places and over 64 formulas", 0, |a| {
        a.places() > 8 && a.formulas() > 64
    }),
    ("a lean limit under 7", 0, |a| a.limits().lean < 7),
    ("as many places as the limit", 0, |a| {
        a.places() == a.limits().lean
    }),
    ("as many formulas as the limit", 0, |a| {
        a.formulas() == a.limits().closure
    }),
    ("a place more than the limit", 10, |a| {
        a.places() == a.limits().lean + 1
    }),
    ("a formula more than the limit", 9, |a| {
        a.formulas() == a.limits().closure + 1
    }),
    ("over 12 places", 10, |a| a.places() > 12),
    ("over 128 formulas", 9, |a| a.formulas() > 128),
    ("too many places and too many formulas", 9, |a| {
        a.places() > a.limits().lean && a.formulas() > a.limits().closure
    }),
    ("a lean limit of 0", 19, |a| a.limits().lean == 0),
    ("a lean limit of 13", 19, |a| a.limits().lean == 13),
    ("a closure limit of 15", 19, |a| a.limits().closure == 15),
    ("a closure limit of 129", 19, |a| a.limits().closure == 129),
    ("a limit over 255", 19, |a| {
        a.limits().lean.max(a.limits().closure) > 255
    }),
    ("an empty sheet", 19, |a| a.sheet.bytes.is_empty()),
    ("a sheet that is refused within all limits", 19, |a| {
        a.size.is_none()
    }),
];

/// How many sheets met each bound, and how many calls were about accepted sheets with over 8 places.
#[derive(Default)]
pub struct Bounds {
    counts: [u64; BOUNDS.len()],
    about_large: u64,
}

impl Bounds {
    /// A sheet that so many calls are about.
    pub fn count(&mut self, asked: &Asked, calls: u64) {
        for (count, (_, outcome, meets)) in self.counts.iter_mut().zip(BOUNDS) {
            *count += u64::from(asked.outcome == outcome && meets(asked));
        }
        if asked.outcome == 0 && asked.places() > 8 {
            self.about_large += calls;
        }
    }

    /// Adds those of others.
    pub fn add(&mut self, other: &Bounds) {
        for (place, count) in other.counts.iter().enumerate() {
            self.counts[place] += count;
        }
        self.about_large += other.about_large;
    }

    /// Those that no sheet met.
    pub fn missing(&self) -> Vec<&'static str> {
        (0..BOUNDS.len())
            .filter(|&place| self.counts[place] == 0)
            .map(|place| BOUNDS[place].0)
            .collect()
    }
}

impl fmt::Display for Bounds {
    /// A line for each bound, and for the calls about large sheets.
    fn fmt(&self, f: &mut fmt::Formatter<'_>) -> fmt::Result {
        for ((bound, outcome, _), count) in BOUNDS.iter().zip(self.counts) {
            write_shape(f, bound, *outcome, count)?;
        }
        writeln!(
            f,
            "{} calls about accepted sheets with over 8 places",
            self.about_large
        )
    }
}
