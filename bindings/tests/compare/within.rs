//! Generated calls within limits, about larger sheets too, asked of the proved library and of the second checker. Some are made without
//! limits, about the same sheets.

use super::calls::Calls;
use super::larger;
use super::limits::{some_way, Asked, Bounds, Size};
use super::outcomes::Outcomes;
use super::rules::{rules, rules_within};
use super::sheets::Sheet;
use super::stores::Stores;
use super::ways::Way;
use super::{chance, each_block, on_threads, ABOUT_SOUND, KEPT};
use lockgraph::Limits;
use second_checker::closure::accept;
use second_checker::generate::Chance;
use second_checker::rules::Rules;
use std::sync::atomic::AtomicU64;

/// So many calls about a sheet are made within the same limits.
const ALIKE: u64 = 8;

/// So much, as it counts the cost, the second checker strikes for a book or a verdict; and so much for some sheets.
const PATIENCE: u64 = 1 << 22;
const MORE_PATIENCE: u64 = 1 << 25;

/// What came of calls within limits.
#[derive(Default)]
pub struct Within {
    /// The outcomes of all calls, by the second checker.
    pub outcomes: Outcomes,
    pub bounds: Bounds,
    /// How many calls differ.
    pub differ: u64,
    /// The first calls that differ, each with its sheet, limits and both outcomes.
    pub faults: Vec<String>,
}

/// Makes so many calls, the same ones for the same seed. `twice` is as for calls without limits.
pub fn compare_within(calls: u64, seed: u64, twice: u64) -> Within {
    let next = AtomicU64::new(0);
    let work = || {
        let (mut within, mut stores) = (Within::default(), Stores::default());
        each_block(calls, &next, |number, calls| {
            // Other sheets than those of the calls without limits.
            let c = &mut chance(seed.rotate_left(32), number);
            within.block(c, calls, number % twice == 0, &mut stores);
        });
        within
    };
    let mut all = Within::default();
    for part in on_threads(work) {
        all.add(part);
    }
    all
}

impl Within {
    fn block(&mut self, c: &mut Chance, calls: u64, twice: bool, stores: &mut Stores) {
        let about_sound = calls.min(ABOUT_SOUND);
        let sound = larger::sound(c);
        self.ask(c, &sound, about_sound, twice, stores);
        let changed = larger::changed(c);
        self.ask(c, &changed, calls - about_sound, twice, stores);
    }

    /// Makes so many calls about a sheet, some of them alike in their limits.
    fn ask(&mut self, c: &mut Chance, sheet: &Sheet, calls: u64, twice: bool, stores: &mut Stores) {
        let widest = rules_within(Limits::MOST);
        let read = accept(widest, &sheet.bytes);
        let size = larger::measure(&sheet.bytes).map(|(closure, lean)| Size { closure, lean });
        let lent = (stores, &mut self.outcomes);
        let mut about = Calls::about(c, sheet, (widest, &read), twice, lent);
        about.have_patience(if c.one_in(16) {
            MORE_PATIENCE
        } else {
            PATIENCE
        });
        let mut left = calls;
        while left > 0 {
            let alike = left.min(ALIKE);
            let way = some_way(c, size);
            let outcome = about.make_by(way, rules_of(way));
            let asked = Asked {
                sheet,
                size,
                way,
                outcome,
                rounds: about.first_rounds(),
            };
            self.bounds.count(&asked, alike);
            let faults = about.make(c, alike);
            self.differ += faults.len() as u64;
            let room = KEPT.saturating_sub(self.faults.len());
            self.faults.extend(faults.into_iter().take(room));
            left -= alike;
        }
    }

    /// The outcomes that an operation can have and had not. Limits have a say in 9, 10 and 19.
    pub fn missing(&self) -> Vec<(&'static str, u8)> {
        self.outcomes.missing(&[0, 9, 10, 19])
    }

    fn add(&mut self, other: Within) {
        self.outcomes.add(&other.outcomes);
        self.bounds.add(&other.bounds);
        self.differ += other.differ;
        self.faults.extend(other.faults);
    }
}

fn rules_of(way: Way) -> Rules {
    match way {
        Way::Without => rules(),
        Way::Within(limits) => rules_within(limits),
    }
}
