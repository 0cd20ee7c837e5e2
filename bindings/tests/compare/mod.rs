//! Generated calls, asked of the proved library and of the second checker.
//!
//! Compared are the outcomes and every element of every lent store, which is filled with a pattern before each call: after a refusal all
//! of it is as it was, otherwise all but the promised part. Each call is made through the safe function, and again as a program in C makes
//! it, with `out` for a further store. The calls come in blocks, and a block is the same for the same seed and number.

mod calls;
pub mod cleans;
mod larger;
mod limits;
mod names;
mod outcomes;
mod rules;
mod second;
mod seen;
mod sheets;
mod spelling;
mod stores;
mod text;
mod told;
mod values;
mod ways;
pub mod within;

use calls::Calls;
use rules::rules;
use second_checker::closure::accept;
use second_checker::generate::Chance;
use seen::Seen;
use sheets::Sheet;
use std::sync::atomic::{AtomicU64, Ordering};
use std::thread;
use stores::Stores;

/// So many calls has a block: most about a sound sheet, the others about a changed one.
const BLOCK: u64 = 40;
const ABOUT_SOUND: u64 = 32;

const THREADS: usize = 2;
/// Over what the library and the second checker's recursion need.
const STACK: usize = 8 << 20;
/// So many calls that differ are kept by each thread; all are counted.
const KEPT: usize = 10;

/// What came of calls.
#[derive(Default)]
pub struct Comparison {
    /// The outcomes of all calls, by the second checker.
    pub seen: Seen,
    /// How many calls differ.
    pub differ: u64,
    /// The first calls that differ, each with its sheet and both outcomes.
    pub faults: Vec<String>,
}

/// Makes so many calls, the same ones for the same seed. In one of `twice` blocks each operation of the second checker is asked itself;
/// in the others its answers are put together from what it said before about the same sheet.
pub fn compare(calls: u64, seed: u64, twice: u64) -> Comparison {
    let next = AtomicU64::new(0);
    let work = || {
        let (mut comparison, mut stores) = (Comparison::default(), Stores::default());
        each_block(calls, &next, |number, calls| {
            let c = &mut chance(seed, number);
            comparison.block(c, calls, number % twice == 0, &mut stores);
        });
        comparison
    };
    let mut all = Comparison::default();
    for part in on_threads(work) {
        all.add(part);
    }
    all
}

/// What each thread comes to.
fn on_threads<T: Send>(work: impl Fn() -> T + Sync) -> Vec<T> {
    thread::scope(|scope| {
        let threads: Vec<_> = (0..THREADS)
            .map(|_| {
                let builder = thread::Builder::new().stack_size(STACK);
                builder.spawn_scoped(scope, &work).expect("a thread")
            })
            .collect();
        let ends = threads.into_iter().map(|thread| thread.join());
        ends.map(|end| end.expect("a thread that ends well"))
            .collect()
    })
}

/// Takes blocks, each by its number and with its calls, until all calls are made.
fn each_block(calls: u64, next: &AtomicU64, mut block: impl FnMut(u64, u64)) {
    loop {
        let number = next.fetch_add(1, Ordering::Relaxed);
        let left = calls.saturating_sub(number.saturating_mul(BLOCK));
        if left == 0 {
            return;
        }
        block(number, left.min(BLOCK));
    }
}

/// Each block has a beginning of its own.
fn chance(seed: u64, number: u64) -> Chance {
    let seed = Chance(seed).word();
    Chance(Chance(seed ^ number).word())
}

impl Comparison {
    fn block(&mut self, c: &mut Chance, calls: u64, twice: bool, stores: &mut Stores) {
        let about_sound = calls.min(ABOUT_SOUND);
        let sound = sheets::sound(c);
        self.ask(c, &sound, about_sound, twice, stores);
        let changed = sheets::changed(c);
        self.ask(c, &changed, calls - about_sound, twice, stores);
    }

    /// Makes so many calls about a sheet.
    fn ask(&mut self, c: &mut Chance, sheet: &Sheet, calls: u64, twice: bool, stores: &mut Stores) {
        let read = accept(rules(), &sheet.bytes);
        let outcome = read.as_ref().map_or_else(|&number| number, |_| 0);
        self.seen.count_sheet(sheet, outcome, calls);
        let lent = (stores, &mut self.seen.outcomes);
        let faults = Calls::about(c, sheet, (rules(), &read), twice, lent).make(c, calls);
        self.differ += faults.len() as u64;
        self.keep(faults);
    }

    fn keep(&mut self, faults: Vec<String>) {
        let room = KEPT.saturating_sub(self.faults.len());
        self.faults.extend(faults.into_iter().take(room));
    }

    fn add(&mut self, other: Comparison) {
        self.seen.add(&other.seen);
        self.differ += other.differ;
        self.faults.extend(other.faults);
    }
}
