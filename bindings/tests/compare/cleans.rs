//! Clean sheets: each has the second checker's bytes, cleaning it again gives the same ones, and every question about it has the answer
//! that the sheet has.

use super::sheets::{self, Sheet};
use super::{chance, on_threads, rules};
use lockgraph::{Refusal, ROW_BYTES, TABLE_WORDS};
use second_checker::closure::accept;
use second_checker::corpus::escape;
use std::sync::atomic::{AtomicU64, Ordering};

/// So many sheets that differ are kept by each thread; all are counted.
const KEPT: usize = 10;
/// More than a clean sheet has.
const ROOM: usize = 1100;

/// What came of sheets.
#[derive(Default)]
pub struct Cleans {
    /// How many were written.
    pub cleaned: u64,
    /// How many were refused, by 18.
    pub refused: u64,
    /// How many differ.
    pub differ: u64,
    /// The first that differ.
    pub faults: Vec<String>,
}

/// Cleans so many sheets that are accepted, the same ones for the same seed.
pub fn clean_sheets(sheets: u64, seed: u64) -> Cleans {
    let next = AtomicU64::new(0);
    let work = || {
        let mut done = Cleans::default();
        loop {
            let number = next.fetch_add(1, Ordering::Relaxed);
            if sheets <= number {
                return done;
            }
            let c = &mut chance(!seed, number);
            let sheet = sheets::sound(c);
            let picture = sheet.picture(c);
            done.take(&sheet, &picture);
        }
    };
    let mut all = Cleans::default();
    for part in on_threads(work) {
        all.add(part);
    }
    all
}

impl Cleans {
    fn take(&mut self, sheet: &Sheet, picture: &[u8]) {
        let mut store = [0x80; ROOM];
        let fault = match (lockgraph::clean(&sheet.bytes, &mut store), expected(sheet)) {
            (Ok(text), Some(bytes)) if text.as_bytes() == bytes => {
                self.cleaned += 1;
                unlike(&sheet.bytes, &bytes, picture)
            }
            (Err(Refusal::Clean), None) => {
                self.refused += 1;
                None
            }
            _ => Some("it is not the second checker's"),
        };
        if let Some(fault) = fault {
            self.differ += 1;
            if self.faults.len() < KEPT {
                self.faults
                    .push(format!("sheet {}: {fault}", escape(&sheet.bytes)));
            }
        }
    }

    fn add(&mut self, other: Cleans) {
        self.cleaned += other.cleaned;
        self.refused += other.refused;
        self.differ += other.differ;
        self.faults.extend(other.faults);
    }
}

/// The second checker's clean sheet, or nothing where it refuses it.
fn expected(sheet: &Sheet) -> Option<Vec<u8>> {
    let accepted = accept(rules(), &sheet.bytes).expect("a sound sheet");
    let text = second_checker::clean::text(&accepted);
    second_checker::clean::fits(&text).then_some(text)
}

/// What is another answer about the clean sheet than about the sheet.
fn unlike(sheet: &[u8], clean: &[u8], picture: &[u8]) -> Option<&'static str> {
    let mut store = [0x80; ROOM];
    if lockgraph::clean(clean, &mut store).map(str::as_bytes) != Ok(clean) {
        return Some("cleaned again it has other bytes");
    }
    if lockgraph::verdict(clean) != lockgraph::verdict(sheet) {
        return Some("the clean sheet has another verdict");
    }
    if tables(clean) != tables(sheet) {
        return Some("the clean sheet has another table");
    }
    (row(clean, picture) != row(sheet, picture)).then_some("the clean sheet has another row")
}

/// The counts and the words of the first two namings.
fn tables(sheet: &[u8]) -> [Result<([u64; 3], Vec<u64>), Refusal>; 2] {
    [0, 1].map(|naming| {
        let (mut first, mut second) = ([0; TABLE_WORDS], [0; TABLE_WORDS]);
        lockgraph::table(sheet, naming, &mut first, &mut second).map(|table| {
            let counts = [table.start, table.left, table.rounds];
            (counts, table.words.to_vec())
        })
    })
}

fn row(sheet: &[u8], picture: &[u8]) -> Result<Vec<u8>, Refusal> {
    let mut row = [0; ROW_BYTES];
    lockgraph::snapshot(sheet, picture, &mut row).map(<[u8]>::to_vec)
}
