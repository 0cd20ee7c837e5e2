//! Calls under given limits. The stores are lent to both, and plain Rust allocates none for its answer.

use crate::{consume, proved, race, told};
use std::cell::RefCell;
use std::hint::black_box;

/// The same limits for both.
#[derive(Clone, Copy)]
pub struct Limits {
    proved: proved::Limits,
    plain: plain::Limits,
}

pub fn limits(lean: &str, closure: &str) -> Option<Limits> {
    let proved = (lean.parse().ok()?, closure.parse().ok()?);
    let plain = plain::Limits::new(proved.0, proved.1)?;
    Some(Limits { proved, plain })
}

/// Prints the times of a sheet that is accepted.
pub fn measure(path: &str, limits: Limits) {
    let sheet = &std::fs::read(path).expect("a sheet's path")[..];
    let book = agree(sheet, limits);
    let Limits { proved, plain } = limits;
    let [a, b] = race([
        &|| consume(proved::verdict_within(proved, black_box(sheet))),
        &|| consume(plain::verdict_within(black_box(sheet), plain)),
    ]);
    let [c, d] = race([
        &|| {
            consume(proved::table_within(
                proved,
                black_box(sheet),
                0,
                &mut [0; 64],
            ))
        },
        &|| {
            consume(plain::table_within(
                black_box(sheet),
                plain,
                0,
                &mut [0; 64],
            ))
        },
    ]);
    let store = RefCell::new(book);
    let [e, f] = race([
        &|| {
            consume(proved::book_within(
                proved,
                black_box(sheet),
                &mut store.borrow_mut(),
            ))
        },
        &|| {
            consume(plain::book_within(
                black_box(sheet),
                plain,
                &mut store.borrow_mut(),
            ))
        },
    ]);
    println!("{path} verdict {a:.0} {b:.0} table {c:.0} {d:.0} book {e:.0} {f:.0}");
}

/// The answers of both are the same, for the verdict, for the table of the first 64 namings, and for the book, which is handed back.
fn agree(sheet: &[u8], limits: Limits) -> Vec<u64> {
    let Limits { proved, plain } = limits;
    let verdict = told(plain::verdict_within(sheet, plain));
    assert_eq!(proved::verdict_within(proved, sheet), verdict);
    for naming in 0..64 {
        let mut words = [[0; 64]; 2];
        let one = proved::table_within(proved, sheet, naming, &mut words[0]);
        let other = plain::table_within(sheet, plain, naming, &mut words[1]);
        let counts = one.map(|[_, start, left, rounds, _]| [start, left, rounds]);
        let expected = other.map(|counts| counts.map(u64::from));
        assert_eq!(counts, expected.map_err(|refusal| refusal as u8));
        assert_eq!(words[0], words[1]);
    }
    books(sheet, limits)
}

fn books(sheet: &[u8], limits: Limits) -> Vec<u64> {
    let length = plain::book_words(sheet, limits.plain).expect("an accepted sheet");
    let mut one = vec![0; length];
    let mut other = vec![0; length];
    let namings = plain::book_within(sheet, limits.plain, &mut other).expect("an accepted sheet");
    let words = length as u64 / namings;
    assert_eq!(
        proved::book_within(limits.proved, sheet, &mut one),
        Ok([namings, words])
    );
    assert!(one == other, "different books");
    one
}
