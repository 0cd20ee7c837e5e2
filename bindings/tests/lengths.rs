//! The lengths that `Limits` gives are those that the second checker and the library ask for, and no more than the largest sheets need.

#[path = "compare/rules.rs"]
mod rules;

use lockgraph::{
    book_within, list_within, table_within, Limits, Refusal, BOOK_WORDS, LIST_NUMBERS, TABLE_WORDS,
};
use rules::rules_within;
use second_checker::closure::accept;

/// Two names, and as many places in all as the limit allows; one name where it allows one.
fn largest(limits: Limits) -> String {
    match limits.lean {
        1 => String::from("v\nname\ngoal v\n"),
        lean => {
            let steps = "EX{f}".repeat(lean - 2);
            format!("v w f\nname name field\ngoal {steps}(v&w)\n")
        }
    }
}

fn all_limits() -> impl Iterator<Item = Limits> {
    (1..=12).map(|lean| Limits {
        lean,
        ..Limits::USUAL
    })
}

#[test]
fn the_largest_sheets_need_them() {
    for limits in all_limits() {
        let sheet = largest(limits);
        let accepted = accept(rules_within(limits), sheet.as_bytes()).expect("a sound sheet");
        assert_eq!(accepted.lean.len(), limits.lean);
        assert_eq!(accepted.limits.table_words(), limits.table_words());
        assert_eq!(accepted.words(), limits.table_words());
        let book = accepted.namings() * accepted.words() as u64;
        assert_eq!(book, limits.book_words() as u64);
        assert_eq!(accepted.types(), limits.list_numbers());
    }
}

#[test]
fn the_library_asks_for_them() {
    for limits in all_limits() {
        let sheet = largest(limits);
        let sheet = sheet.as_bytes();
        let words = limits.table_words();
        let (first, second) = (&mut vec![0; words], &mut vec![0; words]);
        let table = table_within(limits, sheet, 0, first, second).expect("enough words");
        let (found, left) = (table.words.len(), table.left as usize);
        assert_eq!(found, words);
        let short = &mut vec![0; words - 1];
        let refused = table_within(limits, sheet, 0, first, short);
        assert_eq!(refused, Err(Refusal::Store));
        let numbers = &mut vec![0; limits.list_numbers()];
        let listed = list_within(limits, sheet, 0, numbers).expect("enough numbers");
        assert_eq!(listed.len(), left);
    }
}

#[test]
fn a_book_has_them() {
    for limits in all_limits().take(7) {
        let sheet = largest(limits);
        let store = &mut vec![0; limits.book_words()];
        let book = book_within(limits, sheet.as_bytes(), store).expect("enough words");
        assert_eq!(book.words.len(), limits.book_words());
        let short = &mut vec![0; limits.book_words() - 1];
        let refused = book_within(limits, sheet.as_bytes(), short);
        assert_eq!(refused, Err(Refusal::Store));
    }
}

#[test]
fn the_constants_are_those_of_the_usual_limits() {
    assert_eq!(Limits::USUAL.table_words(), TABLE_WORDS);
    assert_eq!(Limits::USUAL.book_words(), BOOK_WORDS);
    assert_eq!(Limits::USUAL.list_numbers(), LIST_NUMBERS);
}

#[test]
fn out_of_the_range_they_are_the_nearest() {
    let lengths = |lean| {
        let limits = Limits {
            lean,
            ..Limits::USUAL
        };
        [
            limits.table_words(),
            limits.book_words(),
            limits.list_numbers(),
        ]
    };
    assert_eq!(lengths(0), lengths(1));
    assert_eq!(lengths(13), lengths(12));
    assert_eq!(lengths(usize::MAX), lengths(12));
}
