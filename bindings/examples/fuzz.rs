//! fuzz N SEED: makes N generated calls to the proved library and the second checker, and compares them.
//! fuzz N SEED limits: the same within limits drawn at random, with larger sheets; some of the calls are without limits.
//! fuzz N SEED clean: cleans N generated sheets, and compares the clean sheets with the second checker's, and what is said of each with
//! what is said of its sheet.
//!
//! It prints the first calls that differ, with all that is needed to repeat them; how often each operation had each outcome, and how
//! many sheets had each spelling and each declaration of values that matters, or met each bound; and as the last line `N compared, M differ`,
//! `N calls under limits, M differ` or `N sheets cleaned, M differ`. The exit status is 0 if none differs.

#[path = "../tests/compare/mod.rs"]
mod compare;

use compare::cleans::clean_sheets;
use compare::compare;
use compare::within::compare_within;
use std::process::ExitCode;

/// In one of so many blocks the second checker's own operations are asked, which takes much longer; within limits some of the sheets
/// take longer still.
const TWICE: u64 = 16;
const TWICE_WITHIN: u64 = 64;

fn main() -> ExitCode {
    let words: Vec<String> = std::env::args().skip(1).collect();
    let words: Vec<&str> = words.iter().map(String::as_str).collect();
    match words[..] {
        [calls, seed] => with_numbers(calls, seed, fuzz),
        [calls, seed, "limits"] => with_numbers(calls, seed, limits),
        [sheets, seed, "clean"] => with_numbers(sheets, seed, clean),
        _ => usage(),
    }
}

fn usage() -> ExitCode {
    eprintln!("fuzz N SEED: two numbers; a third word may be limits or clean");
    ExitCode::from(2)
}

fn with_numbers(many: &str, seed: &str, run: fn(u64, u64) -> u64) -> ExitCode {
    match (many.parse(), seed.parse()) {
        (Ok(many), Ok(seed)) => ExitCode::from(u8::from(run(many, seed) > 0)),
        _ => usage(),
    }
}

/// How many sheets differ.
fn clean(sheets: u64, seed: u64) -> u64 {
    let done = clean_sheets(sheets, seed);
    for fault in &done.faults {
        println!("{fault}");
    }
    println!(
        "clean: {} written, {} refused 18",
        done.cleaned, done.refused
    );
    println!("{sheets} sheets cleaned, {} differ", done.differ);
    done.differ
}

/// How many calls differ.
fn fuzz(calls: u64, seed: u64) -> u64 {
    let done = compare(calls, seed, TWICE);
    for fault in &done.faults {
        println!("{fault}");
    }
    print!("{}", done.seen);
    print_missing(&done.seen.missing());
    for shape in done.seen.missing_shapes() {
        println!("{shape}: no sheet");
    }
    println!("{} compared, {} differ", done.seen.calls(), done.differ);
    done.differ
}

/// How many calls differ.
fn limits(calls: u64, seed: u64) -> u64 {
    let done = compare_within(calls, seed, TWICE_WITHIN);
    for fault in &done.faults {
        println!("{fault}");
    }
    print!("{}{}", done.outcomes, done.bounds);
    print_missing(&done.missing());
    for bound in done.bounds.missing() {
        println!("{bound}: no sheet");
    }
    let calls = done.outcomes.calls();
    println!("{calls} calls under limits, {} differ", done.differ);
    done.differ
}

fn print_missing(outcomes: &[(&str, u8)]) {
    for (operation, number) in outcomes {
        println!("{operation}: no call with outcome {number}");
    }
}
