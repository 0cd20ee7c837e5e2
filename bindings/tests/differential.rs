//! The proved library and the second checker give the same outcomes and leave the same stores.
//!
//! Here each call without limits is also asked of the second checker's own operation. `bench/fuzz` makes more calls, of any seed.

mod compare;

use compare::cleans::clean_sheets;
use compare::compare;
use compare::within::compare_within;

const CALLS: u64 = 20_000;
const CALLS_WITHIN: u64 = 10_000;
const SHEETS: u64 = 2_000;
const SEED: u64 = 1;
/// Of the blocks of calls within limits one of so many is asked of the second checker's own operation: large sheets take it long.
const TWICE: u64 = 16;

#[test]
fn same_outcomes_and_stores() {
    let done = compare(CALLS, SEED, 1);
    let faults = done.faults.join("\n");
    assert_eq!(done.differ, 0, "calls differ, the first of them:\n{faults}");
    assert_eq!(done.seen.calls(), CALLS);
    assert_eq!(done.seen.missing(), [], "outcomes that no call had");
    let none: [&str; 0] = [];
    assert_eq!(done.seen.missing_shapes(), none, "shapes that no sheet had");
}

#[test]
fn same_outcomes_and_stores_within_limits() {
    let done = compare_within(CALLS_WITHIN, SEED, TWICE);
    let faults = done.faults.join("\n");
    assert_eq!(done.differ, 0, "calls differ, the first of them:\n{faults}");
    assert_eq!(done.outcomes.calls(), CALLS_WITHIN);
    assert_eq!(done.missing(), [], "outcomes that no call had");
    let none: [&str; 0] = [];
    assert_eq!(done.bounds.missing(), none, "bounds that no sheet met");
}

#[test]
fn clean_sheets_say_the_same() {
    let done = clean_sheets(SHEETS, SEED);
    let faults = done.faults.join("\n");
    assert_eq!(
        done.differ, 0,
        "sheets differ, the first of them:\n{faults}"
    );
    assert_eq!(done.cleaned + done.refused, SHEETS);
    assert!(done.refused > 0, "no sheet whose clean text is too long");
}
