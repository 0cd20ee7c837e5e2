//! The rules in force for the second checker: those of document 01 and of the requests that have landed.

use lockgraph::Limits;
use second_checker::rules::Rules;

pub fn rules() -> Rules {
    let level = include_str!("../../../second_checker/LEVEL");
    Rules::at(level.trim().parse().expect("a level"))
}

/// The same, where the caller gives limits.
pub fn rules_within(limits: Limits) -> Rules {
    let rules = rules();
    assert!(rules.has(7), "limits are those of request 7");
    rules.with_limits(limits.lean as u64, limits.closure as u64)
}
