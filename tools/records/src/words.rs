//! Words that all have in common.

/// That the two differ, with how they do.
pub fn differing(how: String) -> String {
    format!("the proved code and the second evaluator differ, so nothing is said: {how}")
}

/// What the proved code gives, and what the second evaluator does.
pub fn two(what: &str, given: &str, expected: &str) -> String {
    format!("{what}\n-- the proved code\n{given}\n-- the reference\n{expected}")
}
