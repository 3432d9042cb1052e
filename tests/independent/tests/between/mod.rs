//! Whether a guard is between two places (01, "The hardened lines"). Used by tests only.

use independent::line::Line;

/// "A guard is between two places if one of the lines from the lower place to just below
/// the higher is a guard; a jump between such places is wide."
pub fn wide(function: &[Line], one: usize, other: usize) -> bool {
    function[one.min(other)..one.max(other)].iter().any(Line::is_guard)
}
