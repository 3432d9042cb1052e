//! Every short table with a few first values. Used by tests only.

use independent::by_name;
use independent::check;
use independent::program::Program;

use crate::letters;

/// Every table of up to seven rows over thirteen sorts of them. With v15 = 1 a do counts v0
/// up: an if and the case 1 are taken at 1, a loop ends at 3, and past 65,535 it overflows.
pub fn programs() -> Vec<Program> {
    let alphabet: Vec<char> = "fdielbcas12*.".chars().collect();
    let mut programs = Vec::new();
    for length in 0..=5_u32 {
        for code in 0..13_usize.pow(length) {
            let letter = |at| alphabet[code / 13_usize.pow(at) % 13];
            let inner: String = (0..length).map(letter).collect();
            let rows = letters::rows(&format!("f{inner}."));
            if check(&rows) == 0 {
                let of = |v0| by_name::of(rows.clone(), &[(0, v0), (15, 1)]);
                programs.extend([0, 1, 2, 65_534].map(of));
            }
        }
    }
    programs
}
