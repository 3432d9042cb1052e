//! Command lines and inputs for the program that sweeps a table: those that ask for the map.

use crate::by_name::{self, call, functions};
use crate::damage;
use crate::hardened_run::spans_of;
use crate::limits;
use crate::line::{self, LINE_BYTES};
use crate::overflow_programs::{self, by_turns};
use crate::program::Program;
use crate::random::Random;
use crate::run_cases::{self, Case};
use crate::sweep_cases::{no_hardening, of, sweep, unreadable};
use crate::sweep_programs;
use crate::text;

/// The fixed ones.
pub fn all() -> Vec<Case> {
    let mut cases = listing();
    cases.extend(by_hand());
    cases.extend(many_pieces());
    cases.extend(large());
    cases.extend(turned_away());
    cases.extend(unreadable(&["map", "map function=9 v1=1"], "map v1=1"));
    cases
}

/// The words for a map of a random function, one that is there or none.
pub fn random(rng: &mut Random, lines: &[u8]) -> String {
    match rng.below(10) {
        0..=1 => "map".to_string(),
        2..=8 => format!("map function={}", rng.below(functions_of(lines))),
        _ => format!("map function={}", rng.below(32)),
    }
}

fn functions_of(lines: &[u8]) -> usize {
    spans_of(&line::from_bytes(lines)).len()
}

/// 01's listing: every budget that its run finishes in up to 20, and one less; other values,
/// with budgets that are just enough; functions that are not there.
fn listing() -> Vec<Case> {
    let lines = damage::hardened(&limits::worked_listing());
    let mut cases = Vec::new();
    for budget in 11..=20 {
        cases.push(sweep(&format!("v1=1 budget={budget} map"), &lines));
    }
    for words in [
        "map v1=1",
        "v1=1 map function=0",
        "function=0000 budget=020 v1=01 map",
        "map v1=2",
        "map v1=2 budget=7",
        "map v1=2 budget=8",
        "map v1=2 budget=9 v0=9",
        "map v1=1 v0=1",
        "map v1=1 v0=65535 budget=13 v7=7",
        "map v1=3",
        "map",
        "map budget=0",
        "map function=1",
        "map function=1 v1=1",
        "v1=1 budget=12 function=31 map",
        "function=0031 v1=1 map",
        "v1=1 budget=11 function=31 map",
    ] {
        cases.push(sweep(words, &lines));
    }
    // the newline behind the last line may be missing
    let text = text::lines(&lines, LINE_BYTES);
    cases.push(run_cases::case("v1=1 map", text.trim_end().as_bytes()));
    cases
}

/// The programs by hand and those at the edge of a sum: functions that are called and that
/// are not, with just the budget, in which late alarms do not come, and with more.
fn by_hand() -> Vec<Case> {
    let mut cases = Vec::new();
    for program in sweep_programs::by_hand().into_iter().chain(overflow_programs::finishing()) {
        let steps = sweep_programs::finishes_in(&program, 600).expect("it finishes");
        for function in some_functions(&program) {
            for budget in [steps, 3 * steps] {
                cases.push(of(&program, &format!("budget={budget} map function={function}")));
            }
        }
        cases.push(of(&program, &format!("map budget={}", steps + 1)));
    }
    cases
}

/// The first three, the last, and the one behind it, which is not there.
fn some_functions(program: &Program) -> Vec<usize> {
    let count = functions_of(&damage::hardened(&program.rows));
    let mut numbers: Vec<usize> = (0..count.min(3)).collect();
    numbers.extend([count - 1, count]);
    numbers.dedup();
    numbers
}

/// A column with seven to twelve pieces that are not finished, of which eight are drawn; the
/// do above them, below and between; in a function that is called, and beside it.
fn many_pieces() -> Vec<Case> {
    let mut cases = Vec::new();
    for (before, behind) in [(7, 0), (8, 0), (9, 0), (10, 0), (0, 8), (0, 9), (4, 5), (6, 6)] {
        let rows = by_turns(before, behind);
        let program = by_name::of(functions(&[&rows]), &[(1, 65_535)]);
        let steps = sweep_programs::finishes_in(&program, 600).expect("it finishes");
        cases.push(of(&program, "map"));
        cases.push(of(&program, &format!("map budget={steps}")));
        let called = functions(&[&[call(1)], &rows]);
        let called = by_name::of(called, &[(1, 65_535)]);
        cases.push(of(&called, "map"));
        cases.push(of(&called, "map function=1"));
    }
    cases
}

/// Functions of some hundred lines; one of many that is never called; 32 functions.
fn large() -> Vec<Case> {
    let mut cases = Vec::new();
    let rows = by_name::of(limits::rows(130), &[]);
    cases.push(of(&rows, "map budget=500"));
    cases.push(of(&sweep_programs::long_list(), "budget=1500 map"));
    let sorts = damage::hardened(&limits::rows_of_all_sorts(1024));
    for function in [0, 1, 30, 31] {
        cases.push(sweep(&format!("map budget=9 function={function}"), &sorts));
    }
    cases
}

/// 10 and 13, with nothing drawn, whatever the function.
fn turned_away() -> Vec<Case> {
    let lines = damage::hardened(&limits::worked_listing());
    let mut cases = vec![sweep("map", &[]), sweep("map function=1 v1=1", &lines[20..])];
    let never = sweep_programs::never_finished().into_iter();
    for program in never.chain(overflow_programs::overflowing()) {
        cases.push(of(&program, "map budget=500"));
        cases.push(of(&program, "function=31 map budget=64"));
    }
    cases.extend(no_hardening("map", 2, 20));
    cases
}
