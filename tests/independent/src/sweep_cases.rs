//! Command lines and inputs for the program that sweeps a table.

use crate::damage;
use crate::limits;
use crate::line::LINE_BYTES;
use crate::overflow_programs;
use crate::program::Program;
use crate::random::Random;
use crate::replay_sweep::some_budget;
use crate::row::ROW_BYTES;
use crate::run_cases::{self, Case};
use crate::sweep_map_cases;
use crate::sweep_programs;
use crate::sweep_word_cases;
use crate::text;

/// The fixed cases, then `count` random ones.
pub fn cases(seed: u64, count: usize) -> Vec<Case> {
    let mut rng = Random::new(seed);
    let mut cases = listing();
    cases.extend(by_hand());
    cases.extend(overflows());
    cases.extend(turned_away());
    cases.extend(unreadable(&["", "list", "budget=20 v1=1"], "list v1=1"));
    cases.extend(sweep_word_cases::all());
    cases.extend(sweep_map_cases::all());
    cases.extend((0..count).map(|_| random(&mut rng)));
    cases
}

/// A case from words that have no space in them and hardened bytes.
pub fn sweep(words: &str, lines: &[u8]) -> Case {
    run_cases::case(words, text::lines(lines, LINE_BYTES).as_bytes())
}

/// 01's listing: the worked budgets, each up to 20, and the largest, listed and not.
fn listing() -> Vec<Case> {
    let lines = damage::hardened(&limits::worked_listing());
    let mut cases = Vec::new();
    for words in ["budget=20 v1=1", "budget=12 v1=1", "budget=11 v1=1", "v1=1", "", "budget=0"] {
        cases.push(sweep(words, &lines));
        cases.push(sweep(&format!("{words} list"), &lines));
        cases.push(sweep(&format!("list {words}"), &lines));
    }
    for budget in 0..=20 {
        cases.push(sweep(&format!("v1=1 budget={budget}"), &lines));
        cases.push(sweep(&format!("budget={budget} list v1=1"), &lines));
    }
    for v1 in [0, 2, 3, 65_534, 65_535] {
        cases.push(sweep(&format!("v1={v1} v7=7 list"), &lines));
    }
    // the newline behind the last line may be missing
    let text = text::lines(&lines, LINE_BYTES);
    cases.push(run_cases::case("v1=1 list", text.trim_end().as_bytes()));
    cases
}

/// The programs by hand, with the budget that they need, one less and the largest; an
/// answer of more than 65,536 bytes.
fn by_hand() -> Vec<Case> {
    let mut cases = Vec::new();
    for program in sweep_programs::by_hand() {
        let steps = sweep_programs::finishes_in(&program, 600).expect("it finishes");
        for budget in [steps - 1, steps, steps + 1, 3 * steps] {
            cases.push(of(&program, &format!("budget={budget} list")));
        }
        cases.push(of(&program, ""));
        cases.push(of(&program, "list"));
    }
    cases.push(of(&sweep_programs::long_list(), "list budget=1500"));
    cases
}

/// Programs that finish at an edge, with just the budget that they need and with the
/// largest; programs that overflow.
fn overflows() -> Vec<Case> {
    let mut cases = Vec::new();
    for program in overflow_programs::finishing() {
        let steps = sweep_programs::finishes_in(&program, 600).expect("it finishes");
        for words in [format!("budget={steps} list"), "list".to_string(), String::new()] {
            cases.push(of(&program, &words));
        }
    }
    let overflowing = overflow_programs::overflowing();
    cases.extend(overflowing.iter().map(|program| of(program, "list")));
    cases
}

/// A program with its first values.
pub fn of(program: &Program, words: &str) -> Case {
    let values = run_cases::given(&program.variables);
    sweep(&format!("{values} {words}"), &damage::hardened(&program.rows))
}

/// 10 and 13, with nothing listed.
fn turned_away() -> Vec<Case> {
    let lines = damage::hardened(&limits::worked_listing());
    let mut cases = vec![sweep("", &[]), sweep("list", &[]), sweep("list v1=1", &lines[20..])];
    for program in sweep_programs::never_finished() {
        for words in ["", "list", "budget=0", "budget=64 list", "list budget=500"] {
            cases.push(of(&program, words));
        }
    }
    cases.extend(no_hardening("list", 1, 60));
    cases
}

/// Tables beyond the limits, and damaged ones: no source table hardens to most of them.
pub fn no_hardening(word: &str, seed: u64, count: usize) -> Vec<Case> {
    let lines = damage::hardened(&limits::worked_listing());
    let mut cases = Vec::new();
    for lines in damage::beyond_limits() {
        cases.push(sweep(&format!("{word} budget=9"), &lines));
    }
    let mut rng = Random::new(seed);
    for _ in 0..count {
        let words = format!("{word} budget=90 v1=1");
        cases.push(sweep(&words, &damage::any(&mut rng, &lines)));
    }
    cases
}

/// Malformed lines, and rows where lines are wanted; each line bad in every way with the
/// words `each_way`.
pub fn unreadable(all_words: &[&str], each_way: &str) -> Vec<Case> {
    let rows = text::lines(&limits::worked_listing(), ROW_BYTES).into_bytes();
    let lines = damage::hardened(&limits::worked_listing());
    let lines = text::lines(&lines, LINE_BYTES).into_bytes();
    let mut cases = Vec::new();
    for words in all_words {
        for input in [&rows[..], b"\n", b"x", b"0", b"list\n", &lines[..lines.len() - 2]] {
            cases.push(run_cases::case(words, input));
        }
        cases.push(run_cases::case(words, &[&lines[..], b"\n"].concat()));
        cases.push(run_cases::case(words, &[&lines[..40], b"\r", &lines[40..]].concat()));
    }
    cases.extend(run_cases::bad_lines(each_way, &lines));
    cases
}

/// A random program with its values and some budget, listed or drawn or neither; now and
/// then a damaged table.
fn random(rng: &mut Random) -> Case {
    let (program, steps) = sweep_programs::random(rng);
    let budget = match rng.percent(15) {
        true => String::new(),
        false => format!("budget={}", some_budget(rng, steps)),
    };
    let lines = damage::hardened(&program.rows);
    let what = match rng.below(10) {
        0..=5 => "list".to_string(),
        6..=8 => sweep_map_cases::random(rng, &lines),
        _ => String::new(),
    };
    let words = format!("{} {budget} {what}", run_cases::given(&program.variables));
    let lines = if rng.percent(5) { damage::any(rng, &lines) } else { lines };
    sweep(&run_cases::shuffled(rng, &words), &lines)
}
