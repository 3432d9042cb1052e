//! Command lines and inputs for the program that runs a table at the bench, and
//! what it prints for them, or another program for its own.

use std::fs;
use std::io;
use std::path::Path;

use crate::damage;
use crate::faults;
use crate::faults_limits;
use crate::hardened_run::Jump;
use crate::limits;
use crate::line::LINE_BYTES;
use crate::machine::{Variables, NO_JUMP};
use crate::make::bytes_of;
use crate::malformed_texts;
use crate::program;
use crate::programs::Program;
use crate::protocol::Struck;
use crate::random::Random;
use crate::row::ROW_BYTES;
use crate::run_call_cases;
use crate::run_jump_cases;
use crate::run_overflow_cases;
use crate::run_trace_cases;
use crate::run_word_cases;
use crate::small_strikes::some_small_strike;
use crate::strikes::{some_strike, source_budget};
use crate::switch_limits;
use crate::text;

/// The words behind the program's name, and its standard input.
pub struct Case {
    pub words: Vec<Vec<u8>>,
    pub input: Vec<u8>,
}

/// Writes each case as `DIR/N.words`, a zero byte behind each word, and
/// `DIR/N.stdin`; what is printed for it as `DIR/expected/N.out` and `N.err`.
pub fn write(program: Program, cases: &[Case], to: &Path) -> io::Result<()> {
    let expected = to.join("expected");
    fs::create_dir_all(&expected)?;
    for (number, case) in cases.iter().enumerate() {
        let words: Vec<u8> = case.words.iter().flat_map(|word| [word, &[0][..]].concat()).collect();
        fs::write(to.join(format!("{number}.words")), words)?;
        fs::write(to.join(format!("{number}.stdin")), &case.input)?;
        let printed = program.printed(&case.words, &case.input[..])?;
        fs::write(expected.join(format!("{number}.out")), printed.out)?;
        fs::write(expected.join(format!("{number}.err")), printed.err)?;
    }
    Ok(())
}

/// The fixed cases, then `count` random ones.
pub fn cases(seed: u64, count: usize) -> Vec<Case> {
    let mut rng = Random::new(seed);
    let mut cases = listing();
    cases.extend(limit_tables());
    cases.extend(switches());
    cases.extend(turned_away());
    cases.extend(unreadable());
    cases.extend(run_word_cases::all());
    cases.extend(run_trace_cases::all());
    cases.extend(run_call_cases::all());
    cases.extend(run_overflow_cases::all());
    cases.extend(run_jump_cases::all());
    cases.extend((0..count).map(|_| random(&mut rng)));
    cases
}

/// A case from words that have no space in them.
pub fn case(words: &str, input: &[u8]) -> Case {
    let words = words.split_whitespace().map(|word| word.as_bytes().to_vec()).collect();
    Case { words, input: input.to_vec() }
}

pub fn source(words: &str, rows: &[u8]) -> Case {
    case(&format!("source {words}"), text::lines(rows, ROW_BYTES).as_bytes())
}

pub fn hardened(words: &str, lines: &[u8]) -> Case {
    case(&format!("hardened {words}"), text::lines(lines, LINE_BYTES).as_bytes())
}

/// 01's cases, each with and without `show`: (C) is the jump that is caught, (D)
/// the one that no guard can tell. Then every step and place.
fn listing() -> Vec<Case> {
    let rows = limits::worked_listing();
    let lines = damage::hardened(&rows);
    let mut cases = Vec::new();
    for show in ["", "show"] {
        for words in ["budget=20 v1=1", "v1=1", "budget=0", "budget=8 v1=1", "budget=300 v1=3"] {
            cases.push(source(&format!("{show} {words}"), &rows));
            cases.push(hardened(&format!("{words} {show}"), &lines));
        }
        for jump in ["4:6", "0:1", "0:7", "0:8", "12:0", "20:0", "65535:3", "65534:1"] {
            cases.push(hardened(&format!("budget=20 {show} v1=1 jump={jump}"), &lines));
        }
        cases.push(hardened(&format!("budget=11 v1=1 {show}"), &lines));
    }
    for step in 0..13 {
        for place in 0..9 {
            cases.push(hardened(&format!("show budget=15 v1=1 jump={step}:{place}"), &lines));
        }
    }
    cases
}

/// 16 functions open and a 17th, as many steps as a budget has, large tables.
fn limit_tables() -> Vec<Case> {
    let mut cases = Vec::new();
    let recursion = limits::recursion();
    for calls in [14, 15, 16] {
        let words = format!("v0={calls} v1=1 show");
        cases.push(source(&words, &recursion));
        cases.push(hardened(&words, &damage::hardened(&recursion)));
    }
    let endless = limits::endless(8);
    let lines = damage::hardened(&endless);
    for words in ["", "show", "show budget=65534"] {
        cases.push(source(words, &endless));
        cases.push(hardened(words, &lines));
        cases.push(hardened(&format!("{words} jump=65533:2"), &lines));
    }
    let large = limits::rows_of_all_sorts(1024);
    cases.push(source("v3=40 budget=3000 show", &large));
    cases.push(hardened("v3=40 budget=3000 show", &damage::hardened(&large)));
    cases
}

/// The worked switch each way and a loop over a switch, shown and struck; 16 cases;
/// defaults in each other, which are no step.
fn switches() -> Vec<Case> {
    let mut cases = Vec::new();
    let worked = switch_limits::worked_switch();
    let lines = damage::hardened(&worked);
    for value in [0, 10, 11, 50, 200, 65_535] {
        cases.push(source(&format!("v0={value} show"), &worked));
        cases.push(hardened(&format!("v0={value} show"), &lines));
        for place in 0..14 {
            cases.push(hardened(&format!("v0={value} show jump=1:{place}"), &lines));
        }
    }
    let bands = switch_limits::bands();
    for words in ["v15=1 show", "v15=1", "v15=2 show", "show budget=40", "v0=4 v15=1 trace"] {
        cases.push(source(words, &bands));
        cases.push(hardened(words, &damage::hardened(&bands)));
    }
    let many = switch_limits::one_switch(16);
    for value in [0, 1, 15, 16] {
        cases.push(source(&format!("show v0={value}"), &many));
        cases.push(hardened(&format!("show v0={value}"), &damage::hardened(&many)));
    }
    cases.push(source("show", &switch_limits::nested_defaults(340)));
    cases.push(source("show", &bytes_of(&switch_limits::chain(1024))));
    cases
}

/// Each number from 1 to 7, 10 and 11.
fn turned_away() -> Vec<Case> {
    let mut cases = vec![source("", &[]), hardened("show", &[])];
    for (rows, number) in limits::all() {
        if number != 0 {
            cases.push(source("show", &rows));
        }
    }
    for lines in damage::beyond_limits() {
        cases.push(hardened("show", &lines));
    }
    let mut rng = Random::new(1);
    for _ in 0..60 {
        cases.push(source("v1=1 budget=9", &faults::any(&mut rng).0));
    }
    cases.push(source("", &faults_limits::no_callee(&mut rng).0));
    let lines = damage::hardened(&limits::worked_listing());
    for _ in 0..30 {
        cases.push(hardened("show budget=9", &damage::any(&mut rng, &lines)));
    }
    cases
}

fn unreadable() -> Vec<Case> {
    let rows = text::lines(&limits::worked_listing(), ROW_BYTES).into_bytes();
    let lines = damage::hardened(&limits::worked_listing());
    let lines = text::lines(&lines, LINE_BYTES).into_bytes();
    let mut cases = Vec::new();
    for words in ["source", "hardened", "source show", "hardened show jump=0:1"] {
        for input in [&rows[..], &lines, b"\n", b"x", b"0", b"show\n", b"010000000000\r\n"] {
            cases.push(case(words, input));
        }
        cases.push(case(words, &rows[..rows.len() - 1]));
        cases.push(case(words, &lines[..lines.len() - 2]));
        cases.push(case(words, &[&rows[..], b"\n"].concat()));
    }
    cases.extend(bad_lines("source", &rows));
    cases.extend(bad_lines("hardened", &lines));
    cases
}

/// Each malformed line behind the right ones.
pub fn bad_lines(run: &str, right: &[u8]) -> Vec<Case> {
    let first = right.split(|byte| *byte == b'\n').next().expect("a line");
    let good = str::from_utf8(first).expect("digits");
    let bad = malformed_texts::bad_lines(good);
    bad.iter().map(|(_, line)| case(run, &[right, line, b"\n"].concat())).collect()
}

/// A random program with random values, budget and jump; now and then a damaged
/// table.
fn random(rng: &mut Random) -> Case {
    let size = rng.between(4, 28);
    let program = program::program(rng, size);
    let values = given(&program.variables);
    let show = if rng.percent(60) { "show" } else { "" };
    let trace = if rng.percent(40) { "trace" } else { "" };
    let words = format!("{values} {show} {trace}");
    if rng.percent(30) {
        let budget = source_budget(rng, &program.rows, &program.variables);
        return source(&shuffled(rng, &format!("{words} budget={budget}")), &program.rows);
    }
    let lines = damage::hardened(&program.rows);
    let words = format!("{} {words}", jump_and_budget(rng, &lines, &program.variables));
    let lines = if rng.percent(5) { damage::any(rng, &lines) } else { lines };
    hardened(&shuffled(rng, &words), &lines)
}

/// A budget and any jump or none, or a small one.
fn jump_and_budget(rng: &mut Random, lines: &[u8], variables: &Variables) -> String {
    if rng.percent(40) {
        let (Jump { k, place }, budget) = some_small_strike(rng, lines, variables);
        return format!("jump={k}:{place} budget={budget}");
    }
    let Struck { budget, k, place, .. } = some_strike(rng, lines, variables);
    match k {
        NO_JUMP => format!("budget={budget}"),
        _ => format!("jump={k}:{place} budget={budget}"),
    }
}

/// "the others may stand in any order"
pub fn shuffled(rng: &mut Random, words: &str) -> String {
    let mut left: Vec<&str> = words.split_whitespace().collect();
    let mut shuffled = Vec::new();
    while !left.is_empty() {
        shuffled.push(left.swap_remove(rng.below(left.len())));
    }
    shuffled.join(" ")
}

/// The words for these first values; a 0 is left out.
pub fn given(variables: &Variables) -> String {
    let values = variables.iter().enumerate().filter(|(_, value)| **value != 0);
    values.map(|(k, value)| format!("v{k}={value} ")).collect()
}
