//! 01, "To run": the limit cases, and those of a switch.

mod flat_chain;

use independent::limits;
use independent::{check, damage, harden, read_back, run_hardened, run_source, Ran};

const NO_JUMP: u16 = 65_535;

#[test]
fn rows_functions_open_and_regions() {
    for (rows, number) in limits::all() {
        assert_eq!(check(&rows), number, "{} rows", rows.len() / 6);
        let mut out = vec![1; 50_000];
        let written = harden(&rows, &mut out);
        assert_eq!(written.number, number);
        if number != 0 {
            assert_eq!(written.length, 0);
            assert!(out.iter().all(|b| *b == 1));
        }
    }
    assert_eq!(limits::rows(1024).len(), 6 * 1024);
    assert_eq!(limits::rows_of_all_sorts(1024).len(), 6 * 1024);
    assert_eq!(limits::rows_of_all_sorts(1025).len(), 6 * 1025);
}

#[test]
fn output_exact_and_one_byte_short() {
    for (rows, number) in limits::all() {
        if number != 0 {
            continue;
        }
        let lines = damage::hardened(&rows);
        let mut out = vec![1; lines.len()];
        assert_eq!(harden(&rows, &mut out).number, 0);
        assert_eq!(out, lines);
        let mut out = vec![1; lines.len() - 1];
        let written = harden(&rows, &mut out);
        assert_eq!((written.number, written.length), (8, 0));
        assert!(out.iter().all(|b| *b == 1));
        read_back_exact_and_short(&flat_chain::chain(&rows), &lines);
    }
}

fn read_back_exact_and_short(rows: &[u8], lines: &[u8]) {
    let mut out = vec![1; rows.len()];
    assert_eq!(read_back(lines, &mut out).length, rows.len());
    assert_eq!(out, rows);
    let mut out = vec![1; rows.len() - 1];
    let written = read_back(lines, &mut out);
    assert_eq!((written.number, written.length), (8, 0));
    assert!(out.iter().all(|b| *b == 1));
}

#[test]
fn lines_beyond_the_limits_are_no_tables() {
    for lines in damage::beyond_limits() {
        let mut out = vec![1; 7000];
        let written = read_back(&lines, &mut out);
        assert_eq!((written.number, written.length), (10, 0));
        assert!(out.iter().all(|b| *b == 1));
    }
}

/// v0 calls, so v0 + 1 functions open at the deepest.
fn both(calls: u16) -> (Ran, Ran) {
    let rows = limits::recursion();
    let mut values = [0; 16];
    values[0] = calls;
    values[1] = 1;
    let mut slots = vec![0; 500];
    let source = run_source(&rows, &values, 500, &mut slots);
    let lines = damage::hardened(&rows);
    let mut words = vec![5; 1024];
    let hardened = run_hardened(&lines, &values, 500, NO_JUMP, 0, &mut slots, &mut words);
    (source, hardened)
}

#[test]
fn recursion_to_16_and_17() {
    let (source, hardened) = both(15);
    // Fifteen times if, do, call; once if; sixteen ends of function and fifteen
    // ends of if.
    assert_eq!((source.outcome, source.steps, source.traced), (1, 45 + 1 + 16 + 15, 15));
    assert_eq!((hardened.outcome, hardened.steps, hardened.traced), (1, 77 + 15 + 15, 15));
    let (source, hardened) = both(16);
    // Sixteen times if, do, call; the last call is counted and not made.
    assert_eq!((source.outcome, source.steps, source.traced), (3, 48, 16));
    assert_eq!((hardened.outcome, hardened.steps, hardened.traced), (3, 48 + 16, 16));
}

#[test]
fn slots_equal_to_the_budget_and_one_fewer() {
    let rows = limits::worked_listing();
    let lines = damage::hardened(&rows);
    let values: [u16; 16] = std::array::from_fn(|i| i as u16 + 100);
    for budget in [0, 1, 2, 20, 65_535] {
        let mut slots = vec![9; usize::from(budget)];
        let mut words = vec![9; 1024];
        assert_eq!(run_source(&rows, &values, budget, &mut slots).number, 0);
        let ran = run_hardened(&lines, &values, budget, 3, 4, &mut slots, &mut words);
        assert_eq!(ran.number, 0);
        if budget > 0 {
            one_slot_fewer(&rows, &lines, &values, budget);
        }
    }
}

fn one_slot_fewer(rows: &[u8], lines: &[u8], values: &[u16; 16], budget: u16) {
    let refused = Ran { number: 9, outcome: 0, steps: 0, traced: 0, variables: *values };
    let mut slots = vec![9; usize::from(budget) - 1];
    let mut words = vec![9; 1024];
    assert_eq!(run_source(rows, values, budget, &mut slots), refused);
    let ran = run_hardened(lines, values, budget, 3, 4, &mut slots, &mut words);
    assert_eq!(ran, refused);
    assert!(slots.iter().chain(&words).all(|x| *x == 9));
}

#[test]
fn counter_words() {
    let lines = damage::hardened(&limits::worked_listing());
    let values = [3; 16];
    let mut slots = vec![9; 20];
    for (length, number) in [(0, 9), (1023, 9), (1024, 0), (1100, 0)] {
        let mut words = vec![9; length];
        let ran = run_hardened(&lines, &values, 20, NO_JUMP, 0, &mut slots, &mut words);
        assert_eq!(ran.number, number);
        let zeros = if number == 0 { 1024 } else { 0 };
        assert!(words[..zeros].iter().all(|w| *w == 0));
        assert!(words[zeros..].iter().all(|w| *w == 9));
    }
}

#[test]
fn ten_comes_before_nine_and_one_to_seven_too() {
    let rows = limits::worked_listing();
    let lines = damage::hardened(&rows);
    let mut slots = [9; 3];
    let mut words = [9; 5];
    let ran = run_hardened(&lines[20..], &[1; 16], 9, 0, 0, &mut slots, &mut words);
    assert_eq!(ran, Ran { number: 10, outcome: 0, steps: 0, traced: 0, variables: [1; 16] });
    let ran = run_source(&rows[..30], &[1; 16], 9, &mut slots);
    assert_eq!(ran, Ran { number: 4, outcome: 0, steps: 0, traced: 0, variables: [1; 16] });
    assert_eq!((slots, words), ([9; 3], [9; 5]));
}

#[test]
fn the_largest_budget() {
    let rows = limits::endless(8);
    let lines = damage::hardened(&rows);
    let mut slots = vec![9; 65_535];
    let ran = run_source(&rows, &[0; 16], 65_535, &mut slots);
    assert_eq!((ran.outcome, ran.steps, ran.traced), (0, 65_535, 6553 * 8 + 4));
    let mut words = vec![9; 1024];
    let ran = run_hardened(&lines, &[0; 16], 65_535, NO_JUMP, 0, &mut slots, &mut words);
    assert_eq!((ran.outcome, ran.steps), (0, 65_535));
    // before the last budgeted step, a jump to m: the host sees it
    let ran = run_hardened(&lines, &[0; 16], 65_535, 65_534, 19, &mut slots, &mut words);
    assert_eq!((ran.outcome, ran.steps), (2, 65_535));
    let ran = run_hardened(&lines, &[0; 16], 65_535, 65_534, 20, &mut slots, &mut words);
    assert_eq!((ran.outcome, ran.steps), (4, 65_534));
}
