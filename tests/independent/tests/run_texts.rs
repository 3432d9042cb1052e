//! The text of the program that runs a table at the bench.

mod listing;

use independent::printed::Printed;
use independent::run_text;
use independent::{limits, switch_limits, text};
use listing::{LINES, ROWS};

/// What is printed for these words, with nothing on standard error.
fn out(words: &str, input: &str) -> String {
    let words: Vec<Vec<u8>> = words.split(' ').map(|word| word.as_bytes().to_vec()).collect();
    let Printed { out, err } = run_text::run(&words, input.as_bytes()).unwrap();
    assert_eq!(String::from_utf8(err).unwrap(), "");
    out
}

fn hardened(rows: &str) -> String {
    text::harden(rows.as_bytes()).unwrap().out
}

/// Case (A), listed by hand.
#[test]
fn a_source_run_step_by_step() {
    let expected = "\
step 0 function 0 row 1 do
step 1 function 0 row 2 loop
step 2 function 0 row 3 do
step 3 function 0 row 4 end
step 4 function 0 row 2 loop
step 5 function 0 row 3 do
step 6 function 0 row 4 end
step 7 function 0 row 2 loop
step 8 function 0 row 5 end
outcome 1 finished
steps 9
trace 1 3 3
calls 0
variables 0 1 0 0 0 0 0 0 0 0 0 0 0 0 0 0
";
    assert_eq!(out("source show budget=20 v1=1", ROWS), expected);
}

/// A switch has the steps and rows of its chain, listed by hand: the second case.
#[test]
fn a_switch_step_by_step() {
    let rows = text::lines(&switch_limits::worked_switch(), 6);
    let expected = "\
step 0 function 0 row 1 if
step 1 function 0 row 4 if
step 2 function 0 row 5 do
step 3 function 0 row 6 else
step 4 function 0 row 9 end
step 5 function 0 row 10 end
outcome 1 finished
steps 6
trace 5
calls 0
variables 50 2 0 0 0 0 0 0 0 0 0 0 0 0 0 0
";
    assert_eq!(out("source show v0=50", &rows), expected);
    let chain = text::read_back(hardened(&rows).as_bytes()).unwrap().out;
    assert_eq!(out("source show v0=50", &chain), expected);
}

/// Cases (C) to (F), listed by hand.
#[test]
fn struck_runs_step_by_step() {
    let caught = "\
step 0 function 0 place 0 do
step 1 function 0 place 1 tick counter 0 holds 1
step 2 function 0 place 2 test counter 0 holds 2
step 3 function 0 place 3 do
jump to place 6
step 4 function 0 place 6 ret counter 0 holds 3
outcome 2 alarm
steps 5
trace 1 3
variables 1 1 0 0 0 0 0 0 0 0 0 0 0 0 0 0
";
    assert_eq!(out("hardened budget=20 v1=1 jump=4:6 show", LINES), caught);
    let not_caught = "\
jump to place 1
step 0 function 0 place 1 tick counter 0 holds 1
step 1 function 0 place 2 test counter 0 holds 2
step 2 function 0 place 6 ret counter 0 holds 4
jump leaves out row 1
outcome 1 finished
steps 3
trace
variables 0 1 0 0 0 0 0 0 0 0 0 0 0 0 0 0
";
    assert_eq!(out("hardened jump=0:1 show budget=20 v1=1", LINES), not_caught);
    let by_the_host = "\
jump to place 7
step 0 function 0 place 7 end counter 0 holds 1
outcome 2 alarm
steps 1
trace
variables 0 1 0 0 0 0 0 0 0 0 0 0 0 0 0 0
";
    assert_eq!(out("hardened show v1=1 jump=0:7", LINES), by_the_host);
    let beyond = "\
jump to place 8
the last place is 7
outcome 4 the place is beyond m
steps 0
trace
variables 0 1 0 0 0 0 0 0 0 0 0 0 0 0 0 0
";
    assert_eq!(out("hardened show v1=1 jump=0:8", LINES), beyond);
}

/// A leave looks at two counters, a back line at where the callee ended.
#[test]
fn leave_and_back() {
    let shown = out("hardened v1=1 show", LINES);
    assert!(
        shown.contains("\nstep 5 function 0 place 5 leave counter 1 holds 7 counter 0 holds 3\n")
    );
    // function 0 calls function 1, which does nothing: bases 1 and 5
    let rows = "010000000000\n090000000100\n060000000000\n010000000000\n060000000000\n";
    let expected = "\
step 0 function 0 place 0 call counter 0 holds 1
step 1 function 1 place 0 ret counter 0 holds 5
step 2 function 0 place 1 back counter 0 holds 2 ended 6
step 3 function 0 place 2 ret counter 0 holds 3
outcome 1 finished
steps 4
trace
variables 0 0 0 0 0 0 0 0 0 0 0 0 0 0 0 0
";
    assert_eq!(out("hardened show", &hardened(rows)), expected);
    // its place m: only the host of the last open function looks at a counter
    let early = out("hardened show jump=1:1", &hardened(rows));
    assert!(early.contains("\njump to place 1\nstep 1 function 1 place 1 end\nstep 2 "));
}

#[test]
fn without_show() {
    let expected = "outcome 0 budget spent\nsteps 11\ntrace 1 3 3\n\
        variables 0 1 0 0 0 0 0 0 0 0 0 0 0 0 0 0\n";
    assert_eq!(out("hardened budget=11 v1=1", LINES), expected);
    let beyond = out("hardened v1=1 jump=0:8", LINES);
    assert!(beyond.starts_with("outcome 4 the place is beyond m\nsteps 0\ntrace\n"), "{beyond}");
}

/// 16 functions are open, and a call comes: rows 1 to 3 sixteen times.
#[test]
fn too_many_open() {
    let recursion = text::lines(&limits::recursion(), 6);
    let deep = out("source v0=16 v1=1", &recursion);
    assert!(deep.starts_with("outcome 3 too many open functions\nsteps 48\ntrace 2 2 "), "{deep}");
    let met =
        "step 47 function 0 row 3 call\n16 functions are open\noutcome 3 too many open functions\n";
    assert!(out("source v0=16 v1=1 show", &recursion).contains(met));
    // hardened, each do has its tick: 16 times test, do, tick, call
    let shown = out("hardened v0=16 v1=1 show", &hardened(&recursion));
    let met = "\n16 functions are open\noutcome 3 too many open functions\nsteps 64\n";
    assert!(shown.contains(met), "{shown}");
    let last = shown.split(met).next().unwrap().lines().last().unwrap();
    assert!(last.starts_with("step 63 function 0 place 3 call counter 1 holds "), "{last}");
    // one function less: finished, and no such line
    let shown = out("hardened v0=15 v1=1 show", &hardened(&recursion));
    assert!(shown.contains("\noutcome 1 finished\n") && !shown.contains("are open"));
}

/// The running function's last place, which is not that of the first function.
#[test]
fn beyond_in_a_callee() {
    // function 0: call, back, ret; function 1: ret
    let rows = "010000000000\n090000000100\n060000000000\n010000000000\n060000000000\n";
    let shown = out("hardened show jump=1:2", &hardened(rows));
    let expected = "\
step 0 function 0 place 0 call counter 0 holds 1
jump to place 2
the last place is 1
outcome 4 the place is beyond m
steps 1
trace
variables 0 0 0 0 0 0 0 0 0 0 0 0 0 0 0 0
";
    assert_eq!(shown, expected);
    let shown = out("hardened show jump=2:65535", &hardened(rows));
    assert!(shown.contains("\njump to place 65535\nthe last place is 3\noutcome 4 "), "{shown}");
}

/// A table of so many dos in a row: their rows are 1 and on.
fn dos(count: usize) -> String {
    "010000000000\n".to_string() + &"020000000500\n".repeat(count) + "060000000000\n"
}

/// Each kind of trace, between the steps and the calls, or in a hardened run the
/// variables.
#[test]
fn traces() {
    let variables = "variables 5 0 0 0 0 0 0 0 0 0 0 0 0 0 0 0\n";
    let none = format!("calls 0\n{variables}");
    let nineteen = "trace 1 2 3 4 5 6 7 8 9 10 11 12 13 14 15 16 17 18 19\n";
    let twenty = "trace 1 2 3 4 5 6 7 8 9 10 11 12 13 14 15 16 17 18 19 20\n";
    for words in ["source", "source trace", "source trace budget=65535"] {
        assert_eq!(out(words, &dos(19)), format!("outcome 1 finished\nsteps 20\n{nineteen}{none}"));
        assert_eq!(out(words, &dos(20)), format!("outcome 1 finished\nsteps 21\n{twenty}{none}"));
    }
    let told = "trace of 21 rows, listed with the word trace\n";
    assert_eq!(out("source", &dos(21)), format!("outcome 1 finished\nsteps 22\n{told}{none}"));
    let listed = "\
trace of 21 rows
 1 2 3 4 5 6 7 8 9 10 11 12 13 14 15 16 17 18 19 20
 21
";
    assert_eq!(
        out("source trace", &dos(21)),
        format!("outcome 1 finished\nsteps 22\n{listed}{none}")
    );
    let listed = "\
trace of 40 rows
 1 2 3 4 5 6 7 8 9 10 11 12 13 14 15 16 17 18 19 20
 21 22 23 24 25 26 27 28 29 30 31 32 33 34 35 36 37 38 39 40
";
    assert_eq!(
        out("hardened trace", &hardened(&dos(40))),
        format!("outcome 1 finished\nsteps 81\n{listed}{variables}")
    );
}

/// docs/PROGRAMS.md's own number: a loop over one do, 3 steps a round.
#[test]
fn a_run_that_never_ends() {
    let endless = "010000000000\n050000000000\n020001000000\n060000000000\n060000000000\n";
    let told = "outcome 0 budget spent\nsteps 65535\n\
        trace of 21845 rows, listed with the word trace\n";
    assert!(out("source", endless).starts_with(told));
    let listed = out("source trace", endless);
    let row = " 2 2 2 2 2 2 2 2 2 2 2 2 2 2 2 2 2 2 2 2";
    let lines: Vec<&str> = listed.lines().collect();
    // 21,845 is 1,092 lines of 20 and 5 more
    assert_eq!(lines.len(), 3 + 1092 + 1 + 2);
    assert_eq!(lines[2], "trace of 21845 rows");
    assert!(lines[3..1095].iter().all(|line| *line == row));
    assert_eq!(lines[1095], " 2 2 2 2 2");
    assert_eq!(lines[1096], "calls 0");
    assert!(lines[1097].starts_with("variables "));
}

/// "the calls made, each of them a call row that opened its function"
fn calls(words: &str, rows: &[u8]) -> usize {
    let text = out(words, &text::lines(rows, 6));
    let lines: Vec<&str> = text.lines().collect();
    let [.., calls, variables] = lines[..] else { panic!("{text}") };
    assert!(variables.starts_with("variables "));
    calls.strip_prefix("calls ").unwrap().parse().unwrap()
}

/// "The one that meets outcome 3 opened none."
#[test]
fn calls_made() {
    let recursion = limits::recursion();
    for (first, made) in [(0, 0), (1, 1), (2, 2), (14, 14), (15, 15), (16, 15), (99, 15)] {
        assert_eq!(calls(&format!("source v1=1 v0={first}"), &recursion), made);
        assert_eq!(calls(&format!("source v1=1 v0={first} show trace"), &recursion), made);
    }
    // if, do, call; then the same again: the second call is step 5
    for (budget, made) in [(0, 0), (2, 0), (3, 1), (5, 1), (6, 2), (7, 2)] {
        assert_eq!(calls(&format!("source v1=1 v0=9 budget={budget}"), &recursion), made);
    }
    // a call in a case
    assert_eq!(calls("source v15=1", &switch_limits::bands()), 1);
    assert_eq!(calls("source v15=1 v0=2", &switch_limits::bands()), 0);
    // one function after the other, each from the one before
    assert_eq!(calls("source", &limits::functions(16)), 15);
    assert_eq!(calls("source", &limits::functions(17)), 15);
}

/// A call and a do, listed by hand.
#[test]
fn a_call_step_by_step() {
    let rows = "010000000000\n090000000100\n060000000000\n\
        010000000000\n020000000500\n060000000000\n";
    let expected = "\
step 0 function 0 row 1 call
step 1 function 1 row 4 do
step 2 function 1 row 5 end
step 3 function 0 row 2 end
outcome 1 finished
steps 4
trace 4
calls 1
variables 5 0 0 0 0 0 0 0 0 0 0 0 0 0 0 0
";
    assert_eq!(out("source show", rows), expected);
    // 4 steps, a do and a call: 6, and no line for the calls
    let expected = "outcome 1 finished\nsteps 6\ntrace 4\n\
        variables 5 0 0 0 0 0 0 0 0 0 0 0 0 0 0 0\n";
    assert_eq!(out("hardened", &hardened(rows)), expected);
}

#[test]
fn turned_away_and_unreadable() {
    assert_eq!(out("source", ""), "refused 1\n");
    assert_eq!(out("source show", "010000000000\n"), "refused 4\n");
    assert_eq!(out("hardened show jump=0:0", ""), "refused 10\n");
    for (words, input, line) in [
        ("hardened", ROWS, "line 1: 12 digits, not 40\n"),
        ("source show", LINES, "line 1: more than 12 digits\n"),
        ("source trace", "\n", "line 1: an empty line\n"),
    ] {
        let words: Vec<Vec<u8>> = words.split(' ').map(|word| word.as_bytes().to_vec()).collect();
        let Printed { out, err } = run_text::run(&words, input.as_bytes()).unwrap();
        assert_eq!((&out[..], &err[..]), ("unreadable\n", line.as_bytes()));
    }
}
