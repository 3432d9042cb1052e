//! What `run` and `sweep` print of runs that overflow (docs/PROGRAMS.md), listed by hand.

mod listing;

use independent::by_name::{add, call, functions, set, take};
use independent::printed::Printed;
use independent::{limits, run_text, sweep_text, text};
use listing::{LINES, ROWS};

fn words(words: &str) -> Vec<Vec<u8>> {
    words.split(' ').map(|word| word.as_bytes().to_vec()).collect()
}

/// What `run` prints, with nothing on standard error.
fn run(given: &str, input: &str) -> String {
    let Printed { out, err } = run_text::run(&words(given), input.as_bytes()).unwrap();
    assert_eq!(err, b"");
    out
}

fn sweep(given: &str, input: &str) -> String {
    let Printed { out, err } = sweep_text::sweep(&words(given), input.as_bytes()).unwrap();
    assert_eq!(err, b"");
    out
}

fn hardened(rows: &str) -> String {
    text::harden(rows.as_bytes()).unwrap().out
}

/// 2 - 3: the do's step is listed and counted, and the row is told behind the steps.
#[test]
fn the_listing() {
    let ended = "outcome 5 overflow\nsteps 3\ntrace 1\ncalls 0\n\
        variables 2 3 0 0 0 0 0 0 0 0 0 0 0 0 0 0\n";
    let shown = "\
step 0 function 0 row 1 do
step 1 function 0 row 2 loop
step 2 function 0 row 3 do
row 3 overflows
";
    assert_eq!(run("source v1=3 budget=20", ROWS), ended);
    assert_eq!(run("source v1=3 budget=20 show", ROWS), format!("{shown}{ended}"));
    assert_eq!(run("source v1=3 budget=3 show", ROWS), format!("{shown}{ended}"));
    let ended = "outcome 5 overflow\nsteps 4\ntrace 1\nvariables 2 3 0 0 0 0 0 0 0 0 0 0 0 0 0 0\n";
    let shown = "\
step 0 function 0 place 0 do
step 1 function 0 place 1 tick counter 0 holds 1
step 2 function 0 place 2 test counter 0 holds 2
step 3 function 0 place 3 do
row 3 overflows
";
    assert_eq!(run("hardened v1=3", LINES), ended);
    assert_eq!(run("hardened show trace v1=3", LINES), format!("{shown}{ended}"));
    assert_eq!(run("hardened show budget=4 v1=3", LINES), format!("{shown}{ended}"));
}

/// No such line where the budget ends before the step, though the do stands next.
#[test]
fn the_budget_before() {
    let spent = "outcome 0 budget spent\nsteps 2\ntrace 1\ncalls 0\n\
        variables 2 3 0 0 0 0 0 0 0 0 0 0 0 0 0 0\n";
    let shown = "step 0 function 0 row 1 do\nstep 1 function 0 row 2 loop\n";
    assert_eq!(run("source v1=3 budget=2 show", ROWS), format!("{shown}{spent}"));
    let text = run("hardened v1=3 budget=3 show", LINES);
    assert!(text.contains("place 2 test counter 0 holds 2\noutcome 0 budget spent\nsteps 3\n"));
}

/// 0 - 1, where the jump comes first; the budget may end with that step.
#[test]
fn a_jump() {
    let ended = "\
jump to place 3
step 0 function 0 place 3 do
row 3 overflows
outcome 5 overflow
steps 1
trace
variables 0 1 0 0 0 0 0 0 0 0 0 0 0 0 0 0
";
    for budget in [1, 2, 20] {
        assert_eq!(run(&format!("hardened show v1=1 budget={budget} jump=0:3"), LINES), ended);
    }
    // across no guard: the second round's do done twice
    let twice = run("hardened show v1=1 jump=8:3", LINES);
    let last = "\njump to place 3\nstep 8 function 0 place 3 do\nrow 3 overflows\n\
        jump does row 3 twice\noutcome 5 overflow\nsteps 9\ntrace 1 3 3\nvariables 0 1 0 ";
    assert!(twice.contains(last), "{twice}");
}

/// The row of a called function's do is that of the whole table.
#[test]
fn a_called_function() {
    let table = functions(&[&[set(5, 5), call(1)], &[add(5, 6)]]);
    let rows = text::lines(&table, 6);
    let expected = "\
step 0 function 0 row 1 do
step 1 function 0 row 2 call
step 2 function 1 row 5 do
row 5 overflows
outcome 5 overflow
steps 3
trace 1
calls 1
variables 0 0 0 0 0 5 65531 0 0 0 0 0 0 0 0 0
";
    assert_eq!(run("source show v6=65531", &rows), expected);
    let expected = "\
step 0 function 0 place 0 do
step 1 function 0 place 1 tick counter 0 holds 1
step 2 function 0 place 2 call counter 0 holds 2
step 3 function 1 place 0 do
row 5 overflows
outcome 5 overflow
steps 4
trace 1
variables 0 0 0 0 0 5 65531 0 0 0 0 0 0 0 0 0
";
    assert_eq!(run("hardened show v6=65531", &hardened(&rows)), expected);
    // one less: 65,535
    let fits = run("source v6=65530", &rows);
    assert!(fits.starts_with("outcome 1 finished\nsteps 5\ntrace 1 5\ncalls 1\n"), "{fits}");
    assert!(fits.ends_with("variables 0 0 0 0 0 65535 65530 0 0 0 0 0 0 0 0 0\n"), "{fits}");
}

/// With 16 functions open and a call behind it, the do ends the run; with one to take less
/// the call does.
#[test]
fn deep() {
    let recursion = text::lines(&limits::recursion(), 6);
    let shown = run("source show v0=31 v1=2", &recursion);
    let met = "step 46 function 0 row 2 do\nrow 2 overflows\noutcome 5 overflow\nsteps 47\n";
    assert!(shown.contains(met), "{shown}");
    assert!(shown.contains("\ncalls 15\n") && !shown.contains("are open"));
    let shown = run("source show v0=32 v1=2", &recursion);
    let met = "step 47 function 0 row 3 call\n16 functions are open\n";
    assert!(shown.contains(met) && !shown.contains("overflows"), "{shown}");
}

/// A do alone: v0 is 1, and so is v1. Step 0: same, left out, two alarms. Step 1: overflow,
/// same, two alarms. Step 2: overflow, alarm, same, alarm.
#[test]
fn a_sweep() {
    let input = hardened(&text::lines(&functions(&[&[take(0, 1)]]), 6));
    let expected = "\
step 0 function 0 from place 0 to place 1 row 1 left out
alarm 6
same 3
other 1
unfinished 2
";
    for budget in [3, 4, 65_535] {
        assert_eq!(sweep(&format!("v0=1 v1=1 list budget={budget}"), &input), expected);
    }
    assert_eq!(sweep("v1=1 list", &input), "refused 13\n");
    assert_eq!(sweep("v1=3 list", LINES), "refused 13\n");
}
