//! What `run` says of a small jump (docs/PROGRAMS.md), listed by hand.

mod listing;

use independent::by_name::{add, call, equal, functions, set, ELSE, END};
use independent::printed::Printed;
use independent::{limits, row, run_text, switch_limits, text};
use listing::{LINES, ROWS};

fn printed(given: &str, input: &str) -> Printed {
    let words: Vec<Vec<u8>> = given.split(' ').map(|word| word.as_bytes().to_vec()).collect();
    run_text::run(&words, input.as_bytes()).unwrap()
}

/// What a hardened run prints, with nothing on standard error.
fn run(given: &str, input: &str) -> String {
    let Printed { out, err } = printed(&format!("hardened {given}"), input);
    assert_eq!(err, b"");
    out
}

fn hardened(rows: &[u8]) -> String {
    text::harden(text::lines(rows, 6).as_bytes()).unwrap().out
}

/// Fourteen zeros behind v0 and v1.
const REST: &str = "0 0 0 0 0 0 0 0 0 0 0 0 0 0";

/// Jumps of 01's listing, and what is told of each before the outcome; what behind it.
#[test]
fn the_listing() {
    let told = [
        ("0:1", "jump leaves out row 1\n", "outcome 1 finished\nsteps 3\ntrace", 0),
        ("1:0", "jump does row 1 twice\n", "outcome 1 finished\nsteps 13\ntrace 1 1 3 3", 0),
        ("3:4", "jump leaves out row 3\n", "outcome 1 finished\nsteps 15\ntrace 1 3 3", 0),
        ("4:3", "jump does row 3 twice\n", "outcome 1 finished\nsteps 9\ntrace 1 3 3", 0),
        ("3:3", "jump changes nothing\n", "outcome 1 finished\nsteps 12\ntrace 1 3 3", 0),
        ("11:6", "jump changes nothing\n", "outcome 1 finished\nsteps 12\ntrace 1 3 3", 0),
        ("8:3", "jump does row 3 twice\n", "outcome 5 overflow\nsteps 9\ntrace 1 3 3", 0),
        // across a guard, beyond m, behind the last step
        ("4:6", "", "outcome 2 alarm\nsteps 5\ntrace 1 3", 1),
        ("0:2", "", "outcome 2 alarm\nsteps 1\ntrace", 0),
        ("0:8", "", "outcome 4 the place is beyond m\nsteps 0\ntrace", 0),
        ("12:6", "", "outcome 1 finished\nsteps 12\ntrace 1 3 3", 0),
    ];
    for (jump, line, ended, v0) in told {
        let expected = format!("{line}{ended}\nvariables {v0} 1 {REST}\n");
        assert_eq!(run(&format!("budget=20 v1=1 jump={jump}"), LINES), expected);
        assert_eq!(run(&format!("jump={jump} trace v1=1 budget=20"), LINES), expected);
        let shown = run(&format!("show budget=20 v1=1 jump={jump}"), LINES);
        assert!(shown.ends_with(&format!("\n{expected}")), "{shown}");
    }
}

/// "behind all that is listed"
#[test]
fn the_listing_step_by_step() {
    let twice = "\
step 0 function 0 place 0 do
step 1 function 0 place 1 tick counter 0 holds 1
step 2 function 0 place 2 test counter 0 holds 2
step 3 function 0 place 3 do
jump to place 3
step 4 function 0 place 3 do
step 5 function 0 place 4 tick counter 1 holds 6
step 6 function 0 place 5 leave counter 1 holds 7 counter 0 holds 3
step 7 function 0 place 2 test counter 0 holds 2
step 8 function 0 place 6 ret counter 0 holds 4
jump does row 3 twice
outcome 1 finished
steps 9
trace 1 3 3
variables 0 1 0 0 0 0 0 0 0 0 0 0 0 0 0 0
";
    assert_eq!(run("budget=20 v1=1 jump=4:3 show", LINES), twice);
}

/// "or the budget doesn't hold it; none holds step 65535"
#[test]
fn not_struck() {
    let unstruck = run("v1=1", LINES);
    let Printed { out, err } = printed("hardened v1=1 jump=65535:1", LINES);
    assert_eq!(err, b"step 65535 is no jump: no budget holds it\n");
    assert_eq!(out, unstruck);
    for jump in ["12:0", "12:7", "13:6", "65534:1"] {
        assert_eq!(run(&format!("v1=1 jump={jump}"), LINES), unstruck);
    }
    for (budget, jump) in [(0, "0:1"), (0, "0:0"), (1, "1:0"), (3, "3:4"), (4, "4:3"), (4, "4:4")] {
        let unstruck = run(&format!("show v1=1 budget={budget}"), LINES);
        let struck = run(&format!("show v1=1 budget={budget} jump={jump}"), LINES);
        assert_eq!(struck, unstruck, "{jump}");
    }
}

/// The budget ends with the step struck or the next; with the second do of row 3 v0 is 0.
#[test]
fn the_budget_is_spent() {
    let spent = |steps: u16| format!("outcome 0 budget spent\nsteps {steps}\n");
    let left_out = |steps| {
        let ended = spent(steps);
        format!("jump leaves out row 3\n{ended}trace 1\nvariables 2 1 {REST}\n")
    };
    assert_eq!(run("budget=4 v1=1 jump=3:4", LINES), left_out(4));
    assert_eq!(run("budget=5 v1=1 jump=3:4", LINES), left_out(5));
    let twice = |steps| {
        let ended = spent(steps);
        format!("jump does row 3 twice\n{ended}trace 1 3 3\nvariables 0 1 {REST}\n")
    };
    assert_eq!(run("budget=5 v1=1 jump=4:3", LINES), twice(5));
    assert_eq!(run("budget=6 v1=1 jump=4:3", LINES), twice(6));
    let nothing = run("budget=5 v1=1 jump=4:4", LINES);
    let expected = format!("jump changes nothing\n{}trace 1 3\nvariables 1 1 ", spent(5));
    assert!(nothing.starts_with(&expected), "{nothing}");
    // the second one overflows, which is then the last step
    let ended = format!("outcome 5 overflow\nsteps 9\ntrace 1 3 3\nvariables 0 1 {REST}\n");
    let expected = format!("jump does row 3 twice\n{ended}");
    assert_eq!(run("budget=9 v1=1 jump=8:3", LINES), expected);
    assert!(run("budget=8 v1=1 jump=8:3", LINES).starts_with(&spent(8)));
}

/// Function 1 is rows 8 to 10. The places are its own, and the row is the whole table's.
#[test]
fn a_called_function() {
    let caller = [call(1), equal(row::IF, 0, 1), call(1), ELSE, set(4, 44), END];
    let lines = hardened(&functions(&[&caller, &[add(0, 15)]]));
    for (jump, told) in [
        ("1:1", "jump leaves out row 9\noutcome 1 finished\nsteps 9\ntrace 5\n"),
        ("1:0", "jump changes nothing\noutcome 1 finished\nsteps 13\ntrace 9 9\n"),
        ("2:0", "jump does row 9 twice\noutcome 1 finished\nsteps 11\ntrace 9 9 5\n"),
        ("7:1", "jump leaves out row 9\noutcome 1 finished\nsteps 12\ntrace 9\n"),
        ("8:0", "jump does row 9 twice\noutcome 1 finished\nsteps 14\ntrace 9 9 9\n"),
        // its ret, its place m and a place that only the caller has
        ("1:2", "outcome 2 alarm\nsteps 2\ntrace\n"),
        ("1:3", "outcome 2 alarm\nsteps 3\ntrace\n"),
        ("1:4", "outcome 4 the place is beyond m\nsteps 1\ntrace\n"),
    ] {
        let text = run(&format!("v15=1 jump={jump}"), &lines);
        assert!(text.starts_with(told), "{jump}: {text}");
    }
}

/// With 15 calls and one do left out there is a 16th, of which there are too many. The line
/// of the limit comes before that of the jump.
#[test]
fn too_many_open() {
    let text = run("v0=15 v1=1 show jump=1:2", &hardened(&limits::recursion()));
    let told = "\n16 functions are open\njump leaves out row 2\n\
        outcome 3 too many open functions\nsteps 63\n";
    assert!(text.contains(told), "{text}");
}

/// The first case's do, row 3 as given, is row 2 of the chain, and that is what is traced.
/// Unstruck it is test do tick leave ret.
#[test]
fn a_switch() {
    let lines = hardened(&switch_limits::worked_switch());
    let text = run("v0=10 jump=1:2", &lines);
    assert!(text.starts_with("jump leaves out row 2\noutcome 1 finished\nsteps 4\ntrace\n"));
    let text = run("v0=10 jump=2:1", &lines);
    assert!(text.starts_with("jump does row 2 twice\noutcome 1 finished\nsteps 6\ntrace 2 2\n"));
}

/// Rows of up to four digits: that of row R is at step and place 2R - 2.
#[test]
fn long_tables() {
    let lines = hardened(&limits::rows(1024));
    for row in [9, 10, 99, 100, 255, 256, 999, 1000, 1022] {
        let at = 2 * row - 2;
        let left_out = run(&format!("jump={at}:{}", at + 1), &lines);
        assert!(left_out.starts_with(&format!("jump leaves out row {row}\noutcome ")));
        let twice = run(&format!("jump={}:{at} show", at + 1), &lines);
        assert!(twice.contains(&format!("\njump does row {row} twice\noutcome ")));
    }
}

/// A loop of four steps, test do tick leave, that never ends: a jump may be as late as in the
/// last step that a budget holds, which is a tick.
#[test]
fn the_last_step_of_all() {
    let lines = hardened(&limits::endless(1));
    for (jump, told) in [
        ("65534:1", "jump does row 2 twice\n"),
        ("65534:2", "jump changes nothing\n"),
        ("65533:2", "jump leaves out row 2\n"),
    ] {
        let text = run(&format!("jump={jump}"), &lines);
        assert!(text.starts_with(&format!("{told}outcome 0 budget spent\nsteps 65535\n")));
        let text = run(&format!("budget=65533 jump={jump}"), &lines);
        assert!(text.starts_with("outcome 0 budget spent\nsteps 65533\n"));
    }
}

/// A source run has no jump, and a hardened one may have none.
#[test]
fn without_a_jump() {
    let ended = format!("trace 1 3 3\nvariables 0 1 {REST}\n");
    assert_eq!(run("v1=1", LINES), format!("outcome 1 finished\nsteps 12\n{ended}"));
    let Printed { out, .. } = printed("source v1=1", ROWS);
    assert!(out.starts_with("outcome 1 finished\nsteps 9\n"), "{out}");
    let Printed { out, .. } = printed("source v1=1 jump=0:1", ROWS);
    assert_eq!(out, "");
}

#[test]
fn turned_away() {
    let behind = LINES.split_once('\n').unwrap().1;
    for words in ["v1=1 jump=0:0", "show jump=0:1"] {
        assert_eq!(run(words, ""), "refused 10\n");
        assert_eq!(run(words, behind), "refused 10\n");
    }
}
