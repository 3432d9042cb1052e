//! Command lines for traces of every length with and without the word `trace`, for
//! limits that a shown run meets, and for the step that is no jump.

use crate::damage;
use crate::limits;
use crate::make::bytes_of;
use crate::row::{self, Row};
use crate::run_cases::{hardened, source, Case};

/// All of them.
pub fn all() -> Vec<Case> {
    let mut cases = straight();
    cases.extend(thousands());
    cases.extend(word_anywhere());
    cases.extend(deep());
    cases.extend(beyond());
    cases.extend(no_jump());
    cases
}

/// Traces around 20 and its multiples: so many dos in a row, and a longer table
/// cut short by its budget.
fn straight() -> Vec<Case> {
    let mut cases = Vec::new();
    let long = limits::rows(1024);
    let long_lines = damage::hardened(&long);
    for dos in [0, 1, 2, 18, 19, 20, 21, 22, 39, 40, 41, 59, 60, 61, 99, 100, 101, 1022] {
        let rows = limits::rows(dos + 2);
        let lines = damage::hardened(&rows);
        for words in ["", "trace", "show", "show trace"] {
            cases.push(source(words, &rows));
            cases.push(hardened(words, &lines));
        }
        for words in ["", "trace"] {
            cases.push(source(&format!("{words} budget={dos}"), &long));
            cases.push(hardened(&format!("{words} budget={}", 2 * dos), &long_lines));
        }
    }
    cases
}

/// Traces of some thousand rows, up to a whole budget's.
fn thousands() -> Vec<Case> {
    let mut cases = Vec::new();
    for dos in [1, 8, 900] {
        let rows = limits::endless(dos);
        let lines = damage::hardened(&rows);
        for words in ["trace", "", "budget=5000 trace", "budget=9999 v2=3 trace", "budget=30000"] {
            cases.push(source(words, &rows));
            cases.push(hardened(words, &lines));
        }
        cases.push(hardened("trace jump=4001:0", &lines));
        cases.push(hardened("jump=4001:3", &lines));
        cases.push(hardened("jump=60000:65535 trace", &lines));
    }
    cases
}

/// The word before, between and behind the others, and twice.
fn word_anywhere() -> Vec<Case> {
    let rows = limits::endless(3);
    let lines = damage::hardened(&rows);
    let mut cases = Vec::new();
    for words in [
        "trace v1=1 budget=70",
        "v1=1 trace budget=70",
        "v1=1 budget=70 trace",
        "trace show v1=1 budget=70",
        "show trace v1=1 budget=70",
        "v1=1 show budget=70 trace",
        "budget=70 trace v15=9 show v1=1",
        "trace trace",
        "trace budget=70 trace",
        "show trace show",
        "trace show trace show",
    ] {
        cases.push(source(words, &rows));
        cases.push(hardened(words, &lines));
    }
    for words in ["trace jump=9:1", "jump=9:1 budget=70 trace show", "show jump=9:7 trace v2=1"] {
        cases.push(hardened(words, &lines));
    }
    cases
}

/// Recursion to 16 functions and to a 17th, of one function and of several, with a
/// trace that is long by then or is not.
fn deep() -> Vec<Case> {
    let mut cases = Vec::new();
    for rows in [limits::recursion(), calls_itself(0), calls_itself(2), limits::functions(17)] {
        let lines = damage::hardened(&rows);
        for values in ["", "v0=15 v1=1", "v0=16 v1=1", "v0=40 v1=1"] {
            for words in ["", "show", "trace", "trace show"] {
                cases.push(source(&format!("{values} {words}"), &rows));
                cases.push(hardened(&format!("{words} {values}"), &lines));
            }
        }
        // The budget ends with the step that meets the limit, or before it.
        for budget in 44..=52 {
            cases.push(source(&format!("show budget={budget} v0=99 v1=1"), &rows));
            cases.push(hardened(&format!("show budget={budget} v0=99 v1=1"), &lines));
        }
    }
    cases
}

/// A function of so many dos that calls itself without end.
fn calls_itself(dos: usize) -> Vec<u8> {
    let mut rows = vec![Row::plain(row::FUNCTION)];
    rows.extend(vec![Row { kind: row::DO, op: 2, p: 3, q: 1, n: 0 }; dos]);
    rows.extend([Row::plain(row::CALL), Row::plain(row::END)]);
    bytes_of(&rows)
}

/// Places at m and beyond it, in the first function and in the one that it calls,
/// whose last place is another.
fn beyond() -> Vec<Case> {
    let some_do = Row { kind: row::DO, op: 0, p: 4, q: 0, n: 44 };
    let [open, end] = [row::FUNCTION, row::END].map(Row::plain);
    let call = Row { n: 1, ..Row::plain(row::CALL) };
    let lines =
        damage::hardened(&bytes_of(&[open, call, some_do, some_do, end, open, some_do, end]));
    let listing = damage::hardened(&limits::worked_listing());
    let mut cases = Vec::new();
    for step in 0..11 {
        for place in [2, 3, 4, 6, 7, 8, 9, 255, 65_535] {
            cases.push(hardened(&format!("show jump={step}:{place}"), &lines));
        }
        for place in [7, 8, 9, 1024, 65_535] {
            cases.push(hardened(&format!("show v1=1 jump={step}:{place}"), &listing));
            cases.push(hardened(&format!("trace v1=1 jump={step}:{place}"), &listing));
        }
    }
    for budget in [3, 4, 5] {
        cases.push(hardened(&format!("show v1=1 budget={budget} jump=4:8"), &listing));
    }
    cases
}

/// "`jump=65535:P` is accepted and told on standard error once all words are taken,
/// before the input is read": so also where the table is turned away. In a source run
/// it is wrong as any jump is.
fn no_jump() -> Vec<Case> {
    let rows = limits::worked_listing();
    let lines = damage::hardened(&rows);
    let endless = damage::hardened(&limits::endless(3));
    let mut cases = Vec::new();
    for jump in ["65535:0", "65535:3", "65535:7", "65535:8", "65535:65535", "0065535:06"] {
        for words in ["", "show", "trace", "trace show", "budget=0", "budget=11 v2=5 show"] {
            cases.push(hardened(&format!("v1=1 jump={jump} {words}"), &lines));
            cases.push(source(&format!("{words} jump={jump}"), &rows));
        }
        cases.push(hardened(&format!("jump={jump}"), &endless));
        cases.push(hardened(&format!("jump={jump} budget=65535 trace"), &endless));
        cases.push(hardened(&format!("jump={jump}"), &[]));
        cases.push(hardened(&format!("jump={jump} show"), &lines[20..]));
        cases.push(hardened(&format!("jump={jump} show"), &rows));
    }
    for jump in ["65534:0", "65535:", "65535", "65535:65536", "65536:0"] {
        cases.push(hardened(&format!("jump={jump}"), &lines));
    }
    cases
}
