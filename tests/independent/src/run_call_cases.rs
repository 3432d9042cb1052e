//! Command lines for runs with calls, which a source run tells the number of: many, cut
//! short, in each other up to the limit and past it, in the parts of switches. The
//! hardened runs beside them tell none.

use crate::damage;
use crate::limits;
use crate::make::{bytes_of, case_row};
use crate::row::{self, Row};
use crate::run_cases::{hardened, source, Case};
use crate::switch_limits;

/// All of them.
pub fn all() -> Vec<Case> {
    let mut cases = many();
    cases.extend(cut_short());
    cases.extend(in_each_other());
    cases.extend(in_switches());
    cases
}

const FUNCTION: Row = Row { kind: row::FUNCTION, op: 0, p: 0, q: 0, n: 0 };
const END: Row = Row { kind: row::END, op: 0, p: 0, q: 0, n: 0 };
/// v0 = v0 - v1
const DOWN: Row = Row { kind: row::DO, op: 3, p: 0, q: 1, n: 0 };

fn call(n: u16) -> Row {
    Row { n, ..Row::plain(row::CALL) }
}

/// The same words for both forms of a table.
fn both(words: &str, rows: &[u8]) -> [Case; 2] {
    [source(words, rows), hardened(words, &damage::hardened(rows))]
}

/// With v1 = 1 a loop of v0 rounds, each with so many calls of a function that has no
/// statement; with v1 = 0 it never ends, unless v0 is 0.
fn rounds(calls: usize) -> Vec<u8> {
    let mut rows = vec![FUNCTION, Row { op: 1, ..Row::plain(row::LOOP) }, DOWN];
    rows.extend(vec![call(1); calls]);
    rows.extend([END, END, FUNCTION, END]);
    bytes_of(&rows)
}

/// Up to about as many calls as a budget holds. With 30 or 36 rounds of 900 the source run
/// finishes, and the hardened one would need more than 65,535 steps.
fn many() -> Vec<Case> {
    let mut cases = Vec::new();
    for (calls, first) in [(1, 0), (1, 1), (1, 7), (2, 255), (2, 256), (3, 5000), (900, 30)] {
        for words in ["", "trace", "budget=30000"] {
            cases.extend(both(&format!("v0={first} v1=1 {words}"), &rounds(calls)));
        }
    }
    for words in ["v0=36 v1=1", "v0=37 v1=1", "v0=1", "v0=9 budget=65534"] {
        cases.extend(both(words, &rounds(900)));
    }
    cases
}

/// Budgets that end before a call, with it and behind it.
fn cut_short() -> Vec<Case> {
    let rows = rounds(2);
    (0..=18).flat_map(|budget| both(&format!("show v0=2 v1=1 budget={budget}"), &rows)).collect()
}

/// A function that calls itself twice while v0 is not 0. Each of these takes v1 from it
/// first: with v1 = 1 there are twice as many calls as v0 says, all of which return.
fn calls_itself_twice() -> Vec<u8> {
    let test = Row { op: 1, ..Row::plain(row::IF) };
    bytes_of(&[FUNCTION, test, DOWN, call(0), call(0), END, END])
}

/// 16 functions are open with v0 = 15. With more a call is met that opens none: it is a
/// step, and it isn't told among the calls.
fn in_each_other() -> Vec<Case> {
    let mut cases = Vec::new();
    for rows in [limits::recursion(), calls_itself_twice()] {
        for first in [0, 1, 2, 3, 14, 15, 16, 17, 65_535] {
            cases.extend(both(&format!("v0={first} v1=1"), &rows));
            cases.extend(both(&format!("show trace v1=1 v0={first}"), &rows));
        }
    }
    for count in [1, 2, 15, 16, 17, 18, 32] {
        cases.extend(both("show", &limits::functions(count)));
    }
    cases
}

/// A loop over v0 = 1, 2, .. 6 with v15 = 1: calls in the first case of a switch, in a
/// later one and in its default, and in the switch of a function that is called there.
fn switch_of_calls() -> Vec<u8> {
    let up = Row { kind: row::DO, op: 2, p: 0, q: 15, n: 0 };
    let [switch, default] = [row::SWITCH, row::DEFAULT].map(Row::plain);
    let mut rows = vec![FUNCTION, Row { op: 1, n: 6, ..Row::plain(row::LOOP) }, up, switch];
    rows.extend([case_row(1), call(1), case_row(2), call(1), call(2)]);
    rows.extend([case_row(3), Row::plain(row::CONTINUE), default, call(2), END, END, END]);
    rows.extend([FUNCTION, switch, case_row(2), call(2), default, END, END]);
    rows.extend([FUNCTION, up, DOWN, END]);
    bytes_of(&rows)
}

fn in_switches() -> Vec<Case> {
    let mut cases = Vec::new();
    for rows in [switch_of_calls(), switch_limits::bands()] {
        for first in 0..7 {
            cases.extend(both(&format!("v0={first} v15=1 v1=1 show"), &rows));
            cases.extend(both(&format!("v0={first} v15=1 budget=900"), &rows));
        }
        for budget in 8..24 {
            cases.extend(both(&format!("v15=1 v1=1 budget={budget}"), &rows));
        }
    }
    cases
}
