//! Programs by hand around the edges of sums and differences (02, No. 5): those whose
//! runs go up to an edge and finish, so that only a struck one passes it, and those whose
//! runs pass it themselves. No chance in here.

use crate::by_name::{add, call, differs, equal, functions, less, of, set, take, ELSE, END};
use crate::limits;
use crate::make::case_row;
use crate::program::Program;
use crate::row::{self, Row};

/// One do, which may be all that a function has.
fn one(what: Row, given: &[(usize, u16)]) -> Program {
    of(functions(&[&[what]]), given)
}

/// A loop that adds v15 to v0 while it is less than v1.
fn up(given: &[(usize, u16)]) -> Program {
    of(functions(&[&[less(row::LOOP, 0, 1), add(0, 15), END]]), given)
}

/// The runs finish. A sum is 65,535 and a difference 0, or one do more would make it so;
/// a do in a part that is not taken would overflow.
pub fn finishing() -> Vec<Program> {
    let mut programs = vec![
        one(add(0, 1), &[(0, 65_534), (1, 1)]),
        one(add(0, 1), &[(0, 65_533), (1, 1)]),
        one(add(0, 1), &[(1, 65_535)]),
        one(take(0, 1), &[(0, 1), (1, 1)]),
        one(take(0, 1), &[(0, 2), (1, 1)]),
        one(take(0, 1), &[(0, 65_535), (1, 65_535)]),
        one(add(0, 0), &[(0, 32_767)]),
        one(add(0, 0), &[(0, 16_383)]),
        one(take(0, 0), &[(0, 65_535)]),
        up(&[(0, 65_532), (1, 65_535), (15, 1)]),
    ];
    programs.extend([parts(), both_ways(), three_open(), returning()]);
    programs
}

/// The then part is taken.
fn parts() -> Program {
    let rows = [equal(row::IF, 0, 1), take(1, 2), ELSE, add(3, 4), END, set(5, 9)];
    of(functions(&[&rows]), &[(0, 1), (1, 7), (2, 7), (3, 65_535), (4, 1)])
}

/// Three rounds, down to 0 and up to 65,535.
fn both_ways() -> Program {
    let rows = [differs(row::LOOP, 0, 0), take(0, 15), add(2, 3), END];
    of(functions(&[&rows]), &[(0, 3), (2, 65_529), (3, 2), (15, 1)])
}

/// Function 1 adds and function 2 takes away, twice each.
fn three_open() -> Program {
    let bodies: [&[Row]; 3] =
        [&[call(1), take(0, 15), call(1)], &[call(2), add(1, 15)], &[take(2, 15)]];
    of(functions(&bodies), &[(0, 1), (1, 65_533), (2, 2), (15, 1)])
}

/// Function 0 calls itself three times, and each of the four adds 1 when it ends.
fn returning() -> Program {
    let rows = [differs(row::IF, 0, 0), take(0, 1), call(0), END, add(2, 1)];
    of(functions(&[&rows]), &[(0, 3), (1, 1), (2, 65_531)])
}

/// The run finishes. v1 is 65,535 and v0 is added to it where it is 0; so many times before
/// that, and so many behind it, v0 is 1. A jump to that do overflows from there alone.
pub fn by_turns(before: usize, behind: usize) -> Vec<Row> {
    let turn = [set(0, 0), set(0, 1)];
    [&turn.repeat(before)[..], &[set(0, 0), add(1, 0)], &turn.repeat(behind)].concat()
}

/// The runs end with 5: in the first step, in a later one, in a part, in a called
/// function, with many open.
pub fn overflowing() -> Vec<Program> {
    vec![
        of(limits::worked_listing(), &[(1, 3)]),
        one(add(0, 1), &[(0, 65_535), (1, 1)]),
        one(add(0, 1), &[(0, 65_535), (1, 65_535)]),
        one(take(0, 1), &[(1, 1)]),
        one(take(0, 1), &[(1, 65_535)]),
        one(add(0, 0), &[(0, 32_768)]),
        up(&[(0, 65_534), (1, 65_535), (15, 2)]),
        a_called_one(),
        a_case(),
        sixteen_rounds(),
        of(limits::recursion(), &[(0, 5), (1, 2)]),
        // 16 functions are open, and the next row would call a 17th
        of(limits::recursion(), &[(0, 31), (1, 2)]),
    ]
}

/// In the third function open, behind a do in each.
fn a_called_one() -> Program {
    let bodies: [&[Row]; 3] =
        [&[set(5, 5), call(1), set(6, 6)], &[set(7, 7), call(2)], &[add(8, 5), take(0, 1)]];
    of(functions(&bodies), &[(0, 1), (1, 2)])
}

/// In the third case of a switch: row 9 as given, row 10 of the chain.
fn a_case() -> Program {
    let [switch, default] = [row::SWITCH, row::DEFAULT].map(Row::plain);
    let mut rows = vec![set(0, 50), switch, case_row(10), add(1, 0), case_row(20), set(1, 20)];
    rows.extend([case_row(50), set(1, 49), take(1, 0), default, add(1, 1), END]);
    of(functions(&[&rows]), &[])
}

/// v1 is 4,096 in the first round and 65,536 in the sixteenth; 15 rounds leave 30 rows of
/// trace.
fn sixteen_rounds() -> Program {
    let rows = [Row::plain(row::LOOP), add(1, 2), add(3, 15), END];
    of(functions(&[&rows]), &[(2, 4096), (15, 1)])
}

/// The hardened run ends with 5 in step 65,535, the last that a budget holds: a test, then
/// 16,383 rounds of four steps, a test and the do. The source run takes three a round.
pub fn in_the_last_step_of_all() -> Program {
    let rows = [equal(row::IF, 9, 1), END, Row::plain(row::LOOP), add(1, 2), END];
    of(functions(&[&rows]), &[(2, 4)])
}
