//! Tables with a switch that meet 6 or the chain's 2 (02, No. 1), and tables whose
//! chain has over 1,024 rows and that meet what comes before that; tables at these
//! limits that meet nothing.

use crate::faults::Faulty;
use crate::make::{self, bytes_of, case_row};
use crate::random::Random;
use crate::row::{self, Row, ROW_BYTES};
use crate::scene::{
    bad_call, open_regions, scene, sixteen_open, wrong_row, wrong_row_of, Part, OF_SWITCH,
};
use crate::table::LIMITS;

const FUNCTION: Row = Row { kind: row::FUNCTION, op: 0, p: 0, q: 0, n: 0 };
const DEFAULT: Row = Row { kind: row::DEFAULT, op: 0, p: 0, q: 0, n: 0 };
const END: Row = Row { kind: row::END, op: 0, p: 0, q: 0, n: 0 };

/// A switch and so many cases with different numbers, its end left out.
fn cases(rng: &mut Random, count: usize) -> Vec<Row> {
    let mut used = Vec::new();
    let mut rows = vec![make::switch_row(rng)];
    for _ in 0..count {
        used.push(make::unused(rng, &used));
        rows.push(case_row(used[used.len() - 1]));
        if rng.percent(20) {
            rows.push(make::do_row(rng));
        }
    }
    rows
}

/// Ifs, loops and switches by which so many are open, the last of them a switch of
/// one case at least, in which the last row stands. Answers the ends that they need.
fn open_with_cases(rng: &mut Random, rows: &mut Vec<Row>, open: usize) -> usize {
    let last = rng.between(1, open);
    let mut left = open - last;
    let mut ends = 0;
    while left > 0 {
        ends += 1;
        if rng.percent(50) {
            let kind = rng.pick(&[row::IF, row::LOOP]);
            rows.push(make::test_row(rng, kind));
            left -= 1;
        } else {
            let count = rng.between(0, left.min(5));
            rows.extend(cases(rng, count));
            rows.extend(if count == 0 { vec![DEFAULT] } else { Vec::new() });
            left -= count;
        }
    }
    rows.extend(cases(rng, last));
    ends + 1
}

/// A row that opens a 17th, straight in a case, with what closes it.
fn seventeenth(rng: &mut Random, rows: &[Row]) -> Vec<Row> {
    let kind = rng.pick(&[row::IF, row::LOOP]);
    let used: Vec<u16> = rows.iter().filter(|row| row.kind == row::CASE).map(|row| row.n).collect();
    match rng.below(4) {
        0 => vec![make::test_row(rng, kind), END],
        1 => vec![make::switch_row(rng), case_row(rng.value()), END],
        _ => vec![case_row(make::unused(rng, &used))],
    }
}

/// A function with 17 open, each case being one; ends for all.
fn rows_17(rng: &mut Random, before: &[Row], behind: &[Row]) -> Vec<Row> {
    let mut rows = vec![FUNCTION];
    rows.extend(before);
    let ends = open_with_cases(rng, &mut rows, LIMITS.open);
    let last = seventeenth(rng, &rows);
    rows.extend(last);
    rows.extend(behind);
    rows.extend(vec![END; ends + 1]);
    rows
}

pub fn open_17(rng: &mut Random) -> Faulty {
    (bytes_of(&rows_17(rng, &[], &[])), 6)
}

/// One switch of 17 cases or more.
pub fn cases_17(rng: &mut Random) -> Faulty {
    let count = rng.between(17, 20);
    let rows = [vec![FUNCTION], cases(rng, count), vec![END, END]].concat();
    (bytes_of(&rows), 6)
}

pub fn open_17_left_open(rng: &mut Random) -> Faulty {
    let mut rows = rows_17(rng, &[], &[]);
    rows.pop();
    (bytes_of(&rows), 6)
}

pub fn open_17_no_callee(rng: &mut Random) -> Faulty {
    let call = bad_call(rng);
    (bytes_of(&rows_17(rng, &[call], &[])), 6)
}

pub fn open_17_then_field(rng: &mut Random) -> Faulty {
    let wrong = wrong_row(rng);
    (bytes_of(&rows_17(rng, &[], &[wrong])), 6)
}

/// A wrong field in the case that would be the 17th.
pub fn field_in_17th(rng: &mut Random) -> Faulty {
    let parts = sixteen_open(rng, &[Part::Case, Part::Later]);
    let wrong = wrong_row_of(rng, row::CASE);
    (bytes_of(&scene(rng, &parts, &[wrong])), 3)
}

/// The 65th region is that of a first case, of a later case's else or if, or of a
/// default.
pub fn regions_65(rng: &mut Random) -> Faulty {
    let [one, two] = [1, 2].map(case_row);
    let (regions, last): (usize, &[Row]) = match rng.below(4) {
        0 => (64, &[one]),
        1 => (63, &[one, two]),
        2 => (62, &[one, two]),
        _ => (63, &[one, DEFAULT]),
    };
    let mut rows = open_regions(rng, regions);
    rows.push(make::switch_row(rng));
    rows.extend(last);
    rows.extend([END; 2]);
    (bytes_of(&rows), 6)
}

pub fn regions_65_left_open(rng: &mut Random) -> Faulty {
    let (mut bytes, number) = regions_65(rng);
    bytes.truncate(bytes.len() - ROW_BYTES * rng.between(1, 2));
    (bytes, number)
}

/// Functions of switches whose chain has so many rows, at least 50, one of them of
/// dos. Far fewer are given.
fn long_chain(rng: &mut Random, count: usize) -> Vec<Row> {
    let mut rows = Vec::new();
    let mut left = count - 2;
    while left >= 50 {
        rows.push(FUNCTION);
        for _ in 0..2 {
            // an if, and for each later case an else and an if; as many ends
            let count = rng.between(6, 16).min((left - 2) / 6);
            rows.extend(bare_cases(rng, count));
            left -= 3 * count - 1;
        }
        rows.push(END);
        left -= 2;
    }
    rows.push(FUNCTION);
    rows.extend((0..left).map(|_| make::do_row(rng)));
    rows.push(END);
    rows
}

/// A switch of so many cases with nothing in them, and its end.
fn bare_cases(rng: &mut Random, count: usize) -> Vec<Row> {
    let mut rows = cases(rng, count);
    rows.retain(|row| row.kind != row::DO);
    rows.push(END);
    rows
}

/// A chain of over 1,024 rows.
fn over(rng: &mut Random) -> Vec<Row> {
    let count = rng.pick(&[1025, 1025, 1026, 1030, 1100]);
    long_chain(rng, count)
}

/// The rows before the last end.
fn with(mut table: Vec<Row>, rows: &[Row]) -> Vec<u8> {
    let end = table.len() - 1;
    table.splice(end..end, rows.iter().copied());
    bytes_of(&table)
}

pub fn chain(rng: &mut Random) -> Faulty {
    (bytes_of(&over(rng)), 2)
}

pub fn chain_and_no_callee(rng: &mut Random) -> Faulty {
    let mut rows = over(rng);
    rows.insert(1, bad_call(rng));
    (bytes_of(&rows), 2)
}

/// Left open are the last function, or a switch too.
pub fn chain_left_open(rng: &mut Random) -> Faulty {
    let mut rows = over(rng);
    rows.pop();
    if rng.percent(50) {
        rows.push(make::switch_row(rng));
    }
    (bytes_of(&rows), 4)
}

/// A fault of a row behind those with which the chain has so many.
pub fn chain_then_row(rng: &mut Random) -> Faulty {
    let rows = over(rng);
    let case = case_row(rng.value());
    match rng.below(4) {
        0 => (with(rows, &[wrong_row(rng)]), 3),
        1 => (with(rows, &[case]), 4),
        2 => (with(rows, &[make::switch_row(rng), case, case, END]), 11),
        _ => (with(rows, &[make::test_row(rng, row::IF); 17]), 6),
    }
}

pub fn chain_then_33rd(rng: &mut Random) -> Faulty {
    let mut rows = over(rng);
    let functions = rows.iter().filter(|row| row.kind == row::FUNCTION).count();
    rows.extend([FUNCTION, END].repeat(33 - functions));
    (bytes_of(&rows), 5)
}

/// Just 1,024 rows, and a call of a function that isn't there or none.
pub fn chain_of_1024(rng: &mut Random) -> Faulty {
    if rng.percent(50) {
        return (bytes_of(&long_chain(rng, 1024)), 0);
    }
    let rows = long_chain(rng, 1023);
    (with(rows, &[bad_call(rng)]), 7)
}

/// Switches that have only a default, in each other, hundreds deep or a few; left
/// open or closed.
pub fn defaults_in_each_other(rng: &mut Random) -> Faulty {
    let depth = if rng.percent(80) { rng.between(17, 40) } else { rng.between(200, 340) };
    let mut rows = vec![FUNCTION];
    for _ in 0..depth {
        rows.extend([make::switch_row(rng), DEFAULT]);
    }
    if rng.percent(30) {
        return (bytes_of(&rows), 4);
    }
    rows.push(make::do_row(rng));
    rows.extend(vec![END; depth + 1]);
    (bytes_of(&rows), 0)
}

/// 16 open and 64 regions, by switches.
pub fn at_the_limits(rng: &mut Random) -> Faulty {
    match rng.below(3) {
        0 => {
            let mut rows = vec![FUNCTION];
            let ends = open_with_cases(rng, &mut rows, LIMITS.open);
            rows.extend(vec![END; ends + 1]);
            (bytes_of(&rows), 0)
        }
        1 => {
            let parts = sixteen_open(rng, OF_SWITCH);
            (bytes_of(&scene(rng, &parts, &[])), 0)
        }
        _ => {
            let mut rows = open_regions(rng, 62);
            rows.extend([make::switch_row(rng), case_row(rng.value()), DEFAULT, END, END]);
            (bytes_of(&rows), 0)
        }
    }
}
