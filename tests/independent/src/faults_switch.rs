//! Tables with a switch that meet 3, 4 or 11 (02, No. 1), with one fault or with
//! two in one row or in several.

use crate::faults::Faulty;
use crate::make::{self, bytes_of, case_row};
use crate::random::Random;
use crate::row::{self, Row};
use crate::scene::{
    any_parts, bad_call, open_regions, right_row, scene, sixteen_open, wrong_row, wrong_row_of,
    Part, OF_01, OF_SWITCH,
};

const DEFAULT: Row = Row { kind: row::DEFAULT, op: 0, p: 0, q: 0, n: 0 };
const END: Row = Row { kind: row::END, op: 0, p: 0, q: 0, n: 0 };

/// A do or two, an if, or a switch with cases of its own, one of them of this
/// number; or nothing.
fn body(rng: &mut Random, n: u16) -> Vec<Row> {
    match rng.below(5) {
        0 => vec![make::do_row(rng)],
        1 => vec![make::do_row(rng), make::do_row(rng)],
        2 => vec![make::test_row(rng, row::IF), Row::plain(row::ELSE), END],
        3 => vec![make::switch_row(rng), case_row(n), make::do_row(rng), DEFAULT, END],
        _ => Vec::new(),
    }
}

/// A switch with so many cases, its end left out, and their numbers.
fn some_cases(rng: &mut Random, count: usize) -> (Vec<Row>, Vec<u16>) {
    let mut used = Vec::new();
    let mut rows = vec![make::switch_row(rng)];
    for _ in 0..count {
        let n = make::unused(rng, &used);
        used.push(n);
        rows.push(case_row(n));
        rows.extend(body(rng, n));
    }
    (rows, used)
}

/// The rows somewhere in a table.
fn somewhere(rng: &mut Random, rows: &[Row], number: u8) -> Faulty {
    let parts = any_parts(rng, 4);
    (bytes_of(&scene(rng, &parts, rows)), number)
}

/// Parts of which the innermost is none of a switch, or none at all.
fn no_switch_innermost(rng: &mut Random) -> Vec<Part> {
    let mut parts = any_parts(rng, 4);
    if parts.last().is_some_and(|part| OF_SWITCH.contains(part)) {
        parts.push(rng.pick(OF_01));
    }
    parts
}

fn case_or_default(rng: &mut Random) -> Row {
    if rng.percent(60) {
        case_row(rng.value())
    } else {
        DEFAULT
    }
}

/// A wrong row of a switch where a right one might stand.
pub fn field_of_switch(rng: &mut Random) -> Faulty {
    let count = rng.below(3);
    let (mut rows, _) = some_cases(rng, count);
    let kind = rng.pick(&[row::SWITCH, row::CASE, row::DEFAULT]);
    if kind == row::SWITCH {
        rows.clear();
    }
    rows.extend([wrong_row_of(rng, kind), END]);
    somewhere(rng, &rows, 3)
}

/// A wrong case or default where none may stand; or a wrong row before the first.
pub fn field_and_misplaced(rng: &mut Random) -> Faulty {
    if rng.percent(50) {
        let rows = [make::switch_row(rng), wrong_row(rng), END];
        return somewhere(rng, &rows, 3);
    }
    let parts = no_switch_innermost(rng);
    let kind = rng.pick(&[row::CASE, row::DEFAULT]);
    let wrong = wrong_row_of(rng, kind);
    (bytes_of(&scene(rng, &parts, &[wrong])), 3)
}

/// A case whose number was there, and whose op, p or q is not 0.
pub fn field_and_twice(rng: &mut Random) -> Faulty {
    let count = rng.between(1, 4);
    let (mut rows, used) = some_cases(rng, count);
    let n = rng.pick(&used);
    rows.extend([Row { n, ..wrong_row_of(rng, row::CASE) }, END]);
    somewhere(rng, &rows, 3)
}

pub fn stray(rng: &mut Random) -> Faulty {
    let parts = no_switch_innermost(rng);
    let rows = [case_or_default(rng)];
    (bytes_of(&scene(rng, &parts, &rows)), 4)
}

/// Any row but a case, a default or an end.
pub fn before_first(rng: &mut Random) -> Faulty {
    let early = loop {
        let row = right_row(rng);
        if ![row::CASE, row::DEFAULT, row::END].contains(&row.kind) {
            break row;
        }
    };
    let mut rows = vec![make::switch_row(rng), early];
    if matches!(early.kind, row::FUNCTION | row::IF | row::LOOP | row::SWITCH) {
        rows.push(END);
    }
    rows.extend([case_row(1), DEFAULT, END]);
    somewhere(rng, &rows, 4)
}

/// Behind a default another one, or a case, of a number that was there or not.
pub fn behind_default(rng: &mut Random) -> Faulty {
    let count = rng.below(4);
    let (mut rows, used) = some_cases(rng, count);
    rows.push(DEFAULT);
    let n = rng.value();
    rows.extend(body(rng, n));
    rows.push(match rng.below(3) {
        0 => DEFAULT,
        1 => case_row(n),
        _ => case_row(used.last().copied().unwrap_or(n)),
    });
    rows.push(END);
    somewhere(rng, &rows, 4)
}

pub fn else_in_part(rng: &mut Random) -> Faulty {
    let mut parts = any_parts(rng, 4);
    parts.push(rng.pick(OF_SWITCH));
    (bytes_of(&scene(rng, &parts, &[Row::plain(row::ELSE)])), 4)
}

/// A switch left open, before its first case or behind it; some stand for no rows.
pub fn left_open(rng: &mut Random) -> Faulty {
    let mut rows = vec![Row::plain(row::FUNCTION)];
    let count = rng.below(3);
    rows.extend(some_cases(rng, count).0);
    if rng.percent(40) {
        rows.push(DEFAULT);
    }
    if rng.percent(20) {
        rows.push(END);
    }
    (bytes_of(&rows), 4)
}

/// A case or a default elsewhere, with 16 open.
pub fn stray_17th(rng: &mut Random) -> Faulty {
    let parts = sixteen_open(rng, OF_01);
    let rows = [case_or_default(rng)];
    (bytes_of(&scene(rng, &parts, &rows)), 4)
}

/// A case behind the default, with 16 open.
pub fn behind_default_17th(rng: &mut Random) -> Faulty {
    let parts = sixteen_open(rng, &[Part::Default, Part::Alone]);
    let rows = [case_row(rng.value())];
    (bytes_of(&scene(rng, &parts, &rows)), 4)
}

/// An else straight in a case that would be the 65th region.
pub fn else_65th(rng: &mut Random) -> Faulty {
    let mut rows = open_regions(rng, 63);
    rows.extend([make::switch_row(rng), case_row(rng.value()), Row::plain(row::ELSE), END, END]);
    (bytes_of(&rows), 4)
}

pub fn misplaced_then_field(rng: &mut Random) -> Faulty {
    let parts = no_switch_innermost(rng);
    let rows = [case_or_default(rng), wrong_row(rng)];
    (bytes_of(&scene(rng, &parts, &rows)), 4)
}

/// A case whose number was there.
fn second_case(rng: &mut Random) -> Vec<Row> {
    let count = rng.between(1, 5);
    let (mut rows, used) = some_cases(rng, count);
    rows.push(case_row(rng.pick(&used)));
    rows
}

pub fn twice(rng: &mut Random) -> Faulty {
    let mut rows = second_case(rng);
    rows.push(END);
    somewhere(rng, &rows, 11)
}

pub fn twice_then_other(rng: &mut Random) -> Faulty {
    let mut rows = second_case(rng);
    rows.push(rng.pick(&[Row::plain(row::ELSE), Row::plain(row::FUNCTION), DEFAULT]));
    rows.extend([wrong_row(rng), END]);
    somewhere(rng, &rows, 11)
}

pub fn twice_and_left_open(rng: &mut Random) -> Faulty {
    let rows = [vec![Row::plain(row::FUNCTION)], second_case(rng)].concat();
    (bytes_of(&rows), 11)
}

pub fn twice_and_no_callee(rng: &mut Random) -> Faulty {
    let mut rows = vec![bad_call(rng)];
    rows.extend(second_case(rng));
    rows.extend([bad_call(rng), END]);
    somewhere(rng, &rows, 11)
}

/// With 16 open, the last of them a case: the same case again.
pub fn twice_17th(rng: &mut Random) -> Faulty {
    let count = rng.between(1, 8);
    let mut rows = vec![Row::plain(row::FUNCTION)];
    rows.extend((count..16).map(|_| make::test_row(rng, row::LOOP)));
    let mut used = Vec::new();
    rows.push(make::switch_row(rng));
    for _ in 0..count {
        used.push(make::unused(rng, &used));
        rows.push(case_row(used[used.len() - 1]));
    }
    rows.push(case_row(rng.pick(&used)));
    rows.extend(vec![END; 18 - count]);
    (bytes_of(&rows), 11)
}

/// The same case again where one more would open the 65th region.
pub fn twice_65th(rng: &mut Random) -> Faulty {
    let regions = rng.pick(&[62, 63]);
    let mut rows = open_regions(rng, regions);
    let case = case_row(rng.value());
    rows.extend([make::switch_row(rng), case, case, END, END]);
    (bytes_of(&rows), 11)
}

/// A number that is used in another switch: around, inside, before.
pub fn same_elsewhere(rng: &mut Random) -> Faulty {
    let case = case_row(rng.value());
    let inner = [make::switch_row(rng), case, make::do_row(rng), END];
    let other = case_row(make::unused(rng, &[case.n]));
    let mut rows = inner.to_vec();
    rows.extend([make::switch_row(rng), case]);
    rows.extend(inner);
    rows.push(other);
    rows.extend(inner);
    rows.push(END);
    somewhere(rng, &rows, 0)
}
