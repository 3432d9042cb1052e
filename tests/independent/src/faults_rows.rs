//! Tables that meet 1, 2 or 3: bytes that are no whole rows, too many rows, a
//! wrong kind or field.

use crate::faults::Faulty;
use crate::limits;
use crate::make::bytes_of;
use crate::random::Random;
use crate::row::{self, Row};
use crate::scene::{
    any_parts, bad_call, between_functions, cut_end, open_regions, parts_without_loop, scene,
    sixteen_parts, small_functions, small_rows, small_table, wrong_row, wrong_row_of,
};

pub fn ragged(rng: &mut Random) -> Faulty {
    let mut bytes = small_table(rng);
    if rng.percent(50) {
        for _ in 0..rng.between(1, 5) {
            bytes.push(rng.byte());
        }
    } else {
        bytes.truncate(bytes.len() - rng.between(1, 5));
    }
    (bytes, 1)
}

pub fn empty(_: &mut Random) -> Faulty {
    (Vec::new(), 1)
}

pub fn ragged_and_over(rng: &mut Random) -> Faulty {
    let mut bytes = limits::rows(1025);
    for _ in 0..rng.between(1, 5) {
        bytes.push(rng.byte());
    }
    (bytes, 1)
}

pub fn over(rng: &mut Random) -> Faulty {
    (limits::rows(rng.between(1025, 1060)), 2)
}

pub fn over_and_faulty(rng: &mut Random) -> Faulty {
    let mut bytes = limits::rows(rng.between(1025, 1060));
    for _ in 0..rng.between(1, 5) {
        let at = rng.below(bytes.len());
        bytes[at] = rng.byte();
    }
    (bytes, 2)
}

pub fn wrong_field(rng: &mut Random) -> Faulty {
    let parts = any_parts(rng, 5);
    let wrong = wrong_row(rng);
    (bytes_of(&scene(rng, &parts, &[wrong])), 3)
}

pub fn field_then_other(rng: &mut Random) -> Faulty {
    let parts = any_parts(rng, 5);
    let wrong = wrong_row(rng);
    let call = bad_call(rng);
    let other = rng.pick(&[Row::plain(row::FUNCTION), Row::plain(row::ELSE), call]);
    (bytes_of(&scene(rng, &parts, &[wrong, other])), 3)
}

pub fn field_and_left_open(rng: &mut Random) -> Faulty {
    let mut rows = small_rows(rng);
    cut_end(rng, &mut rows);
    let at = rng.between(0, rows.len());
    rows.insert(at, wrong_row(rng));
    (bytes_of(&rows), 3)
}

pub fn field_and_no_callee(rng: &mut Random) -> Faulty {
    let parts = any_parts(rng, 5);
    let rows = [bad_call(rng), wrong_row(rng)];
    (bytes_of(&scene(rng, &parts, &rows)), 3)
}

/// Wrong and misplaced in one row: an else, a function, a break, a continue.
pub fn field_and_misplaced(rng: &mut Random) -> Faulty {
    let parts = parts_without_loop(rng);
    let kind = rng.pick(&[row::FUNCTION, row::ELSE, row::BREAK, row::CONTINUE]);
    let wrong = wrong_row_of(rng, kind);
    (bytes_of(&scene(rng, &parts, &[wrong])), 3)
}

pub fn field_outside(rng: &mut Random) -> Faulty {
    let mut rows = small_rows(rng);
    let wrong = wrong_row(rng);
    let at = between_functions(rng, &rows);
    rows.insert(at, wrong);
    (bytes_of(&rows), 3)
}

pub fn field_in_33rd(rng: &mut Random) -> Faulty {
    let mut rows = small_functions(rng, 33);
    let last = rows.iter().rposition(|row| row.kind == row::FUNCTION).expect("a function");
    rows[last] = wrong_row_of(rng, row::FUNCTION);
    (bytes_of(&rows), 3)
}

pub fn field_in_17th(rng: &mut Random) -> Faulty {
    let parts = sixteen_parts(rng);
    let kind = rng.pick(&[row::IF, row::LOOP]);
    let rows = [wrong_row_of(rng, kind), Row::plain(row::END)];
    (bytes_of(&scene(rng, &parts, &rows)), 3)
}

pub fn field_in_65th(rng: &mut Random) -> Faulty {
    let kind = rng.pick(&[row::IF, row::LOOP]);
    let mut rows = open_regions(rng, 64);
    rows.push(wrong_row_of(rng, kind));
    rows.extend([Row::plain(row::END); 2]);
    (bytes_of(&rows), 3)
}
