//! Tables that meet 4: a row that is misplaced, or something left open at the end.

use crate::faults::Faulty;
use crate::make::{self, bytes_of};
use crate::random::Random;
use crate::row::{self, Row, ROW_BYTES};
use crate::scene::{
    any_parts, bad_call, between_functions, cut_end, open_regions, parts_without_loop, right_row,
    scene, small_functions, small_rows, wrong_row, Part, OF_SWITCH,
};

pub fn outside(rng: &mut Random) -> Faulty {
    let mut rows = small_rows(rng);
    let stray = loop {
        let row = right_row(rng);
        if row.kind != row::FUNCTION {
            break row;
        }
    };
    let at = between_functions(rng, &rows);
    rows.insert(at, stray);
    (bytes_of(&rows), 4)
}

pub fn nested_function(rng: &mut Random) -> Faulty {
    let parts = any_parts(rng, 6);
    let rows = [Row::plain(row::FUNCTION), Row::plain(row::END)];
    (bytes_of(&scene(rng, &parts, &rows)), 4)
}

/// In the body, in a loop body, in an else part, or in a part of a switch.
pub fn stray_else(rng: &mut Random) -> Faulty {
    let mut parts = any_parts(rng, 5);
    match rng.below(4) {
        0 => parts.clear(),
        1 => parts.push(Part::Loop),
        2 => parts.push(Part::Else),
        _ => parts.push(rng.pick(OF_SWITCH)),
    }
    (bytes_of(&scene(rng, &parts, &[Row::plain(row::ELSE)])), 4)
}

pub fn stray_exit(rng: &mut Random) -> Faulty {
    let parts = parts_without_loop(rng);
    let kind = rng.pick(&[row::BREAK, row::CONTINUE]);
    (bytes_of(&scene(rng, &parts, &[Row::plain(kind)])), 4)
}

pub fn left_open(rng: &mut Random) -> Faulty {
    let mut rows = small_rows(rng);
    cut_end(rng, &mut rows);
    (bytes_of(&rows), 4)
}

pub fn left_open_and_no_callee(rng: &mut Random) -> Faulty {
    let mut rows = small_rows(rng);
    cut_end(rng, &mut rows);
    rows.push(bad_call(rng));
    (bytes_of(&rows), 4)
}

pub fn misplaced_then_field(rng: &mut Random) -> Faulty {
    let parts = parts_without_loop(rng);
    let kind = rng.pick(&[row::FUNCTION, row::BREAK, row::CONTINUE]);
    let rows = [Row::plain(kind), wrong_row(rng)];
    (bytes_of(&scene(rng, &parts, &rows)), 4)
}

pub fn misplaced_and_no_callee(rng: &mut Random) -> Faulty {
    let parts = parts_without_loop(rng);
    let kind = rng.pick(&[row::FUNCTION, row::BREAK, row::CONTINUE]);
    let rows = [bad_call(rng), Row::plain(kind)];
    (bytes_of(&scene(rng, &parts, &rows)), 4)
}

pub fn misplaced_and_left_open(rng: &mut Random) -> Faulty {
    let (mut bytes, number) = stray_exit(rng);
    bytes.truncate(bytes.len() - ROW_BYTES);
    (bytes, number)
}

pub fn nested_33rd(rng: &mut Random) -> Faulty {
    let mut rows = small_functions(rng, 32);
    let last = rows.len() - 1;
    rows.insert(last, Row::plain(row::FUNCTION));
    if rng.percent(50) {
        rows.push(Row::plain(row::END));
    }
    (bytes_of(&rows), 4)
}

pub fn second_else_65th(rng: &mut Random) -> Faulty {
    let mut rows = open_regions(rng, 62);
    rows.push(make::test_row(rng, row::IF));
    rows.extend([Row::plain(row::ELSE); 2]);
    rows.extend([Row::plain(row::END); 2]);
    (bytes_of(&rows), 4)
}
