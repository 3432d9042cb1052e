//! Tables that meet 5, 6 or 7, and tables at the limits that meet nothing.

use crate::faults::Faulty;
use crate::make::{self, bytes_of};
use crate::random::Random;
use crate::row::{self, Row, ROW_BYTES};
use crate::scene::{
    any_parts, bad_call, open_regions, scene, sixteen_parts, small_functions, wrong_row,
};

pub fn functions_33(rng: &mut Random) -> Faulty {
    let count = rng.between(33, 36);
    (bytes_of(&small_functions(rng, count)), 5)
}

pub fn functions_33_and_no_callee(rng: &mut Random) -> Faulty {
    let mut rows = small_functions(rng, 33);
    rows.insert(1, bad_call(rng));
    (bytes_of(&rows), 5)
}

pub fn functions_33_left_open(rng: &mut Random) -> Faulty {
    let mut rows = small_functions(rng, 33);
    rows.pop();
    (bytes_of(&rows), 5)
}

fn seventeenth(rng: &mut Random) -> [Row; 2] {
    let kind = rng.pick(&[row::IF, row::LOOP]);
    [make::test_row(rng, kind), Row::plain(row::END)]
}

pub fn open_17(rng: &mut Random) -> Faulty {
    let parts = sixteen_parts(rng);
    let rows = seventeenth(rng);
    (bytes_of(&scene(rng, &parts, &rows)), 6)
}

pub fn open_17_left_open(rng: &mut Random) -> Faulty {
    let (mut bytes, number) = open_17(rng);
    bytes.truncate(bytes.len() - ROW_BYTES);
    (bytes, number)
}

pub fn open_17_no_callee(rng: &mut Random) -> Faulty {
    let parts = sixteen_parts(rng);
    let [test, end] = seventeenth(rng);
    let rows = [bad_call(rng), test, end];
    (bytes_of(&scene(rng, &parts, &rows)), 6)
}

pub fn open_17_then_field(rng: &mut Random) -> Faulty {
    let parts = sixteen_parts(rng);
    let [test, _] = seventeenth(rng);
    let rows = [test, wrong_row(rng)];
    (bytes_of(&scene(rng, &parts, &rows)), 6)
}

/// The 65th region is a then part, a loop body or an else part.
pub fn regions_65(rng: &mut Random) -> Faulty {
    let last = rng.pick(&[row::IF, row::LOOP, row::ELSE]);
    let mut rows = open_regions(rng, if last == row::ELSE { 63 } else { 64 });
    if last == row::ELSE {
        rows.push(make::test_row(rng, row::IF));
        rows.push(Row::plain(row::ELSE));
    } else {
        rows.push(make::test_row(rng, last));
    }
    rows.extend([Row::plain(row::END); 2]);
    (bytes_of(&rows), 6)
}

pub fn regions_65_left_open(rng: &mut Random) -> Faulty {
    let (mut bytes, number) = regions_65(rng);
    bytes.truncate(bytes.len() - ROW_BYTES * rng.between(1, 2));
    (bytes, number)
}

/// The call stands anywhere, also where no run comes; its n is at least the
/// number of functions, often just that.
pub fn no_callee(rng: &mut Random) -> Faulty {
    let parts = any_parts(rng, 5);
    let call = bad_call(rng);
    let mut rows = scene(rng, &parts, &[call]);
    let functions = rows.iter().filter(|row| row.kind == row::FUNCTION).count();
    if rng.percent(60) {
        let bad = rows.iter_mut().find(|row| row.kind == row::CALL && row.n >= 33);
        bad.expect("the bad call").n = u16::try_from(functions).expect("few functions");
    }
    (bytes_of(&rows), 7)
}

pub fn at_the_limits(rng: &mut Random) -> Faulty {
    let rows = match rng.below(3) {
        0 => small_functions(rng, 32),
        1 => {
            let mut rows = open_regions(rng, 64);
            rows.push(Row::plain(row::END));
            rows
        }
        _ => {
            let parts = sixteen_parts(rng);
            scene(rng, &parts, &[])
        }
    };
    (bytes_of(&rows), 0)
}
