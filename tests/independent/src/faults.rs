//! Near-valid tables for every cause 1 to 7 and 11, with one fault or with two, so
//! that the order of 01's "What turns a call away" shows, with 02's words on it.
//! Each maker answers the table and the number that follows from how it was made,
//! not from the checker.

use crate::faults_bands;
use crate::faults_limits;
use crate::faults_places;
use crate::faults_rows;
use crate::faults_switch;
use crate::random::Random;
use crate::row::{Row, ROW_BYTES};
use crate::scene::small_table;

/// A table and its number.
pub type Faulty = (Vec<u8>, u8);

/// Makes a table with a fault.
pub type FaultMaker = fn(&mut Random) -> Faulty;

/// All makers, with a name each.
pub const ALL: &[(&str, FaultMaker)] = &[
    ("ragged", faults_rows::ragged),
    ("empty", faults_rows::empty),
    ("ragged and over 1,024 rows", faults_rows::ragged_and_over),
    ("over 1,024 rows", faults_rows::over),
    ("over 1,024 rows and faulty rows", faults_rows::over_and_faulty),
    ("a wrong field", faults_rows::wrong_field),
    ("a wrong field and a later fault", faults_rows::field_then_other),
    ("a wrong field and left open", faults_rows::field_and_left_open),
    ("a wrong field and no callee", faults_rows::field_and_no_callee),
    ("a wrong field in a misplaced row", faults_rows::field_and_misplaced),
    ("a wrong field outside a function", faults_rows::field_outside),
    ("a wrong field in the 33rd function", faults_rows::field_in_33rd),
    ("a wrong field in the 17th open", faults_rows::field_in_17th),
    ("a wrong field in the 65th region", faults_rows::field_in_65th),
    ("a row outside a function", faults_places::outside),
    ("a function in a function", faults_places::nested_function),
    ("an else out of place", faults_places::stray_else),
    ("a break or continue outside a loop", faults_places::stray_exit),
    ("left open", faults_places::left_open),
    ("left open and no callee", faults_places::left_open_and_no_callee),
    ("misplaced and a later wrong field", faults_places::misplaced_then_field),
    ("misplaced and no callee", faults_places::misplaced_and_no_callee),
    ("misplaced and left open", faults_places::misplaced_and_left_open),
    ("the 33rd function in a function", faults_places::nested_33rd),
    ("a second else that is the 65th region", faults_places::second_else_65th),
    ("33 functions", faults_limits::functions_33),
    ("33 functions and no callee", faults_limits::functions_33_and_no_callee),
    ("33 functions and left open", faults_limits::functions_33_left_open),
    ("17 open", faults_limits::open_17),
    ("17 open and left open", faults_limits::open_17_left_open),
    ("17 open and no callee", faults_limits::open_17_no_callee),
    ("17 open and a later wrong field", faults_limits::open_17_then_field),
    ("65 regions", faults_limits::regions_65),
    ("65 regions and left open", faults_limits::regions_65_left_open),
    ("no callee", faults_limits::no_callee),
    ("nothing wrong at the limits", faults_limits::at_the_limits),
    ("a wrong field of a switch", faults_switch::field_of_switch),
    ("a wrong field in a misplaced row of a switch", faults_switch::field_and_misplaced),
    ("a wrong field in a second case", faults_switch::field_and_twice),
    ("a wrong field in the case that is the 17th open", faults_bands::field_in_17th),
    ("a case or default out of place", faults_switch::stray),
    ("a row before the first case", faults_switch::before_first),
    ("a case or default behind the default", faults_switch::behind_default),
    ("an else straight in a case or default", faults_switch::else_in_part),
    ("a switch left open", faults_switch::left_open),
    ("a case or default out of place, 16 open", faults_switch::stray_17th),
    ("a case behind the default, 16 open", faults_switch::behind_default_17th),
    ("an else straight in a case, 64 regions", faults_switch::else_65th),
    ("a case out of place and a later wrong field", faults_switch::misplaced_then_field),
    ("a second case", faults_switch::twice),
    ("a second case and a later fault", faults_switch::twice_then_other),
    ("a second case and left open", faults_switch::twice_and_left_open),
    ("a second case and no callee", faults_switch::twice_and_no_callee),
    ("a second case, 16 open", faults_switch::twice_17th),
    ("a second case, 64 regions", faults_switch::twice_65th),
    ("a case that is in another switch", faults_switch::same_elsewhere),
    ("17 cases", faults_bands::cases_17),
    ("17 open with cases", faults_bands::open_17),
    ("17 open with cases and left open", faults_bands::open_17_left_open),
    ("17 open with cases and no callee", faults_bands::open_17_no_callee),
    ("17 open with cases and a later wrong field", faults_bands::open_17_then_field),
    ("65 regions by a switch", faults_bands::regions_65),
    ("65 regions by a switch and left open", faults_bands::regions_65_left_open),
    ("a chain of over 1,024 rows", faults_bands::chain),
    ("a chain of over 1,024 rows and no callee", faults_bands::chain_and_no_callee),
    ("a chain of over 1,024 rows and left open", faults_bands::chain_left_open),
    ("a chain of over 1,024 rows and a later fault", faults_bands::chain_then_row),
    ("a chain of over 1,024 rows and 33 functions", faults_bands::chain_then_33rd),
    ("a chain of 1,024 rows", faults_bands::chain_of_1024),
    ("defaults in each other", faults_bands::defaults_in_each_other),
    ("nothing wrong at the limits of a switch", faults_bands::at_the_limits),
];

/// One of the above.
pub fn any(rng: &mut Random) -> Faulty {
    rng.pick(ALL).1(rng)
}

/// An accepted table with random changes; its number is anyone's guess.
pub fn mutated(rng: &mut Random) -> Vec<u8> {
    let mut bytes = small_table(rng);
    for _ in 0..rng.between(1, 3) {
        mutate(rng, &mut bytes);
    }
    bytes
}

/// One change of one byte or one row.
fn mutate(rng: &mut Random, bytes: &mut Vec<u8>) {
    let rows = bytes.len() / ROW_BYTES;
    if rows == 0 {
        return;
    }
    let at = rng.below(rows) * ROW_BYTES;
    let row = bytes[at..at + ROW_BYTES].to_vec();
    match rng.below(6) {
        0 => bytes[at] = 1 + rng.byte() % 12,
        1 => bytes[at + rng.below(ROW_BYTES)] = rng.byte(),
        2 => drop(bytes.drain(at..at + ROW_BYTES)),
        3 => drop(bytes.splice(at..at, row)),
        4 => {
            let kind = rng.pick(&[1, 4, 6, 7, 8, 10, 11, 12]);
            drop(bytes.splice(at..at, Row::plain(kind).bytes()));
        }
        _ => {
            let other = rng.below(rows) * ROW_BYTES;
            for i in 0..ROW_BYTES {
                bytes.swap(at + i, other + i);
            }
        }
    }
}
