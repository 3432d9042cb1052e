//! The files of `independent replay-measure`: tests of `measure` and of
//! `hardened_steps`.

use crate::faults;
use crate::limits;
use crate::make::{self, bytes_of};
use crate::protocol::{self, Test};
use crate::random::Random;
use crate::replay::LINE_LIMIT;
use crate::replay_fault;
use crate::row::{self, Row, ROW_BYTES};
use crate::switch_limits;
use crate::switch_places;

/// The fixed tests, then `count` random ones.
pub fn tests(seed: u64, count: usize) -> Vec<Test> {
    let mut rng = Random::new(seed);
    let mut tests = fixed();
    tests.extend((0..count).map(|_| random_test(&mut rng)));
    assert!(tests.iter().all(|t| t.ask.len() < LINE_LIMIT && t.answer.len() < LINE_LIMIT));
    tests
}

/// The worked tables and their beginnings, the limit tables, every row in every place
/// around a switch, the highest figures, a table of each fault; sums at the edges.
pub fn fixed() -> Vec<Test> {
    let mut tables = beginnings(&limits::worked_listing(), 1);
    tables.extend(beginnings(&switch_limits::worked_switch(), ROW_BYTES));
    tables.extend(beginnings(&switch_limits::bands(), ROW_BYTES));
    tables.push(function_and_end());
    tables.extend(limits::all().into_iter().map(|(rows, _)| rows));
    tables.extend(switch_places::all().iter().map(|(_, rows)| bytes_of(rows)));
    tables.extend(high_figures());
    tables.extend(most_in_each_place());
    tables.extend(one_of_each_fault());
    let mut tests: Vec<Test> = tables.iter().map(|rows| protocol::measure(rows)).collect();
    tests.extend(sums());
    tests
}

/// The first 0 bytes of a table, the first so many, twice so many, up to all of them.
fn beginnings(rows: &[u8], step: usize) -> Vec<Vec<u8>> {
    (0..=rows.len()).step_by(step).map(|end| rows[..end].to_vec()).collect()
}

fn function_and_end() -> Vec<u8> {
    bytes_of(&[row::FUNCTION, row::END].map(Row::plain))
}

/// As many lines and as high a value as 1,024 rows can have, by calls, which take two of
/// each; as many regions, in eight functions of 64; each number of them in one function.
fn high_figures() -> Vec<Vec<u8>> {
    let mut calls = vec![Row::plain(row::CALL); 1024];
    (calls[0], calls[1023]) = (Row::plain(row::FUNCTION), Row::plain(row::END));
    let mut tables = vec![bytes_of(&calls), limits::regions(64, row::LOOP).repeat(8)];
    tables.extend((1..=64).map(limits::regions_with_else));
    tables
}

/// Three functions, of which the first, the second or the last has the most regions, or
/// two of them have as many.
fn most_in_each_place() -> Vec<Vec<u8>> {
    let counts = [[5, 2, 3], [2, 5, 3], [2, 3, 5], [4, 4, 1], [4, 1, 4], [1, 4, 4], [3, 3, 3]];
    let tables = counts.map(|counts| counts.map(|count| limits::regions(count, row::IF)).concat());
    tables.to_vec()
}

/// Every maker's table for the same seed.
fn one_of_each_fault() -> Vec<Vec<u8>> {
    faults::ALL.iter().map(|(_, make)| make(&mut Random::new(1)).0).collect()
}

/// 01's run of nine steps and three dos; all that the edges of 16 bits can sum up to.
fn sums() -> Vec<Test> {
    let edges = [0, 1, 32_768, 65_534, 65_535];
    let mut sums = vec![protocol::total(9, 3, 0)];
    for steps in edges {
        for dos in edges {
            sums.extend(edges.map(|calls| protocol::total(steps, dos, calls)));
        }
    }
    sums
}

/// Half of them accepted tables, a quarter most often refused ones, the rest sums.
fn random_test(rng: &mut Random) -> Test {
    match rng.below(100) {
        0..=49 => protocol::measure(&make::any_table(rng)),
        50..=77 => protocol::measure(&replay_fault::table(rng)),
        _ => protocol::total(rng.value(), rng.value(), rng.value()),
    }
}
