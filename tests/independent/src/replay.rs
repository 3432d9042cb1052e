//! The files of `independent replay`: tests of `check` and `harden`.

use std::fs;
use std::io;
use std::path::Path;

use crate::damage;
use crate::faults;
use crate::faults_limits;
use crate::limits;
use crate::make::{self, bytes_of};
use crate::protocol::{self, Test};
use crate::random::Random;
use crate::switch_places;
use crate::table;

/// No line has so many characters.
pub const LINE_LIMIT: usize = 200_000;

/// Writes DIR/stdin and DIR/stdout, one line for each test.
pub fn write(tests: &[Test], directory: &Path) -> io::Result<()> {
    let lines = |pick: fn(&Test) -> &String| -> String {
        tests.iter().flat_map(|test| [pick(test).as_str(), "\n"]).collect()
    };
    fs::create_dir_all(directory)?;
    fs::write(directory.join("stdin"), lines(|test| &test.ask))?;
    fs::write(directory.join("stdout"), lines(|test| &test.answer))
}

/// The fixed tests, then `count` random ones.
pub fn tests(seed: u64, count: usize) -> Vec<Test> {
    let mut tests = fixed();
    let mut rng = Random::new(seed);
    let stop = tests.len() + count;
    while tests.len() < stop {
        tests.extend(random_tests(&mut rng));
    }
    tests.truncate(stop);
    assert!(tests.iter().all(|t| t.ask.len() < LINE_LIMIT && t.answer.len() < LINE_LIMIT));
    tests
}

/// The worked listing of 01, the limit tables, outputs exact, one byte short and
/// longer; every row in every place around a switch.
pub fn fixed() -> Vec<Test> {
    let listing = limits::worked_listing();
    let mut tests = vec![protocol::check(&listing)];
    for length in [140, 139, 141, 160, 200, 0, 1, 20] {
        tests.push(protocol::harden(length, &listing));
    }
    tests.push(protocol::check(&[]));
    tests.push(protocol::harden(8, &[]));
    for (rows, number) in limits::all() {
        tests.push(protocol::check(&rows));
        if number == 0 {
            let exact = hardened_length(&rows);
            tests.push(protocol::harden(exact, &rows));
            tests.push(protocol::harden(exact - 1, &rows));
        } else {
            tests.push(protocol::harden(64, &rows));
        }
    }
    let places = switch_places::all();
    tests.extend(places.iter().map(|(_, rows)| protocol::check(&bytes_of(rows))));
    tests
}

/// Bytes of the hardened table.
fn hardened_length(rows: &[u8]) -> usize {
    damage::hardened(rows).len()
}

/// A table as a `harden` line, for some also a `check` line.
fn random_tests(rng: &mut Random) -> Vec<Test> {
    let rows = random_table(rng);
    let length = out_length(rng, &rows);
    let mut tests = vec![protocol::harden(length, &rows)];
    if rng.percent(12) {
        tests.push(protocol::check(&rows));
    }
    tests
}

/// Half of the tables are accepted, most of the others are wrong on purpose.
fn random_table(rng: &mut Random) -> Vec<u8> {
    match rng.below(100) {
        0..=49 => make::any_table(rng),
        50..=80 => faulty(rng),
        81..=84 => faults_limits::no_callee(rng).0,
        _ => faults::mutated(rng),
    }
}

/// A table that is wrong on purpose; of those with many hundred rows only few.
fn faulty(rng: &mut Random) -> Vec<u8> {
    loop {
        let (rows, _) = faults::any(rng);
        if rows.len() < 6 * 300 || rng.percent(25) {
            return rows;
        }
    }
}

/// "exact length, exact + 1..50, one byte short, 0, half"; for a refused table,
/// some lengths that would do for a few lines.
fn out_length(rng: &mut Random, rows: &[u8]) -> usize {
    let exact = match table::parse(rows) {
        Ok(_) => hardened_length(rows),
        Err(_) => 20 * rng.between(0, 12),
    };
    match rng.below(10) {
        0..=3 => exact,
        4..=5 => exact + rng.between(1, 50),
        6..=7 => exact.saturating_sub(1),
        8 => 0,
        _ => exact / 2,
    }
}
