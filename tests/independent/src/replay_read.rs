//! The files of `independent replay-read`: tests of reading back.

use crate::damage;
use crate::limits;
use crate::make;
use crate::protocol::{self, Test};
use crate::random::Random;
use crate::replay::LINE_LIMIT;
use crate::row::ROW_BYTES;
use crate::switch_limits;

/// The fixed tests, one change of each byte of 01's listing, then `count` random
/// ones.
pub fn tests(seed: u64, count: usize) -> Vec<Test> {
    let mut rng = Random::new(seed);
    let mut tests = fixed();
    tests.extend(listing_changes(&mut rng));
    let stop = tests.len() + count;
    while tests.len() < stop {
        tests.push(random_test(&mut rng));
    }
    assert!(tests.iter().all(|t| t.ask.len() < LINE_LIMIT && t.answer.len() < LINE_LIMIT));
    tests
}

/// The worked listing, nothing, the limit tables and what lies beyond them.
pub fn fixed() -> Vec<Test> {
    let listing = damage::hardened(&limits::worked_listing());
    let mut tests = Vec::new();
    for length in [36, 35, 37, 60, 0, 1, 6] {
        tests.push(protocol::read(length, &listing));
    }
    for length in [0, 1, 20, 139] {
        tests.push(protocol::read(36, &listing[..length]));
    }
    for (rows, number) in limits::all() {
        if number == 0 {
            let lines = damage::hardened(&rows);
            let exact = damage::read_back_length(&rows);
            tests.push(protocol::read(exact, &lines));
            if lines.len() < 10_000 {
                tests.push(protocol::read(exact - 1, &lines));
            }
        }
    }
    let full = damage::hardened(&limits::rows(1024));
    tests.push(protocol::read(6 * 1024 - 1, &full));
    for lines in damage::beyond_limits() {
        tests.push(protocol::read(48, &lines));
    }
    tests
}

/// Each of the 140 bytes of the listing's answer changed once, by chance.
fn listing_changes(rng: &mut Random) -> Vec<Test> {
    let listing = damage::hardened(&limits::worked_listing());
    let changed = |at: usize, rng: &mut Random| {
        let mut bytes = listing.clone();
        bytes[at] = damage::other_byte(rng, bytes[at]);
        bytes
    };
    (0..listing.len()).map(|at| protocol::read(36, &changed(at, rng))).collect()
}

/// Every other value of every byte of the listing's answer: 140 x 255 tests.
pub fn every_byte() -> Vec<Test> {
    let listing = damage::hardened(&limits::worked_listing());
    let mut tests = Vec::new();
    for at in 0..listing.len() {
        for step in 1..=255 {
            let mut bytes = listing.clone();
            bytes[at] = bytes[at].wrapping_add(step);
            tests.push(protocol::read(36, &bytes));
        }
    }
    tests
}

/// A hardened table as it is, or damaged, or damaged twice.
fn random_test(rng: &mut Random) -> Test {
    let rows = some_table(rng);
    let lines = damage::hardened(&rows);
    let bytes = match rng.below(10) {
        0..=2 => lines,
        3..=8 => damage::any(rng, &lines),
        _ => {
            let once = damage::any(rng, &lines);
            damage::any(rng, &once)
        }
    };
    let length = out_length(rng, damage::read_back_length(&rows));
    protocol::read(length, &bytes)
}

/// The listing's table or a worked switch now and then, otherwise any, mostly small.
fn some_table(rng: &mut Random) -> Vec<u8> {
    match rng.below(20) {
        0..=1 => limits::worked_listing(),
        2 => switch_limits::worked_switch(),
        3 => switch_limits::bands(),
        4..=8 => {
            let rows = rng.between(2, 12);
            make::table_of(rng, rows)
        }
        _ => make::any_table(rng),
    }
}

/// Exact, longer, one byte short, none, half, some whole rows.
fn out_length(rng: &mut Random, exact: usize) -> usize {
    match rng.below(12) {
        0..=5 => exact,
        6..=7 => exact + rng.between(1, 50),
        8 => exact - 1,
        9 => 0,
        10 => exact / 2,
        _ => ROW_BYTES * rng.below(exact / ROW_BYTES + 1),
    }
}
