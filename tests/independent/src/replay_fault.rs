//! The files of `independent replay-fault`: tests of `fault`.

use crate::faults;
use crate::faults_limits;
use crate::limits;
use crate::make::{self, bytes_of};
use crate::protocol::{self, Test};
use crate::random::Random;
use crate::row::ROW_BYTES;
use crate::switch_limits;
use crate::switch_places;
use crate::table::LIMITS;

/// The fixed tests, then `count` random ones.
pub fn tests(seed: u64, count: usize) -> Vec<Test> {
    let mut rng = Random::new(seed);
    let mut tests = fixed();
    tests.extend((0..count).map(|_| protocol::fault(&table(&mut rng))));
    tests
}

/// The worked listing, each of its beginnings, and the limit tables; the beginnings
/// of a table with switches, and every row in every place around a switch.
pub fn fixed() -> Vec<Test> {
    let listing = limits::worked_listing();
    let mut tests: Vec<Test> =
        (0..=listing.len()).map(|end| protocol::fault(&listing[..end])).collect();
    tests.extend(limits::all().iter().map(|(rows, _)| protocol::fault(rows)));
    let bands = switch_limits::bands();
    let whole_rows = (0..=bands.len()).step_by(ROW_BYTES);
    tests.extend(whole_rows.map(|end| protocol::fault(&bands[..end])));
    let places = switch_places::all();
    tests.extend(places.iter().map(|(_, rows)| protocol::fault(&bytes_of(rows))));
    tests
}

/// A table; of those with over 1,024 rows, as given or as their chain, not many.
pub fn table(rng: &mut Random) -> Vec<u8> {
    loop {
        let rows = any(rng);
        let count = rows.len() / ROW_BYTES;
        let is_few = count <= 400;
        let is_some = count <= LIMITS.rows && rng.percent(30);
        if is_few || is_some || rng.percent(15) {
            return rows;
        }
    }
}

/// Most tables are wrong on purpose; some of them twice, so that the order of the
/// rows and of the causes tells.
fn any(rng: &mut Random) -> Vec<u8> {
    match rng.below(100) {
        0..=9 => make::any_table(rng),
        10..=49 => faults::any(rng).0,
        50..=59 => faults_limits::no_callee(rng).0,
        60..=79 => faults::mutated(rng),
        _ => spoilt_again(rng),
    }
}

/// A faulty table in which a row is given another kind, or is left out.
fn spoilt_again(rng: &mut Random) -> Vec<u8> {
    let mut rows = faults::any(rng).0;
    if rows.len() < ROW_BYTES {
        return rows;
    }
    let from = ROW_BYTES * rng.below(rows.len() / ROW_BYTES);
    if rng.percent(50) {
        rows.drain(from..from + ROW_BYTES);
    } else {
        let kinds = [1, 4, 6, 7, 8, 10, 11, 12];
        rows[from..from + ROW_BYTES].fill(0);
        rows[from] = rng.pick(&kinds);
    }
    rows
}
