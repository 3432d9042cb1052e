//! The numbers 1 to 7 and 11 and their order, against the way the tables were made
//! and against a flat reading of the table of refusals that is used in tests only.

mod flat;

use independent::fault::{self, Fault};
use independent::random::Random;
use independent::row::Row;
use independent::{check, faults, harden, make};

#[test]
fn each_fault_has_the_number_it_was_made_for() {
    for (name, maker) in faults::ALL {
        let rounds = if name.contains("1,024") { 20 } else { 400 };
        for seed in 0..rounds {
            let (rows, number) = maker(&mut Random::new(seed));
            assert_eq!(check(&rows), number, "{name}, seed {seed}");
            assert_eq!(like_the_flat_reading(&rows), number, "flat: {name}, seed {seed}");
        }
    }
}

/// The number and the row as the flat reading finds them.
fn like_the_flat_reading(rows: &[u8]) -> u8 {
    let (number, row) = flat::fault(rows);
    assert_eq!(check(rows), number, "{rows:?}");
    assert_eq!(fault::find(rows), Fault { number, row }, "{rows:?}");
    number
}

#[test]
fn every_short_table_of_an_alphabet() {
    let alphabet: [[u8; 6]; 12] = [
        [1, 0, 0, 0, 0, 0],
        [2, 0, 15, 0, 255, 255],
        [3, 2, 1, 2, 0, 0],
        [4, 0, 0, 0, 0, 0],
        [5, 0, 0, 0, 1, 0],
        [6, 0, 0, 0, 0, 0],
        [7, 0, 0, 0, 0, 0],
        [8, 0, 0, 0, 0, 0],
        [9, 0, 0, 0, 0, 0],
        [9, 0, 0, 0, 1, 0],
        [4, 0, 0, 1, 0, 0],
        [1, 0, 0, 0, 0, 1],
    ];
    for length in 0..=5 {
        let mut digits = vec![0; length];
        loop {
            let rows: Vec<u8> = digits.iter().flat_map(|d| alphabet[*d]).collect();
            like_the_flat_reading(&rows);
            if !count_up(&mut digits, alphabet.len()) {
                break;
            }
        }
    }
}

/// The next number; false after the last.
fn count_up(digits: &mut [usize], base: usize) -> bool {
    for digit in digits.iter_mut() {
        *digit += 1;
        if *digit < base {
            return true;
        }
        *digit = 0;
    }
    false
}

#[test]
fn every_first_row_after_a_function() {
    // all kinds and ops with some operands
    for kind in 0..=255 {
        for op in 0..=255 {
            for [p, q, low, high] in
                [[0; 4], [15, 0, 0, 0], [15, 15, 0, 0], [0, 16, 0, 0], [16, 0, 0, 0], [0, 0, 0, 1]]
            {
                let rows =
                    [[1, 0, 0, 0, 0, 0], [kind, op, p, q, low, high], [6, 0, 0, 0, 0, 0]].concat();
                like_the_flat_reading(&rows);
            }
        }
    }
}

#[test]
fn random_rows_against_the_flat_reading() {
    let mut seen = [0; 12];
    for seed in 0..60_000 {
        let mut rng = Random::new(seed);
        let rows = if seed % 2 == 0 { faults::mutated(&mut rng) } else { weighted(&mut rng) };
        let number = like_the_flat_reading(&rows);
        seen[usize::from(number)] += 1;
        let mut out = vec![3; 60_000];
        assert_eq!(harden(&rows, &mut out).number, number);
    }
    assert!([0, 3, 4, 5, 6, 7, 11].iter().all(|n| seen[*n] > 20), "{seen:?}");
}

/// Long rows in which the limits are reached: few ends, or many functions, or
/// many parts.
fn weighted(rng: &mut Random) -> Vec<u8> {
    let kinds: &[u8] = match rng.below(5) {
        0 => &[3, 3, 5, 5, 6],
        1 => &[],
        2 => &[3, 4, 6, 3, 6, 5, 6],
        3 => &[2, 6, 10, 11, 11, 11, 12],
        _ => &[1, 2, 3, 4, 5, 6, 6, 7, 8, 9, 10, 11, 12],
    };
    let mut rows = vec![Row::plain(1)];
    for i in 0..rng.between(1, 150) {
        let kind = match kinds {
            // function, end, function, end, and a stray row now and then
            [] if rng.percent(99) => [6, 1][i % 2],
            [] => 1 + rng.byte() % 9,
            kinds => rng.pick(kinds),
        };
        rows.push(match kind {
            2 => make::do_row(rng),
            3 | 5 => make::test_row(rng, kind),
            11 => make::case_row(rng.word() % 300),
            _ => Row::plain(kind),
        });
        // a switch goes on with a case or a default most of the time
        if kind == 10 && rng.percent(90) {
            rows.push(rng.pick(&[make::case_row(300), Row::plain(12)]));
        }
    }
    if rng.percent(70) {
        close(&mut rows);
    }
    make::bytes_of(&rows)
}

/// Ends for all that is open.
fn close(rows: &mut Vec<Row>) {
    let opened = rows.iter().filter(|row| matches!(row.kind, 1 | 3 | 5 | 10)).count();
    let closed = rows.iter().filter(|row| row.kind == 6).count();
    for _ in closed..opened {
        rows.push(Row::plain(6));
    }
}
