//! Reading back: the inverse of hardening, and nothing more. Of a switch its ifs
//! come back.

mod flat_chain;

use flat_chain::chain;
use independent::random::Random;
use independent::{check, damage, harden, limits, make, read_back};

/// The rows that bytes are read back as, or the number.
fn read(lines: &[u8]) -> Result<Vec<u8>, u8> {
    let mut out = vec![1; 6 * 1024];
    let written = read_back(lines, &mut out);
    assert!(out[written.length..].iter().all(|b| *b == 1));
    out.truncate(written.length);
    match written.number {
        0 => Ok(out),
        number => Err(number),
    }
}

/// Whatever is read back is an accepted table of 01's rows with exactly these lines.
fn consistent(lines: &[u8]) -> bool {
    match read(lines) {
        Ok(rows) => {
            assert_eq!(check(&rows), 0);
            assert!(rows.chunks(6).all(|row| row[0] <= 9), "a row of a switch");
            let mut out = vec![1; lines.len()];
            assert_eq!(harden(&rows, &mut out).length, lines.len());
            assert_eq!(out, lines);
            true
        }
        Err(number) => {
            assert_eq!(number, 10);
            false
        }
    }
}

#[test]
fn the_inverse_of_hardening() {
    for seed in 0..20_000 {
        let rows = make::any_table(&mut Random::new(seed));
        assert_eq!(read(&damage::hardened(&rows)), Ok(chain(&rows)), "seed {seed}");
    }
}

#[test]
fn the_inverse_on_every_short_table() {
    let alphabet: [u8; 9] = [1, 2, 3, 4, 5, 6, 7, 8, 9];
    let mut accepted = 0;
    for length in 2..=8 {
        for code in 0..9_usize.pow(length - 2) {
            let mut rows = vec![1, 0, 0, 0, 0, 0];
            let mut code = code;
            for _ in 2..length {
                rows.extend([alphabet[code % 9], 0, 0, 0, 0, 0]);
                code /= 9;
            }
            rows.extend([6, 0, 0, 0, 0, 0]);
            if check(&rows) == 0 {
                accepted += 1;
                assert_eq!(read(&damage::hardened(&rows)), Ok(rows));
            }
        }
    }
    assert!(accepted > 3000, "{accepted}");
}

/// All 35,700 one-byte changes of the listing. Those that stay some table's are
/// the changes of operands that leave all fields right, counted below by hand.
#[test]
fn every_one_byte_change_of_the_listing() {
    let lines = damage::hardened(&limits::worked_listing());
    let mut others = 0;
    for at in 0..lines.len() {
        for byte in 0..=255 {
            let mut changed = lines.clone();
            changed[at] = byte;
            if changed != lines && consistent(&changed) {
                others += 1;
                assert!([0x21, 0x23].contains(&lines[at / 20 * 20]));
                assert!((1..6).contains(&(at % 20)), "byte {at}");
            }
        }
    }
    // First do (op 0, n 2): 15 other p, 2 x 255 other n.
    // Test (op 1, n 0): op 0, and op 2 since q and n are 0; p, n as above.
    // Second do (op 3, q 1): op 1 and 2, not 0 since q is not 0; 15 p, 15 q.
    assert_eq!(others, (15 + 510) + (2 + 15 + 510) + (2 + 15 + 15));
}

#[test]
fn damage_is_refused_or_another_tables() {
    let mut kept = 0;
    for seed in 0..20_000 {
        let mut rng = Random::new(seed);
        let size = rng.between(2, 30);
        let lines = damage::hardened(&make::table_of(&mut rng, size));
        let damaged = damage::any(&mut rng, &lines);
        kept += usize::from(consistent(&damaged));
    }
    assert!(kept > 1000, "{kept}");
}

#[test]
fn any_bytes_at_all() {
    for seed in 0..5000 {
        let mut rng = Random::new(seed);
        let kinds: Vec<u8> = (0..rng.below(40)).map(|_| 0x21 + rng.byte() % 8).collect();
        let lines: Vec<u8> = kinds
            .iter()
            .flat_map(|kind| {
                let mut line = [0; 20];
                line[0] = *kind;
                line[18] = rng.byte() % 40;
                line
            })
            .collect();
        consistent(&lines);
    }
    // nested as deep as bytes allow
    let deep: Vec<u8> = (0..2048).flat_map(|_| [vec![0x23], vec![0; 19]].concat()).collect();
    assert_eq!(read(&deep), Err(10));
    assert_eq!(read(&deep.repeat(40)), Err(10));
    assert_eq!(read(&[]), Err(10));
}
