//! The worked listing and the cases (A) to (J) of 01, with the answers that the
//! document gives.

mod listing;

use independent::{check, harden, limits, read_back, run_hardened, run_source, Ran};

const NO_JUMP: u16 = 65_535;

fn bytes(text: &str) -> Vec<u8> {
    let digits: Vec<char> = text.chars().filter(|c| *c != '\n').collect();
    let pair = |pair: &[char]| u8::from_str_radix(&pair.iter().collect::<String>(), 16).unwrap();
    digits.chunks(2).map(pair).collect()
}

/// "With v1 = 1, all else 0"
fn first_values() -> [u16; 16] {
    let mut v = [0; 16];
    v[1] = 1;
    v
}

/// A hardened run of the listing, its trace, and what the buffers must be after.
fn struck(budget: u16, k: u16, place: u16) -> (Ran, Vec<u16>) {
    let lines = bytes(listing::LINES);
    let mut slots = vec![9999; usize::from(budget) + 2];
    let mut words = vec![7; 1030];
    let ran = run_hardened(&lines, &first_values(), budget, k, place, &mut slots, &mut words);
    assert!(words[..1024].iter().all(|w| *w == 0));
    assert!(words[1024..].iter().all(|w| *w == 7));
    let traced = usize::from(ran.traced);
    assert!(slots[traced..].iter().all(|s| *s == 9999));
    slots.truncate(traced);
    (ran, slots)
}

fn expect(got: (Ran, Vec<u16>), outcome: u8, steps: u16, trace: &[u16], v0: u16) {
    let (ran, slots) = got;
    let mut variables = first_values();
    variables[0] = v0;
    assert_eq!((ran.number, ran.outcome, ran.steps), (0, outcome, steps));
    assert_eq!(slots, trace);
    assert_eq!(ran.variables, variables);
}

#[test]
fn the_listing() {
    assert_eq!(bytes(listing::ROWS), limits::worked_listing());
    let mut out = vec![0xee; 150];
    let written = harden(&bytes(listing::ROWS), &mut out);
    assert_eq!((written.number, written.length), (0, 140));
    assert_eq!(out[..140], bytes(listing::LINES));
    assert!(out[140..].iter().all(|b| *b == 0xee));
}

#[test]
fn the_listing_read_back() {
    let mut out = vec![0xee; 40];
    let written = read_back(&bytes(listing::LINES), &mut out);
    assert_eq!((written.number, written.length), (0, 36));
    assert_eq!(out[..36], bytes(listing::ROWS));
    assert!(out[36..].iter().all(|b| *b == 0xee));
}

#[test]
fn case_a() {
    let mut slots = vec![9999; 20];
    let ran = run_source(&bytes(listing::ROWS), &first_values(), 20, &mut slots);
    assert_eq!(slots[3..], [9999; 17]);
    slots.truncate(usize::from(ran.traced));
    expect((ran, slots), 1, 9, &[1, 3, 3], 0);
}

#[test]
fn case_b() {
    expect(struck(20, NO_JUMP, 0), 1, 12, &[1, 3, 3], 0);
}

#[test]
fn case_c() {
    expect(struck(20, 4, 6), 2, 5, &[1, 3], 1);
}

#[test]
fn case_d() {
    expect(struck(20, 0, 1), 1, 3, &[], 0);
}

#[test]
fn case_e() {
    expect(struck(20, 0, 7), 2, 1, &[], 0);
}

#[test]
fn case_f() {
    expect(struck(20, 0, 8), 4, 0, &[], 0);
}

#[test]
fn case_g() {
    expect(struck(11, NO_JUMP, 0), 0, 11, &[1, 3, 3], 0);
}

#[test]
fn case_h() {
    assert_eq!(check(&[]), 1);
}

#[test]
fn case_i() {
    assert_eq!(check(&bytes("010000000000")), 4);
}

#[test]
fn case_j() {
    let mut out = vec![0; 20];
    let written = harden(&bytes("010000000000060000000000"), &mut out);
    assert_eq!((written.number, written.length), (0, 20));
    assert_eq!(out, bytes("2800000000000000000001000200000000000000"));
}
