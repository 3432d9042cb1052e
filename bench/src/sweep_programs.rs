//! The programs whose sweeps are timed. All of them finish.

use crate::calls::Variables;
use crate::programs::{
    add, bytes, call, first_values, plain, row, Program, DIFFERS, EQUALS, LESS, SET, SUBTRACT,
};
use crate::table::{Row, BREAK, CONTINUE, DO, ELSE, END, FUNCTION, IF, LOOP};

fn set(p: u8, n: u16) -> Row {
    row(DO, SET, p, 0, n)
}

fn copy(p: u8, q: u8) -> Row {
    row(DO, 1, p, q, 0)
}

fn subtract(p: u8, q: u8) -> Row {
    row(DO, SUBTRACT, p, q, 0)
}

/// These, v15 = 1, all else 0.
fn values(given: &[(usize, u16)]) -> Variables {
    let mut variables = first_values();
    given.iter().for_each(|(at, value)| variables[*at] = *value);
    variables
}

/// 60 rows of three functions, as a tariff may have them: some 300 hardened steps.
pub fn tariff() -> Program {
    let rows = [tariff_body().as_slice(), &charge(), &discount()].concat();
    assert_eq!(rows.len(), 60);
    Program { name: "60 rows", rows: bytes(&rows), variables: values(&[(2, 5), (5, 5), (9, 99)]) }
}

/// A round for each of v2 bands, which charges or discounts.
fn tariff_body() -> [Row; 29] {
    [
        plain(FUNCTION),
        set(1, 0),
        row(LOOP, LESS, 1, 2, 0),
        add(1, 15),
        copy(3, 1),
        row(IF, EQUALS, 1, 0, 3),
        set(4, 5),
        call(1),
        plain(ELSE),
        row(IF, LESS, 1, 5, 0),
        add(4, 1),
        plain(ELSE),
        subtract(4, 15),
        plain(END),
        call(2),
        plain(END),
        add(6, 4),
        row(IF, DIFFERS, 6, 0, 0),
        copy(7, 6),
        plain(END),
        plain(END),
        add(8, 6),
        row(IF, LESS, 8, 9, 0),
        set(8, 0),
        set(10, 1),
        call(1),
        plain(END),
        call(2),
        plain(END),
    ]
}

/// Four rounds with a continue and a break.
fn charge() -> [Row; 15] {
    [
        plain(FUNCTION),
        set(11, 4),
        row(LOOP, DIFFERS, 11, 0, 0),
        subtract(11, 15),
        row(IF, EQUALS, 11, 0, 2),
        plain(CONTINUE),
        plain(END),
        add(4, 11),
        row(IF, LESS, 4, 11, 0),
        plain(BREAK),
        plain(END),
        plain(END),
        add(12, 4),
        copy(13, 12),
        plain(END),
    ]
}

/// An if with an else, then two rounds.
fn discount() -> [Row; 16] {
    [
        plain(FUNCTION),
        row(IF, LESS, 3, 2, 0),
        add(6, 3),
        subtract(6, 15),
        plain(ELSE),
        set(6, 7),
        plain(END),
        set(14, 2),
        row(LOOP, DIFFERS, 14, 0, 0),
        subtract(14, 15),
        add(12, 14),
        row(IF, EQUALS, 12, 0, 9),
        set(12, 0),
        plain(END),
        plain(END),
        plain(END),
    ]
}

/// Two loops in each other with ifs: so many rounds of 100 rounds of about 12 hardened steps.
pub fn rounds(count: u16) -> Program {
    let rows = [
        plain(FUNCTION),
        row(LOOP, DIFFERS, 1, 0, 0),
        subtract(1, 15),
        set(2, 100),
        row(LOOP, DIFFERS, 2, 0, 0),
        subtract(2, 15),
        row(IF, LESS, 2, 4, 0),
        row(IF, EQUALS, 3, 0, 0),
        row(IF, DIFFERS, 2, 0, 7),
        plain(END),
        plain(END),
        plain(ELSE),
        row(IF, EQUALS, 3, 0, 0),
        row(IF, LESS, 1, 2, 0),
        plain(END),
        plain(END),
        plain(END),
        row(IF, EQUALS, 3, 0, 1),
        plain(END),
        plain(END),
        row(IF, LESS, 1, 4, 0),
        add(5, 1),
        plain(END),
        plain(END),
        plain(END),
    ];
    let variables = values(&[(1, count), (4, 50)]);
    Program { name: "loops with ifs", rows: bytes(&rows), variables }
}

/// A loop of so many rounds, 8 hardened steps each and 3 at the end. Its one do is no weak one: if
/// it is left out or done twice, a round more or less makes up for it, or it overflows.
/// Behind it stand so many dos that are never reached: 12 places and 2 for each of them.
pub fn counting(rounds: u16, unreached: usize) -> Program {
    let mut rows = vec![plain(FUNCTION)];
    rows.extend(counting_rows());
    rows.push(row(IF, DIFFERS, 1, 0, 0));
    rows.extend((0..unreached).map(|i| set(2, i as u16)));
    rows.extend([plain(END), plain(END)]);
    Program { name: "a counting loop", rows: bytes(&rows), variables: values(&[(0, rounds)]) }
}

/// The same behind a do that is weak: without it, and with it done twice, the run finishes with
/// another trace.
pub fn weak_first(rounds: u16) -> Program {
    let mut rows = vec![plain(FUNCTION), set(2, 1)];
    rows.extend(counting_rows());
    rows.push(plain(END));
    Program { name: "a weak do first", rows: bytes(&rows), variables: values(&[(0, rounds)]) }
}

fn counting_rows() -> [Row; 7] {
    [
        row(LOOP, DIFFERS, 0, 0, 0),
        subtract(0, 15),
        row(IF, EQUALS, 1, 0, 0),
        row(IF, EQUALS, 1, 0, 0),
        plain(END),
        plain(END),
        plain(END),
    ]
}
