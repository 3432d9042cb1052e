//! Hardened bytes that are no table's, or are another table's than they were:
//! what reading back must tell apart.

use crate::harden;
use crate::limits;
use crate::line::{self, Line, LINE_BYTES};
use crate::make::{self, bytes_of};
use crate::random::Random;
use crate::row::{self, ROW_BYTES};
use crate::switch_limits;
use crate::table::{self, Limits};

/// The hardened bytes of an accepted table.
pub fn hardened(rows: &[u8]) -> Vec<u8> {
    let table = table::parse(rows).expect("an accepted table");
    line::to_bytes(&harden::lines(&table))
}

/// The bytes that the hardened bytes of an accepted table are read back as: its
/// rows, a switch written as its chain.
pub fn read_back_length(rows: &[u8]) -> usize {
    ROW_BYTES * table::parse(rows).expect("an accepted table").rows
}

/// What the lines of a table would be if 01 had larger limits.
pub fn hardened_beyond_limits(rows: &[u8]) -> Vec<u8> {
    let limits = Limits { rows: 2000, functions: 100, open: 40, regions: 200 };
    let table = table::parse_within(rows, &limits).expect("a table within larger limits");
    line::to_bytes(&harden::lines(&table))
}

/// Lines that only larger limits would give.
pub fn beyond_limits() -> Vec<Vec<u8>> {
    let tables = [
        limits::functions(33),
        limits::open(17, &[row::IF]),
        limits::open(17, &[row::LOOP]),
        limits::open_in_else(17),
        limits::regions(65, row::IF),
        limits::regions_with_else(65),
        limits::rows(1025),
        switch_limits::one_switch(17),
        bytes_of(&switch_limits::chain(1025)),
    ];
    tables.iter().map(|rows| hardened_beyond_limits(rows)).collect()
}

/// One random damage to hardened bytes. Some leave them another table's, a few
/// leave them as they were.
pub fn any(rng: &mut Random, bytes: &[u8]) -> Vec<u8> {
    match rng.below(16) {
        0..=4 => byte_changed(rng, bytes),
        5 => ragged(rng, bytes),
        6 => kind_changed(rng, bytes),
        7..=8 => order_changed(rng, bytes),
        9 => values_moved(rng, bytes),
        10..=11 => word_moved(rng, bytes),
        12..=13 => operands_changed(rng, bytes),
        14 => joined(rng, bytes),
        _ => Vec::new(),
    }
}

/// One byte becomes another byte.
pub fn byte_changed(rng: &mut Random, bytes: &[u8]) -> Vec<u8> {
    let mut bytes = bytes.to_vec();
    if !bytes.is_empty() {
        let at = rng.below(bytes.len());
        bytes[at] = other_byte(rng, bytes[at]);
    }
    bytes
}

/// Near the old value as often as anywhere.
pub fn other_byte(rng: &mut Random, old: u8) -> u8 {
    match rng.below(4) {
        0 => old.wrapping_add(1),
        1 => old.wrapping_sub(1),
        2 => old ^ (1 << rng.below(8)),
        _ => old.wrapping_add(1 + rng.byte() % 255),
    }
}

fn ragged(rng: &mut Random, bytes: &[u8]) -> Vec<u8> {
    let mut bytes = bytes.to_vec();
    if rng.percent(50) || bytes.len() < LINE_BYTES {
        for _ in 0..rng.between(1, LINE_BYTES - 1) {
            bytes.push(rng.pick(&[0, 0, 0x21, 0x28, 0xff]));
        }
    } else {
        bytes.truncate(bytes.len() - rng.between(1, LINE_BYTES - 1));
    }
    bytes
}

fn kind_changed(rng: &mut Random, bytes: &[u8]) -> Vec<u8> {
    let mut lines = line::from_bytes(bytes);
    if let Some(line) = some_line(rng, &mut lines) {
        line.kind = rng.pick(&[0x21, 0x22, 0x23, 0x24, 0x25, 0x26, 0x27, 0x28, 0x20, 0x29, 0, 255]);
    }
    line::to_bytes(&lines)
}

/// A random line, if there is one.
fn some_line<'a>(rng: &mut Random, lines: &'a mut [Line]) -> Option<&'a mut Line> {
    if lines.is_empty() {
        return None;
    }
    let at = rng.below(lines.len());
    lines.get_mut(at)
}

/// Lines swapped, dropped, repeated, moved or cut off.
fn order_changed(rng: &mut Random, bytes: &[u8]) -> Vec<u8> {
    let mut lines = line::from_bytes(bytes);
    if lines.is_empty() {
        return Vec::new();
    }
    let one = rng.below(lines.len());
    let other = rng.below(lines.len());
    match rng.below(6) {
        0 => lines.swap(one, other),
        1 => lines.swap(one, (one + 1).min(bytes.len() / LINE_BYTES - 1)),
        2 => drop(lines.remove(one)),
        3 => lines.insert(one, lines[one]),
        4 => lines.insert(other, lines[one]),
        _ => lines.truncate(one),
    }
    line::to_bytes(&lines)
}

/// The values of all guards are moved by the same amount, as if the bases
/// counted from elsewhere; or the regions are, or the line numbers.
fn values_moved(rng: &mut Random, bytes: &[u8]) -> Vec<u8> {
    let mut lines = line::from_bytes(bytes);
    let by = rng.pick(&[1, 2, 65_535]);
    let what = rng.below(3);
    for line in lines.iter_mut().filter(|line| line.is_guard()) {
        match what {
            0 => {
                for value in [&mut line.e, &mut line.a, &mut line.b, &mut line.c] {
                    *value = value.wrapping_add(by);
                }
            }
            1 => line.r = line.r.wrapping_add(1),
            _ => line.go = line.go.wrapping_add(by),
        }
    }
    line::to_bytes(&lines)
}

/// One field of one line is moved by one or two, or becomes 0.
fn word_moved(rng: &mut Random, bytes: &[u8]) -> Vec<u8> {
    let mut lines = line::from_bytes(bytes);
    let which = rng.below(8);
    let by = rng.pick(&[1, 2, 65_534, 65_535]);
    let byte = rng.pick(&[1, 2, 254, 255]);
    if let Some(line) = some_line(rng, &mut lines) {
        match which {
            0 => line.e = line.e.wrapping_add(by),
            1 => line.a = line.a.wrapping_add(by),
            2 => line.b = line.b.wrapping_add(by),
            3 => line.c = line.c.wrapping_add(by),
            4 => line.go = line.go.wrapping_add(by),
            5 => line.r = line.r.wrapping_add(byte),
            6 => line.s = line.s.wrapping_add(byte),
            _ => line.t = line.t.wrapping_add(byte),
        }
    }
    line::to_bytes(&lines)
}

/// The operands of some dos and tests become others that are right as well:
/// "10 is no checksum".
fn operands_changed(rng: &mut Random, bytes: &[u8]) -> Vec<u8> {
    let mut lines = line::from_bytes(bytes);
    for line in lines.iter_mut() {
        let row = match line.kind {
            line::DO => make::do_row(rng),
            line::TEST => make::test_row(rng, row::IF),
            _ => continue,
        };
        if rng.percent(40) {
            (line.op, line.p, line.q, line.n) = (row.op, row.p, row.q, row.n);
        }
    }
    line::to_bytes(&lines)
}

/// The lines of two tables after each other: the second one's values, rows and
/// line numbers begin again. Or one line of another table put in.
fn joined(rng: &mut Random, bytes: &[u8]) -> Vec<u8> {
    let rows = rng.between(2, 12);
    let other = hardened(&make::table_of(rng, rows));
    let mut lines = line::from_bytes(bytes);
    if rng.percent(50) || lines.is_empty() {
        return [bytes, &other].concat();
    }
    let mut others = line::from_bytes(&other);
    let foreign = *some_line(rng, &mut others).expect("a table has lines");
    *some_line(rng, &mut lines).expect("there are lines") = foreign;
    line::to_bytes(&lines)
}
