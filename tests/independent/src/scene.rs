//! Rows that are right or wrong, and tables that put rows where they are wanted: the
//! parts around them are open and closed as they should be.

use crate::make::{self, Maker, Spot, BODY};
use crate::random::Random;
use crate::row::{self, Row, ROW_BYTES};
use crate::shape::{Shape, MIXED, PLAIN, SWITCHY};
use crate::table::LIMITS;

pub fn small_table(rng: &mut Random) -> Vec<u8> {
    let rows = rng.between(3, 25);
    make::table_of(rng, rows)
}

pub fn small_rows(rng: &mut Random) -> Vec<Row> {
    small_table(rng).chunks(ROW_BYTES).map(Row::read).collect()
}

// What a row can be.

/// A row with a wrong kind, op, p, q or unused field.
pub fn wrong_row(rng: &mut Random) -> Row {
    loop {
        let mut row = right_row(rng);
        match rng.below(6) {
            0 => row.kind = rng.pick(&[0, 13, 14, 0x21, 0x28, 127, 128, 255]),
            1 => row.op = rng.pick(&[1, 2, 3, 4, 5, 255]),
            2 => row.p = rng.pick(&[1, 15, 16, 17, 128, 255]),
            3 => row.q = rng.pick(&[1, 15, 16, 17, 128, 255]),
            4 => row.n = rng.pick(&[1, 255, 256, 65_280, 65_535]),
            _ => spoil_byte(rng, &mut row),
        }
        if !row.fields_right() {
            return row;
        }
    }
}

/// One byte of the row becomes any byte.
pub fn spoil_byte(rng: &mut Random, row: &mut Row) {
    let mut bytes = row.bytes();
    bytes[rng.below(ROW_BYTES)] = rng.byte();
    *row = Row::read(&bytes);
}

/// Any row whose fields are right.
pub fn right_row(rng: &mut Random) -> Row {
    match rng.pick(&[1, 2, 2, 2, 3, 4, 5, 6, 7, 8, 9, 10, 11, 12]) {
        row::DO => make::do_row(rng),
        kind @ (row::IF | row::LOOP) => make::test_row(rng, kind),
        row::SWITCH => make::switch_row(rng),
        row::CASE => make::case_row(rng.value()),
        kind => Row::plain(kind),
    }
}

/// Any wrong row of this kind.
pub fn wrong_row_of(rng: &mut Random, kind: u8) -> Row {
    loop {
        let row = wrong_row(rng);
        if row.kind == kind {
            return row;
        }
    }
}

/// A call of a function that is in no table of these makers.
pub fn bad_call(rng: &mut Random) -> Row {
    let n = rng.pick(&[33, 34, 255, 256, 1024, 65_535]);
    Row { n, ..Row::plain(row::CALL) }
}

// Where a row can stand.

/// A part that is open around a row.
#[derive(Clone, Copy, Debug, PartialEq, Eq)]
pub enum Part {
    Then,
    Else,
    Loop,
    /// the first case of a switch
    Case,
    /// the second one
    Later,
    /// a default behind a case
    Default,
    /// a default that is alone
    Alone,
}

impl Part {
    /// The ifs and loops that are open by it.
    pub fn open(self) -> usize {
        match self {
            Part::Then | Part::Else | Part::Loop | Part::Case | Part::Default => 1,
            Part::Later => 2,
            Part::Alone => 0,
        }
    }
}

/// All that are open by these parts.
pub fn open_by(parts: &[Part]) -> usize {
    parts.iter().map(|part| part.open()).sum()
}

/// Parts of 01: what stands straight in one is not straight in a switch.
pub const OF_01: &[Part] = &[Part::Then, Part::Else, Part::Loop];
/// Parts of a switch.
pub const OF_SWITCH: &[Part] = &[Part::Case, Part::Later, Part::Default, Part::Alone];

/// A third of all parts are those of a switch.
fn any_part(rng: &mut Random) -> Part {
    if rng.percent(33) {
        rng.pick(OF_SWITCH)
    } else {
        rng.pick(OF_01)
    }
}

pub fn any_parts(rng: &mut Random, most: usize) -> Vec<Part> {
    let count = rng.between(0, most);
    (0..count).map(|_| any_part(rng)).collect()
}

pub fn parts_without_loop(rng: &mut Random) -> Vec<Part> {
    let mut parts = any_parts(rng, 5);
    parts.retain(|part| *part != Part::Loop);
    parts
}

/// A table with the given rows inside the given parts of one of its functions.
/// All other rows are right and well placed, whether they come before or after.
pub fn scene(rng: &mut Random, parts: &[Part], rows: &[Row]) -> Vec<Row> {
    let before = rng.below(3);
    let after = rng.below(3);
    let open = open_by(parts);
    let weights = if open > 8 { PLAIN } else { rng.pick(&[MIXED, MIXED, SWITCHY]) };
    let functions = before + 1 + after;
    let shape = Shape { rows: 0, functions, depth: open + 2, eager: 0, weights };
    let mut maker = Maker::new(rng, shape);
    some_functions(&mut maker, before);
    maker.open_function();
    some_rows(&mut maker, BODY);
    let spot = open_parts(&mut maker, parts);
    maker.rows.extend(rows);
    some_rows(&mut maker, spot);
    close_parts(&mut maker, parts);
    maker.plain(row::END);
    some_functions(&mut maker, after);
    maker.rows
}

pub fn some_functions(maker: &mut Maker, count: usize) {
    for _ in 0..count {
        let room = maker.rng.below(6);
        maker.function(room);
    }
}

pub fn some_rows(maker: &mut Maker, spot: Spot) {
    let room = maker.rng.below(4);
    maker.block(room, spot);
}

pub fn open_parts(maker: &mut Maker, parts: &[Part]) -> Spot {
    let mut spot = BODY;
    for part in parts {
        spot = open_part(maker, *part, spot);
        some_rows(maker, spot);
    }
    spot
}

/// Opens a part and those of its construct before it; answers where it is.
fn open_part(maker: &mut Maker, part: Part, spot: Spot) -> Spot {
    let inside = Spot { open: spot.open + part.open(), ..spot };
    match part {
        Part::Then => maker.open_test(row::IF),
        Part::Else => {
            maker.open_test(row::IF);
            some_rows(maker, inside);
            maker.open_else();
        }
        Part::Loop => {
            maker.open_test(row::LOOP);
            return Spot { in_loop: true, ..inside };
        }
        Part::Case | Part::Later | Part::Default | Part::Alone => {
            open_arm(maker, part, spot);
        }
    }
    inside
}

/// Opens a switch and a part of it.
fn open_arm(maker: &mut Maker, part: Part, spot: Spot) {
    let mut used = Vec::new();
    maker.open_switch();
    if part != Part::Alone {
        maker.open_case(&mut used);
    }
    if matches!(part, Part::Later | Part::Default) {
        some_rows(maker, Spot { open: spot.open + 1, ..spot });
    }
    match part {
        Part::Later => maker.open_case(&mut used),
        Part::Default | Part::Alone => maker.open_default(&used),
        _ => {}
    }
}

pub fn close_parts(maker: &mut Maker, parts: &[Part]) {
    for still_open in (0..parts.len()).rev() {
        maker.plain(row::END);
        let around = &parts[..still_open];
        let in_loop = around.contains(&Part::Loop);
        some_rows(maker, Spot { open: open_by(around), in_loop });
    }
}

/// Drops rows at the end, so that at least the last function stays open.
pub fn cut_end(rng: &mut Random, rows: &mut Vec<Row>) {
    let last = rows.iter().rposition(|row| row.kind == row::FUNCTION).expect("a function");
    let keep = rng.between(last + 1, rows.len() - 1);
    rows.truncate(keep);
}

/// A place where no function is open: before, between or after the functions.
pub fn between_functions(rng: &mut Random, rows: &[Row]) -> usize {
    let starts = (0..rows.len()).filter(|i| rows[*i].kind == row::FUNCTION);
    let places: Vec<usize> = starts.chain([rows.len()]).collect();
    rng.pick(&places)
}

/// So many small functions.
pub fn small_functions(rng: &mut Random, count: usize) -> Vec<Row> {
    let weights = rng.pick(&[MIXED, SWITCHY]);
    let shape = Shape { rows: 0, functions: count, depth: 2, eager: 0, weights };
    let mut maker = Maker::new(rng, shape);
    for _ in 0..count {
        let room = maker.rng.pick(&[0, 0, 0, 1, 2, 3]);
        maker.function(room);
    }
    maker.rows
}

/// Parts by which sixteen ifs and loops are open, as many as may be; the innermost
/// is one of these.
pub fn sixteen_open(rng: &mut Random, innermost: &[Part]) -> Vec<Part> {
    let last = rng.pick(innermost);
    let mut parts = Vec::new();
    while open_by(&parts) + last.open() < LIMITS.open {
        let part = any_part(rng);
        if open_by(&parts) + part.open() + last.open() <= LIMITS.open {
            parts.push(part);
        }
    }
    parts.push(last);
    parts
}

/// The same, whatever the innermost is.
pub fn sixteen_parts(rng: &mut Random) -> Vec<Part> {
    let innermost = if rng.percent(33) { OF_SWITCH } else { OF_01 };
    sixteen_open(rng, innermost)
}

/// A function with so many regions opened, nothing but its body still open. Ifs,
/// elses, loops and switches by chance.
pub fn open_regions(rng: &mut Random, count: usize) -> Vec<Row> {
    let mut rows = vec![Row::plain(row::FUNCTION)];
    let mut made = 1;
    while made < count {
        made += match rng.below(4) {
            0 => region_of_switch(rng, &mut rows, count - made),
            _ => region_of_01(rng, &mut rows, count - made),
        };
        if rng.percent(20) {
            rows.push(make::do_row(rng));
        }
        rows.push(Row::plain(row::END));
    }
    rows
}

/// An if, perhaps with an else, or a loop, its end left out. Answers the regions,
/// which are at most so many.
fn region_of_01(rng: &mut Random, rows: &mut Vec<Row>, most: usize) -> usize {
    let kind = rng.pick(&[row::IF, row::LOOP]);
    rows.push(make::test_row(rng, kind));
    if kind == row::IF && most > 1 && rng.percent(50) {
        rows.push(Row::plain(row::ELSE));
        return 2;
    }
    1
}

/// A switch of up to three cases, perhaps with a default; or of a default alone,
/// which is no region. Its end is left out.
fn region_of_switch(rng: &mut Random, rows: &mut Vec<Row>, most: usize) -> usize {
    let mut used = Vec::new();
    let mut made = 0;
    rows.push(make::switch_row(rng));
    for _ in 0..rng.below(4) {
        let regions = if used.is_empty() { 1 } else { 2 };
        if made + regions <= most {
            let n = make::unused(rng, &used);
            used.push(n);
            rows.push(make::case_row(n));
            made += regions;
        }
    }
    if used.is_empty() {
        rows.push(Row::plain(row::DEFAULT));
    } else if made < most && rng.percent(50) {
        rows.push(Row::plain(row::DEFAULT));
        made += 1;
    }
    made
}
