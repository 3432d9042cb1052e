//! Tables that meet 3, for each kind of row and each of its fields, 6, for each
//! limit, and 4 and 11, for each place around a switch (docs/PROGRAMS.md,
//! "explain"). No chance in here.

use crate::make::bytes_of;
use crate::row::{self, Row};
use crate::switch_places;
use crate::texts::{self, Text};

/// All of them.
pub fn all() -> Vec<Text> {
    let mut texts: Vec<Text> = rows_to_try().into_iter().map(in_a_table).collect();
    texts.extend(in_other_places());
    for (name, rows) in limit_tables() {
        texts.push(texts::of_rows(format!("near-{name}"), &bytes_of(&rows)));
    }
    for (name, rows) in switch_places::all() {
        texts.push(texts::of_rows(format!("switch-{name}"), &bytes_of(&rows)));
    }
    texts
}

/// The row in a then part in a loop, with ends enough behind it.
fn in_a_table(row: Row) -> Text {
    let Row { kind, op, p, q, n } = row;
    let mut rows = vec![Row::plain(row::FUNCTION), some_test(row::LOOP), some_test(row::IF), row];
    rows.extend(vec![Row::plain(row::END); if opens(row) { 4 } else { 3 }]);
    texts::of_rows(format!("row-{kind}-{op}-{p}-{q}-{n}"), &bytes_of(&rows))
}

/// Rows with right and with wrong fields, each once.
fn rows_to_try() -> Vec<Row> {
    let mut rows: Vec<Row> = Vec::new();
    for row in bases().into_iter().flat_map(around).chain(UNKNOWN.iter().flat_map(unknown)) {
        if !rows.contains(&row) {
            rows.push(row);
        }
    }
    rows
}

/// Kind bytes that 01 and 02 do not list.
const UNKNOWN: &[u8] = &[0, 13, 14, 15, 16, 0x20, 0x21, 0x28, 0x7f, 0x80, 0x81, 0x89, 0xff];

fn unknown(kind: &u8) -> [Row; 2] {
    let plain = Row::plain(*kind);
    [plain, Row { op: 9, p: 99, q: 1, n: 999, ..plain }]
}

/// A row of each kind, and of a do and of a test with each op, whose fields are
/// right.
fn bases() -> Vec<Row> {
    let mut bases: Vec<Row> = (row::FUNCTION..=row::DEFAULT).map(Row::plain).collect();
    bases.extend((1..=3).map(|op| Row { op, ..Row::plain(row::DO) }));
    for kind in [row::IF, row::LOOP] {
        bases.extend((1..=2).map(|op| Row { op, ..Row::plain(kind) }));
    }
    bases
}

/// A row with one field or several at the border of what they may be, or beyond.
fn around(base: Row) -> Vec<Row> {
    let mut rows = vec![base];
    rows.extend([1, 2, 3, 4, 255].map(|op| Row { op, ..base }));
    for value in [1, 15, 16, 255] {
        rows.push(Row { p: value, ..base });
        rows.push(Row { q: value, ..base });
    }
    rows.extend([1, 255, 256, 700, 65_535].map(|n| Row { n, ..base }));
    rows.extend([
        Row { op: 4, p: 16, ..base },
        Row { op: 255, n: 700, ..base },
        Row { p: 16, q: 16, ..base },
        Row { p: 15, q: 16, ..base },
        Row { p: 17, n: 700, ..base },
        Row { q: 18, n: 700, ..base },
        Row { p: 15, q: 15, n: 700, ..base },
        Row { p: 19, q: 20, n: 701, ..base },
        Row { op: 5, p: 21, q: 22, n: 702, ..base },
    ]);
    rows
}

fn opens(row: Row) -> bool {
    [row::IF, row::LOOP, row::SWITCH].contains(&row.kind)
}

fn some_test(kind: u8) -> Row {
    Row { kind, op: 1, p: 2, q: 0, n: 3 }
}

/// A wrong field and an unknown kind in the first row, in the last and in row
/// 1,023, and outside a function.
fn in_other_places() -> Vec<Text> {
    let [open, end] = [row::FUNCTION, row::END].map(Row::plain);
    let wrong = [
        ("do", Row { kind: row::DO, op: 4, p: 0, q: 0, n: 0 }),
        ("if", Row { kind: row::IF, op: 2, p: 15, q: 16, n: 0 }),
        ("end", Row { n: 256, ..end }),
        ("call", Row { p: 1, n: 500, ..Row::plain(row::CALL) }),
        ("unknown", Row::plain(13)),
        ("switch", Row { p: 16, ..Row::plain(row::SWITCH) }),
        ("case", Row { p: 1, n: 500, ..Row::plain(row::CASE) }),
        ("default", Row { n: 1, ..Row::plain(row::DEFAULT) }),
    ];
    let mut texts = Vec::new();
    for (name, row) in wrong {
        let mut put = |place: &str, rows: &[Row]| {
            texts.push(texts::of_rows(format!("wrong-{name}-{place}"), &bytes_of(rows)));
        };
        put("alone", &[row]);
        put("first", &[row, open, end]);
        put("last", &[open, end, row]);
        put("twice", &[open, row, end, row]);
        let many = [vec![open; 1], vec![some_do(); 1022], vec![row]].concat();
        put("in-row-1023", &many);
        put("in-row-1024", &[&many[..], &[end]].concat());
    }
    texts
}

fn some_do() -> Row {
    Row { kind: row::DO, op: 2, p: 1, q: 15, n: 0 }
}

/// Tables at a limit and beyond it, by name: so many regions are opened and
/// closed, so many ifs or loops are left open, and then comes the last row.
fn limit_tables() -> Vec<(String, Vec<Row>)> {
    let mut tables = Vec::new();
    for around in [row::IF, row::LOOP] {
        for last in [row::IF, row::LOOP, row::ELSE] {
            for (regions, open) in NEAR {
                for second in [false, true] {
                    let name = format!("{regions}-{open}-{around}-{last}-{second}");
                    tables.push((name, near_limit(*regions, *open, around, last, second)));
                }
            }
        }
    }
    tables
}

/// Regions that the function has, and ifs and loops that are open, before the last
/// row: both below their limits, one at it, both at it.
const NEAR: &[(usize, usize)] =
    &[(17, 15), (17, 16), (63, 1), (64, 0), (64, 1), (63, 15), (63, 16), (64, 15), (64, 16)];

/// Such a table: the body is a region, and each open part. An else as the last row
/// closes the innermost then part, so that is an if. In a second function the
/// counts begin anew.
fn near_limit(regions: usize, open: usize, around: u8, last: u8, second: bool) -> Vec<Row> {
    let mut rows = Vec::new();
    if second {
        rows.extend([Row::plain(row::FUNCTION), some_test(row::IF)]);
        rows.extend([Row::plain(row::ELSE), Row::plain(row::END), Row::plain(row::END)]);
    }
    rows.push(Row::plain(row::FUNCTION));
    for _ in 1 + open..regions {
        rows.extend([some_test(around), some_do(), Row::plain(row::END)]);
    }
    rows.extend(vec![some_test(around); open]);
    if last == row::ELSE {
        if let Some(innermost) = rows.last_mut().filter(|row| opens(**row)) {
            innermost.kind = row::IF;
        }
        rows.push(Row::plain(row::ELSE));
    } else {
        rows.extend([some_test(last), Row::plain(row::END)]);
    }
    rows.extend(vec![Row::plain(row::END); open + 1]);
    rows
}
