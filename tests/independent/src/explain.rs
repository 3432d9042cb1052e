//! What the explaining program prints: `accepted`, or the number, the row and
//! the words for it (docs/PROGRAMS.md, "explain").

use std::io::{self, Read};

use crate::around::Around;
use crate::fault::{self, Fault};
use crate::field;
use crate::printed::Printed;
use crate::records;
use crate::row::{self, Row, ROW_BYTES};
use crate::table::LIMITS;

/// What `explain` prints for this input.
pub fn explain(input: impl Read) -> io::Result<Printed> {
    Ok(match records::read(input, ROW_BYTES)? {
        Err(malformed) => Printed::unreadable(&malformed),
        Ok(bytes) => Printed::out(answer(&bytes)),
    })
}

fn answer(bytes: &[u8]) -> String {
    let Fault { number, row } = fault::find(bytes);
    if number == 0 {
        return "accepted\n".to_string();
    }
    let rows: Vec<Row> = bytes.chunks(ROW_BYTES).map(Row::read).collect();
    format!("refused {number} at row {row}: {}\n", words(number, &rows, row))
}

/// The words for a number and the row that it is about.
fn words(number: u8, rows: &[Row], at: usize) -> String {
    let words = match number {
        1 => "no rows",
        2 if rows.len() > LIMITS.rows => "over 1,024 rows",
        2 => "over 1,024 rows, with its switches written as ifs",
        3 => return field_words(rows[at]),
        4 => place_words(rows, at),
        5 => "a 33rd function",
        6 => limit_words(rows, at),
        7 => "call of a function that isn't there",
        11 => return format!("case {} is in this switch already", rows[at].n),
        _ => unreachable!("a table meets 1 to 7 and 11"),
    };
    words.to_string()
}

fn field_words(row: Row) -> String {
    match row.kind {
        row::FUNCTION..=row::DEFAULT => {
            field::first_wrong(row).expect("a row that meets 3 has a wrong field").words()
        }
        _ => "unknown kind".to_string(),
    }
}

/// "Of several lines for 4 that fit a row the first one holds." There is no row at
/// the end of the table.
fn place_words(rows: &[Row], at: usize) -> &'static str {
    let Some(row) = rows.get(at) else {
        return "something is left open at the end";
    };
    let around = Around::of(rows, at);
    match row.kind {
        row::CASE if around.behind_default() => "case after the default",
        row::DEFAULT if around.behind_default() => "a second default",
        row::CASE => "case not straight in a switch",
        row::DEFAULT => "default not straight in a switch",
        _ if around.before_first() => "a row before the first case or default",
        row::ELSE if around.in_switch() => "else straight in a case or a default",
        row::FUNCTION => "a function in a function",
        row::ELSE => "else without an open then part",
        row::BREAK => "break outside a loop",
        row::CONTINUE => "continue outside a loop",
        _ => "outside a function",
    }
}

/// "an if or a loop with 16 open", "a case with as many open", "(also where it
/// would be the 65th region too)"
fn limit_words(rows: &[Row], at: usize) -> &'static str {
    let is_full = Around::of(rows, at).open() == LIMITS.open;
    match rows[at].kind {
        row::IF | row::LOOP if is_full => "a 17th open if or loop",
        row::CASE if is_full => "a 17th open if or loop, each case being one",
        _ => "a 65th region",
    }
}
