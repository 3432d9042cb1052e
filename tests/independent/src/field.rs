//! Which field of a row is wrong, and what it may be (docs/PROGRAMS.md, "explain",
//! the row of 3).

use crate::row::{self, Row};

/// The first wrong field "of op, p, q, n", what it is and the most it may be.
#[derive(Clone, Copy, Debug, PartialEq, Eq)]
pub struct Wrong {
    pub name: &'static str,
    pub value: u16,
    pub most: u16,
}

impl Wrong {
    /// `op is 4, not 0 to 3`, `n is 700, not 0`
    pub fn words(self) -> String {
        let Wrong { name, value, most } = self;
        match most {
            0 => format!("{name} is {value}, not 0"),
            _ => format!("{name} is {value}, not 0 to {most}"),
        }
    }
}

/// The first wrong field of a row whose kind is one of 01's or a switch's.
pub fn first_wrong(row: Row) -> Option<Wrong> {
    let values = [u16::from(row.op), u16::from(row.p), u16::from(row.q), row.n];
    let fields = ["op", "p", "q", "n"].into_iter().zip(values).zip(most(row));
    fields.map(|((name, value), most)| Wrong { name, value, most }).find(|of| of.value > of.most)
}

/// The most that op, p, q and n of the row may be; 0 for a field that it does not
/// use. "Which fields a do or a test uses goes by its op; where the op is wrong,
/// it is the field that is named": then the others do not matter.
fn most(row: Row) -> [u16; 4] {
    const VARIABLE: u16 = 15;
    const ANY: u16 = 65_535;
    match (row.kind, row.op) {
        (row::DO, 0) => [3, VARIABLE, 0, ANY],
        (row::DO, _) => [3, VARIABLE, VARIABLE, 0],
        (row::IF | row::LOOP, 0 | 1) => [2, VARIABLE, 0, ANY],
        (row::IF | row::LOOP, _) => [2, VARIABLE, VARIABLE, 0],
        (row::CALL | row::CASE, _) => [0, 0, 0, ANY],
        (row::SWITCH, _) => [0, VARIABLE, 0, 0],
        _ => [0, 0, 0, 0],
    }
}
