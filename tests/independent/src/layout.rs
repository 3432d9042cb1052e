//! Regions, bases, values and line numbers (01, "Regions and their values" and
//! the table of "The hardened lines"), from three walks over the tree.
//!
//! Everything is kept by row number: a region belongs to the one row that opens
//! it (01, 03, 04 or 05), a value and a line to the row they stand for.

use crate::table::{Block, Stmt, Table};

/// A region: its number in its function, its base, and its last value.
#[derive(Clone, Copy, Debug, PartialEq, Eq)]
pub struct Region {
    pub number: u8,
    pub base: u16,
    /// base + size - 1, the value after all that its direct rows take
    pub last: u16,
}

/// What the walks find, by row.
pub struct Layout {
    opened: Vec<Option<Region>>,
    value: Vec<Option<u16>>,
    line: Vec<Option<u16>>,
}

impl Layout {
    /// Walks the tree.
    pub fn of(table: &Table) -> Layout {
        let mut layout = Layout {
            opened: vec![None; table.rows],
            value: vec![None; table.rows],
            line: vec![None; table.rows],
        };
        layout.place_regions(table);
        layout.place_values(table);
        layout.place_lines(table);
        layout
    }

    /// The region that a row opens.
    pub fn region(&self, row: usize) -> Region {
        self.opened[row].expect("the row opens a region")
    }

    /// The row's value e.
    pub fn value(&self, row: usize) -> u16 {
        self.value[row].expect("the row has a value")
    }

    /// The first line that stands for the row. For a row 01, which has no line
    /// of its own, the first line of its function.
    pub fn line(&self, row: usize) -> u16 {
        self.line[row].expect("the row has a line")
    }

    /// All regions, in the order they open in the whole table.
    pub fn regions(&self) -> Vec<Region> {
        self.opened.iter().flatten().copied().collect()
    }

    /// "Its base is 1 plus the sizes of all regions opened before it in the
    /// whole table."
    fn place_regions(&mut self, table: &Table) {
        let mut next = 1;
        for function in &table.functions {
            let mut walk = Regions { layout: self, next, number: 0 };
            // "a function's end 1", a direct row of the body
            walk.open(function.opens, &function.body, 1);
            next = walk.next;
        }
    }

    fn place_values(&mut self, table: &Table) {
        for function in &table.functions {
            let end = self.values_of(function.opens, &function.body);
            self.value[function.end] = Some(end);
        }
    }

    /// "A row's value e is the base plus what the earlier direct rows of that
    /// region take." Answers the value after the last statement.
    fn values_of(&mut self, opener: usize, block: &Block) -> u16 {
        let mut e = self.region(opener).base;
        for stmt in block {
            self.value[stmt.row()] = Some(e);
            e += takes(stmt);
            for (row, part) in stmt.parts() {
                self.values_of(row, part);
            }
        }
        e
    }

    fn place_lines(&mut self, table: &Table) {
        let mut next = 0;
        for function in &table.functions {
            self.line[function.opens] = Some(next);
            next = self.lines_of(&function.body, next);
            self.line[function.end] = Some(next);
            next += 1; // the ret
        }
    }

    /// Numbers the lines of a block from `next` on; answers the next free one.
    fn lines_of(&mut self, block: &Block, mut next: u16) -> u16 {
        for stmt in block {
            self.line[stmt.row()] = Some(next);
            next = match stmt {
                // "22 tick: follows each do", "27 back: follows each call"
                Stmt::Do { .. } | Stmt::Call { .. } => next + 2,
                Stmt::Break { .. } | Stmt::Continue { .. } => next + 1,
                Stmt::While { body, end, .. } => self.part_and_leave(body, *end, next + 1),
                Stmt::If { then, other: None, end, .. } => {
                    self.part_and_leave(then, *end, next + 1)
                }
                Stmt::If { then, other: Some(other), end, .. } => {
                    let after_then = self.part_and_leave(then, other.row, next + 1);
                    self.part_and_leave(&other.block, *end, after_then)
                }
            };
        }
        next
    }

    /// A part and the leave of the row that closes it.
    fn part_and_leave(&mut self, part: &Block, closer: usize, first: u16) -> u16 {
        let leave = self.lines_of(part, first);
        self.line[closer] = Some(leave);
        leave + 1
    }
}

/// "Inside its own region a do, break or continue takes 1 value, an if, loop or
/// call 2 values".
fn takes(stmt: &Stmt) -> u16 {
    match stmt {
        Stmt::Do { .. } | Stmt::Break { .. } | Stmt::Continue { .. } => 1,
        Stmt::If { .. } | Stmt::While { .. } | Stmt::Call { .. } => 2,
    }
}

/// The walk that opens the regions of one function.
struct Regions<'a> {
    layout: &'a mut Layout,
    /// base of the region that opens next
    next: u16,
    /// "numbered in each function from 0 in the order they open"
    number: u8,
}

impl Regions<'_> {
    /// Opens the region of a block, then those inside it in row order.
    fn open(&mut self, opener: usize, block: &Block, end_takes: u16) {
        let taken = block.iter().map(takes).sum::<u16>() + end_takes;
        let base = self.next;
        // "A region's size is 1 plus what its direct rows take."
        let region = Region { number: self.number, base, last: base + taken };
        self.layout.opened[opener] = Some(region);
        self.next = base + taken + 1;
        self.number += 1;
        for stmt in block {
            for (row, part) in stmt.parts() {
                self.open(row, part, 0);
            }
        }
    }
}
