//! From the tree to the hardened lines (01, "The hardened lines").

use crate::layout::{Layout, Region};
use crate::line::{self, Line};
use crate::row::Row;
use crate::table::{Block, Else, Function, Stmt, Table};

/// The hardened lines of a table.
pub fn lines(table: &Table) -> Vec<Line> {
    let layout = Layout::of(table);
    let mut writer = Writer { table, layout: &layout, lines: Vec::new() };
    for function in &table.functions {
        writer.function(function);
    }
    writer.lines
}

/// The innermost loop around a statement, as its breaks and continues need it.
#[derive(Clone, Copy)]
struct Loop {
    /// region of its body
    body: u8,
    /// region in which the loop's row stands
    around: u8,
    /// the loop row's value
    e: u16,
    /// line of its test
    test: u16,
    /// line after its closing leave
    past: u16,
}

/// Where a statement stands.
#[derive(Clone, Copy)]
struct Inside {
    /// number of the region directly around
    region: u8,
    innermost: Option<Loop>,
}

struct Writer<'a> {
    table: &'a Table,
    layout: &'a Layout,
    lines: Vec<Line>,
}

impl Writer<'_> {
    /// Appends a line; it must be the one that the layout numbered so.
    fn put(&mut self, number: u16, line: Line) {
        assert_eq!(usize::from(number), self.lines.len());
        self.lines.push(line);
    }

    fn function(&mut self, function: &Function) {
        let region = self.layout.region(function.opens).number;
        self.block(&function.body, Inside { region, innermost: None });
        self.ret(function);
    }

    fn block(&mut self, block: &Block, inside: Inside) {
        for stmt in block {
            self.statement(stmt, inside);
        }
    }

    fn statement(&mut self, stmt: &Stmt, inside: Inside) {
        match stmt {
            Stmt::Do { row, what } => self.do_and_tick(*row, *what, inside),
            Stmt::Call { row, function } => self.call_and_back(*row, *function, inside),
            Stmt::Break { row } => self.out(*row, inside, |l| (l.e + 2, l.past)),
            Stmt::Continue { row } => self.out(*row, inside, |l| (l.e, l.test)),
            Stmt::If { row, test, then, other: None, end } => {
                self.test(*row, *test, None, *end, inside);
                self.then_part(*row, then, *end, *end, inside);
            }
            Stmt::If { row, test, then, other: Some(other), end } => {
                self.test(*row, *test, Some(other), *end, inside);
                self.then_part(*row, then, other.row, *end, inside);
                self.else_part(*row, other, *end, inside);
            }
            Stmt::While { row, test, body, end } => {
                self.test(*row, *test, None, *end, inside);
                self.loop_body(*row, body, *end, inside);
            }
        }
    }

    /// 21 and 22: "e is its row number, op, p, q, n copied"; "r gets a = e+1".
    fn do_and_tick(&mut self, row: usize, what: Row, inside: Inside) {
        let at = self.layout.line(row);
        let number = u16::try_from(row).expect("row numbers are below 1,024");
        self.put(at, copying(line::DO, what, Line { e: number, ..Line::default() }));
        let e = self.layout.value(row);
        let r = inside.region;
        self.put(at + 1, Line { kind: line::TICK, r, e, a: e + 1, ..Line::default() });
    }

    /// 23: "Test with an else: t is the else region, c its base, go its first
    /// line. Without an else, and for a loop: t = r, c = e+2, go is the line
    /// after the closing leave."
    fn test(&mut self, row: usize, test: Row, other: Option<&Else>, end: usize, inside: Inside) {
        let e = self.layout.value(row);
        let opened = self.layout.region(row);
        let (t, c, go) = match other {
            Some(other) => {
                let region = self.layout.region(other.row);
                (region.number, region.base, self.layout.line(other.row) + 1)
            }
            None => (inside.region, e + 2, self.layout.line(end) + 1),
        };
        let (r, s, a, b) = (inside.region, opened.number, e + 1, opened.base);
        let fields = Line { r, s, t, e, a, b, c, go, ..Line::default() };
        self.put(self.layout.line(row), copying(line::TEST, test, fields));
    }

    /// The then part and the leave of the row that closes it: the else row, or
    /// the if's end where there is no else.
    fn then_part(&mut self, row: usize, then: &Block, closer: usize, end: usize, inside: Inside) {
        let region = self.layout.region(row);
        self.block(then, Inside { region: region.number, ..inside });
        self.leave_if(row, region, closer, end, inside);
    }

    /// The else part and the leave of the if's end.
    fn else_part(&mut self, row: usize, other: &Else, end: usize, inside: Inside) {
        let region = self.layout.region(other.row);
        self.block(&other.block, Inside { region: region.number, ..inside });
        self.leave_if(row, region, end, end, inside);
    }

    /// 24: "For an if, a = e+2 of the if row and go is the line after the whole
    /// if."
    fn leave_if(&mut self, row: usize, child: Region, closer: usize, end: usize, inside: Inside) {
        let e = self.layout.value(row);
        let go = self.layout.line(end) + 1;
        self.leave(closer, child, inside, e, e + 2, go);
    }

    /// The body and 24: "For a loop, a is the loop row's e and go its test."
    fn loop_body(&mut self, row: usize, body: &Block, end: usize, inside: Inside) {
        let region = self.layout.region(row);
        let e = self.layout.value(row);
        let test = self.layout.line(row);
        let past = self.layout.line(end) + 1;
        let this = Loop { body: region.number, around: inside.region, e, test, past };
        self.block(body, Inside { region: region.number, innermost: Some(this) });
        self.leave(end, region, inside, e, e, test);
    }

    /// "In a leave, e is the child's last value and b is the row's e+1."
    fn leave(&mut self, closer: usize, child: Region, inside: Inside, e: u16, a: u16, go: u16) {
        let (r, s, b) = (child.number, inside.region, e + 1);
        let line = Line { kind: line::LEAVE, r, s, e: child.last, a, b, go, ..Line::default() };
        self.put(self.layout.line(closer), line);
    }

    /// 25: "Break sets a to the loop row's e+2 and goes past the leave; continue
    /// sets e and goes to the test."
    fn out(&mut self, row: usize, inside: Inside, to: fn(Loop) -> (u16, u16)) {
        let innermost = inside.innermost.expect("break and continue stand in a loop");
        let (a, go) = to(innermost);
        let (r, s, t) = (inside.region, innermost.around, innermost.body);
        let e = self.layout.value(row);
        let line = Line { kind: line::OUT, r, s, t, e, a, go, ..Line::default() };
        self.put(self.layout.line(row), line);
    }

    /// 26 and 27: "In a back line e is the call row's e+1, and b is the a of the
    /// callee's ret."
    fn call_and_back(&mut self, row: usize, callee: u16, inside: Inside) {
        let at = self.layout.line(row);
        let e = self.layout.value(row);
        let r = inside.region;
        let callee = &self.table.functions[usize::from(callee)];
        let b = self.layout.region(callee.opens).base;
        let go = self.layout.line(callee.opens);
        self.put(at, Line { kind: line::CALL, r, e, a: e + 1, b, go, ..Line::default() });
        let b = self.layout.value(callee.end) + 1;
        self.put(at + 1, Line { kind: line::BACK, r, e: e + 1, a: e + 2, b, ..Line::default() });
    }

    /// 28: "check; r gets a = e+1; return". Its region is 0.
    fn ret(&mut self, function: &Function) {
        let e = self.layout.value(function.end);
        let line = Line { kind: line::RET, e, a: e + 1, ..Line::default() };
        self.put(self.layout.line(function.end), line);
    }
}

/// A line of this kind that copies op, p, q and n of its row.
fn copying(kind: u8, row: Row, fields: Line) -> Line {
    Line { kind, op: row.op, p: row.p, q: row.q, n: row.n, ..fields }
}
