//! From rows to the tree of the table as it is written, with the refusals that go
//! row by row: 3, 4, 11, 5, 6 (01, "What turns a call away"; 02, No. 1).
//!
//! The parser is a recursive descent that takes each row exactly once, in table
//! order, and settles everything about a row before it takes the next one. So
//! the first faulty row decides, and within a row the order is 3, 4, 11, 5, 6.
//! Switches that have only a default nest some 500 deep, without an open if.

use crate::refusal::Refusal;
use crate::row::{self, Row};
use crate::table::Limits;
use crate::written::{Block, Case, Functions, Stmt, Switch};

/// The functions that the rows spell. The end of the table is looked at too.
pub fn functions(rows: &[Row], limits: &Limits) -> Result<Functions, Refusal> {
    Parser { rows, next: 0, regions: 0, limits }.functions()
}

/// What stands around a block.
#[derive(Clone, Copy)]
struct Around {
    /// ifs and loops open here, "each case counting as one open if"
    open: usize,
    /// is one of them a loop?
    in_loop: bool,
    part: Part,
}

/// Around a function's body.
const BODY: Around = Around { open: 0, in_loop: false, part: Part::Last };

/// What the block is, by the rows that may close it beside an end row.
#[derive(Clone, Copy, PartialEq, Eq)]
enum Part {
    /// none: a function's or loop's body, an else part, a default
    Last,
    /// an else row: a then part
    Then,
    /// a case or a default: a case
    Case,
}

/// The row that closed a block.
enum Closer {
    Else,
    Case(u16),
    Default,
    End,
}

/// Takes the rows one after the other.
struct Parser<'a> {
    rows: &'a [Row],
    next: usize,
    /// regions opened so far in this function
    regions: usize,
    limits: &'a Limits,
}

impl Parser<'_> {
    /// The next row, its fields looked at (3, the first test of each row), or
    /// nothing at the end of the table.
    fn take(&mut self) -> Result<Option<Row>, Refusal> {
        let Some(row) = self.rows.get(self.next).copied() else {
            return Ok(None);
        };
        self.next += 1;
        if row.fields_right() {
            Ok(Some(row))
        } else {
            Err(Refusal::WrongField)
        }
    }

    /// The same where the table must not end: "something left open at the end".
    fn take_inside(&mut self) -> Result<Row, Refusal> {
        self.take()?.ok_or(Refusal::Misplaced)
    }

    /// All functions. "Every row but 01 stands inside a function."
    fn functions(&mut self) -> Result<Functions, Refusal> {
        let mut functions = Functions::new();
        while let Some(row) = self.take()? {
            if row.kind != row::FUNCTION {
                return Err(Refusal::Misplaced);
            }
            if functions.len() == self.limits.functions {
                return Err(Refusal::TooManyFunctions);
            }
            self.regions = 0;
            self.open_regions(1)?;
            functions.push(self.last_block(BODY)?);
        }
        Ok(functions)
    }

    /// "64 regions in a function".
    fn open_regions(&mut self, count: usize) -> Result<(), Refusal> {
        if self.regions + count > self.limits.regions {
            return Err(Refusal::TooMuchOpen);
        }
        self.regions += count;
        Ok(())
    }

    /// The statements up to the row that closes the block.
    fn block(&mut self, around: Around) -> Result<(Block, Closer), Refusal> {
        let mut block = Block::new();
        loop {
            let row = self.take_inside()?;
            match (row.kind, around.part) {
                (row::END, _) => return Ok((block, Closer::End)),
                (row::ELSE, Part::Then) => return Ok((block, Closer::Else)),
                (row::CASE, Part::Case) => return Ok((block, Closer::Case(row.n))),
                (row::DEFAULT, Part::Case) => return Ok((block, Closer::Default)),
                (row::FUNCTION | row::ELSE | row::CASE | row::DEFAULT, _) => {
                    return Err(Refusal::Misplaced)
                }
                _ => block.push(self.statement(row, around)?),
            }
        }
    }

    /// A block that an end row alone can close.
    fn last_block(&mut self, around: Around) -> Result<Block, Refusal> {
        assert!(around.part == Part::Last);
        Ok(self.block(around)?.0)
    }

    /// The statement that a row begins.
    fn statement(&mut self, row: Row, around: Around) -> Result<Stmt, Refusal> {
        match row.kind {
            row::DO => Ok(Stmt::Do(row)),
            row::CALL => Ok(Stmt::Call(row.n)),
            row::BREAK if around.in_loop => Ok(Stmt::Break),
            row::CONTINUE if around.in_loop => Ok(Stmt::Continue),
            row::BREAK | row::CONTINUE => Err(Refusal::Misplaced),
            row::IF => self.conditional(row, around),
            row::LOOP => self.repeated(row, around),
            row::SWITCH => Ok(Stmt::Switch(self.switch(row.p, around)?)),
            kind => unreachable!("kind {kind} begins no statement"),
        }
    }

    /// "a 17th open if or loop, or a 65th region" at a row that opens an if or a
    /// loop and so many regions. Answers how many are open behind it.
    fn open_construct(&mut self, open: usize, regions: usize) -> Result<usize, Refusal> {
        if open == self.limits.open {
            return Err(Refusal::TooMuchOpen);
        }
        self.open_regions(regions)?;
        Ok(open + 1)
    }

    /// An if, with or without an else part.
    fn conditional(&mut self, test: Row, around: Around) -> Result<Stmt, Refusal> {
        let open = self.open_construct(around.open, 1)?;
        let (then, closer) = self.block(Around { open, part: Part::Then, ..around })?;
        let other = match closer {
            Closer::Else => {
                self.open_regions(1)?;
                Some(self.last_block(Around { open, part: Part::Last, ..around })?)
            }
            _ => None,
        };
        Ok(Stmt::If { test, then, other })
    }

    /// A loop.
    fn repeated(&mut self, test: Row, around: Around) -> Result<Stmt, Refusal> {
        let open = self.open_construct(around.open, 1)?;
        let body = self.last_block(Around { open, in_loop: true, part: Part::Last })?;
        Ok(Stmt::While { test, body })
    }

    /// A switch, whose row 0a has been taken. Each case is open in all that come
    /// behind it: they stand in its else part.
    fn switch(&mut self, p: u8, around: Around) -> Result<Switch, Refusal> {
        let mut switch = Switch { p, cases: Vec::new(), default: None };
        let mut open = around.open;
        let mut closer = self.first_of_switch()?;
        while let Closer::Case(n) = closer {
            open = self.open_case(n, &switch, open)?;
            let (body, next) = self.block(Around { open, part: Part::Case, ..around })?;
            switch.cases.push(Case { n, body });
            closer = next;
        }
        if let Closer::Default = closer {
            // alone it stands for no row and opens nothing
            self.open_regions(usize::from(!switch.cases.is_empty()))?;
            switch.default = Some(self.last_block(Around { open, part: Part::Last, ..around })?);
        }
        Ok(switch)
    }

    /// The row behind the row 0a: "a row before the first of them" gets 4.
    fn first_of_switch(&mut self) -> Result<Closer, Refusal> {
        let row = self.take_inside()?;
        match row.kind {
            row::CASE => Ok(Closer::Case(row.n)),
            row::DEFAULT => Ok(Closer::Default),
            row::END => Ok(Closer::End),
            _ => Err(Refusal::Misplaced),
        }
    }

    /// 11, "tested right after 4", then 6. A later case is an else with an if in
    /// it, and opens both their regions.
    fn open_case(&mut self, n: u16, switch: &Switch, open: usize) -> Result<usize, Refusal> {
        if switch.cases.iter().any(|case| case.n == n) {
            return Err(Refusal::CaseTwice);
        }
        self.open_construct(open, if switch.cases.is_empty() { 1 } else { 2 })
    }
}
