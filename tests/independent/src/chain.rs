//! From the tree as written to the tree of what it stands for (02, No. 1): "A
//! switch is hardened as the chain of ifs in elses that it stands for".
//!
//! One walk makes a switch into ifs in each other's else parts and gives every
//! row its number on the way: "Row numbers, steps, trace and limits are those of
//! the chain". All else stands for itself.

use crate::row::{self, Row};
use crate::table::{Block, Else, Function, Stmt, Table};
use crate::written::{self, Case, Switch};

/// The table that the functions stand for.
pub fn table(functions: &written::Functions) -> Table {
    let mut walk = Walk { next: 0 };
    let functions = functions.iter().map(|body| walk.function(body)).collect();
    Table { rows: walk.next, functions }
}

struct Walk {
    /// number of the next row
    next: usize,
}

impl Walk {
    /// The number of a row that the walk comes to now.
    fn row(&mut self) -> usize {
        self.next += 1;
        self.next - 1
    }

    fn function(&mut self, body: &written::Block) -> Function {
        let opens = self.row();
        let body = self.block(body);
        Function { opens, body, end: self.row() }
    }

    fn block(&mut self, block: &written::Block) -> Block {
        let mut made = Block::new();
        self.append(block, &mut made);
        made
    }

    fn append(&mut self, block: &written::Block, made: &mut Block) {
        for stmt in block {
            match stmt {
                written::Stmt::Switch(switch) => self.switch(switch, made),
                other => made.push(self.statement(other)),
            }
        }
    }

    fn statement(&mut self, stmt: &written::Stmt) -> Stmt {
        let row = self.row();
        match stmt {
            written::Stmt::Do(what) => Stmt::Do { row, what: *what },
            written::Stmt::Break => Stmt::Break { row },
            written::Stmt::Continue => Stmt::Continue { row },
            written::Stmt::Call(function) => Stmt::Call { row, function: *function },
            written::Stmt::While { test, body } => {
                let body = self.block(body);
                Stmt::While { row, test: *test, body, end: self.row() }
            }
            written::Stmt::If { test, then, other } => {
                let then = self.block(then);
                let other = other.as_ref().map(|block| self.else_part(block));
                Stmt::If { row, test: *test, then, other, end: self.row() }
            }
            written::Stmt::Switch(_) => unreachable!("a switch may be more than a statement"),
        }
    }

    fn else_part(&mut self, block: &written::Block) -> Else {
        let row = self.row();
        Else { row, block: self.block(block) }
    }

    /// "an empty switch stands for no rows, one with only a default for that
    /// part's rows"
    fn switch(&mut self, switch: &Switch, made: &mut Block) {
        if !switch.cases.is_empty() {
            made.push(self.case(switch, &switch.cases));
        } else if let Some(default) = &switch.default {
            self.append(default, made);
        }
    }

    /// The if that a case stands for. What comes behind the case is its else part,
    /// and its end is one of the switch's end.
    fn case(&mut self, switch: &Switch, cases: &[Case]) -> Stmt {
        let (first, later) = cases.split_first().expect("a case");
        let row = self.row();
        let test = Row { kind: row::IF, op: 0, p: switch.p, q: 0, n: first.n };
        let then = self.block(&first.body);
        let other = if later.is_empty() {
            switch.default.as_ref().map(|block| self.else_part(block))
        } else {
            let row = self.row();
            Some(Else { row, block: vec![self.case(switch, later)] })
        };
        Stmt::If { row, test, then, other, end: self.row() }
    }
}
