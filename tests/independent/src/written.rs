//! A source table as it is written: a tree in which a switch is a statement of its
//! own. It has no row numbers, since those are the chain's (see `chain`).

use crate::row::Row;

/// The bodies of the functions, in table order.
pub type Functions = Vec<Block>;

/// The direct statements of a part.
pub type Block = Vec<Stmt>;

#[derive(Clone, Debug, PartialEq, Eq)]
pub enum Stmt {
    Do(Row),
    If { test: Row, then: Block, other: Option<Block> },
    While { test: Row, body: Block },
    Switch(Switch),
    Break,
    Continue,
    Call(u16),
}

/// "switch on vp", its cases in order, its default if it has one.
#[derive(Clone, Debug, PartialEq, Eq)]
pub struct Switch {
    pub p: u8,
    pub cases: Vec<Case>,
    pub default: Option<Block>,
}

/// "case n" and its part.
#[derive(Clone, Debug, PartialEq, Eq)]
pub struct Case {
    pub n: u16,
    pub body: Block,
}
