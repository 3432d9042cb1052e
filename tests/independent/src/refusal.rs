//! The numbers of 01, "What turns a call away", and those that 02 adds.

/// A cause that turns a call away. Its discriminant is the number.
#[derive(Clone, Copy, Debug, PartialEq, Eq)]
pub enum Refusal {
    /// "bytes are no whole rows, or none"
    NoWholeRows = 1,
    /// "over 1,024 rows", as given or as the chain of ifs that they stand for
    TooManyRows = 2,
    /// "kind, op, p, q or an unused field wrong"
    WrongField = 3,
    /// "row misplaced: ..., something left open at the end"
    Misplaced = 4,
    /// "a 33rd function"
    TooManyFunctions = 5,
    /// "a 17th open if or loop, or a 65th region"
    TooMuchOpen = 6,
    /// "call of a function that isn't there"
    NoSuchFunction = 7,
    /// "output shorter than the answer"
    OutputShort = 8,
    /// "trace slots fewer than the budget, or in a hardened run fewer than
    /// 1,024 counter words"
    BuffersShort = 9,
    /// "hardened bytes that no source table gives"
    NotHardened = 10,
    /// 02: "when a second case of a switch has a number already used there"
    CaseTwice = 11,
    /// 02: "when the unstruck run doesn't finish in the budget"
    Unfinished = 13,
}

impl Refusal {
    /// The number that a call answers.
    pub fn number(self) -> u8 {
        self as u8
    }
}
