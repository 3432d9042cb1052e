//! What a random table looks like: its size, and how often each statement is chosen.

/// How often each statement is chosen.
#[derive(Clone, Copy, Debug)]
pub struct Weights {
    pub dos: usize,
    pub ifs: usize,
    pub elses: usize,
    pub loops: usize,
    pub breaks: usize,
    pub continues: usize,
    pub calls: usize,
    pub switches: usize,
}

/// What a random table looks like.
#[derive(Clone, Copy, Debug)]
pub struct Shape {
    /// rows of the table; at least two for each function
    pub rows: usize,
    pub functions: usize,
    /// ifs and loops open, at most
    pub depth: usize,
    /// in percent: how often a part takes nearly all the room there is
    pub eager: usize,
    pub weights: Weights,
}

const NONE: Weights =
    Weights { dos: 0, ifs: 0, elses: 0, loops: 0, breaks: 0, continues: 0, calls: 0, switches: 0 };
/// A few of everything that 01 has.
pub const MIXED: Weights =
    Weights { dos: 6, ifs: 2, elses: 2, loops: 2, breaks: 1, continues: 1, calls: 2, ..NONE };
/// Dos only: opens no region.
pub const PLAIN: Weights = Weights { dos: 1, ..NONE };
/// The same as mixed, with switches.
pub const SWITCHY: Weights = Weights { switches: 4, ..MIXED };
pub const BRANCHY: Weights =
    Weights { dos: 1, ifs: 4, elses: 5, loops: 2, breaks: 1, continues: 1, calls: 1, ..NONE };
pub const LOOPY: Weights =
    Weights { dos: 3, ifs: 1, elses: 1, loops: 5, breaks: 3, continues: 3, ..NONE };
pub const CALLING: Weights =
    Weights { dos: 3, ifs: 1, elses: 1, loops: 1, breaks: 1, continues: 1, calls: 8, ..NONE };
pub const HOLLOW: Weights = Weights { ifs: 3, elses: 4, loops: 3, breaks: 1, continues: 1, ..NONE };
/// Switches in each other, in loops and beside dos.
pub const BANDS: Weights =
    Weights { dos: 3, loops: 2, breaks: 1, continues: 1, calls: 1, switches: 6, ..NONE };
pub const HOLLOW_BANDS: Weights = Weights { ifs: 1, elses: 1, loops: 1, switches: 6, ..NONE };
