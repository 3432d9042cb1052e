//! What stands around a row, found by walking back from it. Nothing is kept from
//! row to row, and every count is made anew. The rows before it must be right.

use crate::row::{self, Row};

/// A function, if, loop or switch that a row stands in.
struct Layer {
    opener: usize,
    /// the rows straight in it that begin another part of it (else, case,
    /// default), the last one first
    parts: Vec<usize>,
}

/// The layer that a row stands in directly: back over everything that is closed
/// before it.
fn layer(rows: &[Row], at: usize) -> Option<Layer> {
    let mut closed = 0;
    let mut parts = Vec::new();
    for i in (0..at).rev() {
        match rows[i].kind {
            row::END => closed += 1,
            row::FUNCTION | row::IF | row::LOOP | row::SWITCH if closed == 0 => {
                return Some(Layer { opener: i, parts });
            }
            row::FUNCTION | row::IF | row::LOOP | row::SWITCH => closed -= 1,
            row::ELSE | row::CASE | row::DEFAULT if closed == 0 => parts.push(i),
            _ => {}
        }
    }
    None
}

/// All layers around a row, the innermost first.
pub struct Around<'a> {
    rows: &'a [Row],
    at: usize,
    layers: Vec<Layer>,
}

impl Around<'_> {
    pub fn of(rows: &[Row], at: usize) -> Around<'_> {
        let mut layers = Vec::new();
        let mut from = at;
        while let Some(layer) = layer(rows, from) {
            from = layer.opener;
            layers.push(layer);
        }
        Around { rows, at, layers }
    }

    /// Is no function open?
    pub fn is_outside(&self) -> bool {
        self.layers.is_empty()
    }

    /// The innermost layer, if its opener is of this kind.
    fn straight_in(&self, kind: u8) -> Option<&Layer> {
        self.layers.first().filter(|layer| self.rows[layer.opener].kind == kind)
    }

    /// Straight in a then part: the innermost is an if that has had no else.
    pub fn in_then(&self) -> bool {
        self.straight_in(row::IF).is_some_and(|layer| layer.parts.is_empty())
    }

    pub fn in_loop(&self) -> bool {
        self.layers.iter().any(|layer| self.rows[layer.opener].kind == row::LOOP)
    }

    /// Straight in a switch, in one of its parts or before them.
    pub fn in_switch(&self) -> bool {
        self.straight_in(row::SWITCH).is_some()
    }

    /// Straight in a switch that has had no case and no default.
    pub fn before_first(&self) -> bool {
        self.straight_in(row::SWITCH).is_some_and(|layer| layer.parts.is_empty())
    }

    /// Straight in a switch that has had its default.
    pub fn behind_default(&self) -> bool {
        let is_default = |part: &usize| self.rows[*part].kind == row::DEFAULT;
        self.straight_in(row::SWITCH).is_some_and(|layer| layer.parts.iter().any(is_default))
    }

    /// Has the switch that the row stands in directly a case of this number?
    pub fn has_case(&self, n: u16) -> bool {
        let same = |part: &usize| self.rows[*part].kind == row::CASE && self.rows[*part].n == n;
        self.straight_in(row::SWITCH).is_some_and(|layer| layer.parts.iter().any(same))
    }

    /// The ifs and loops that are open, "each case counting as one open if".
    pub fn open(&self) -> usize {
        self.layers.iter().map(|layer| opened_by(self.rows, layer)).sum()
    }

    /// The regions that the function has opened.
    pub fn regions(&self) -> usize {
        let first = self.layers.last().map_or(self.at, |function| function.opener);
        (first..self.at).map(|i| regions_of(self.rows, i)).sum()
    }
}

/// How many open ifs and loops a layer is.
fn opened_by(rows: &[Row], layer: &Layer) -> usize {
    match rows[layer.opener].kind {
        row::IF | row::LOOP => 1,
        row::SWITCH => layer.parts.iter().filter(|part| rows[**part].kind == row::CASE).count(),
        _ => 0,
    }
}

/// The first case or default of a switch stands right behind the row of the
/// switch: any other row there is misplaced.
fn is_first(rows: &[Row], at: usize) -> bool {
    at > 0 && rows[at - 1].kind == row::SWITCH
}

/// The regions that a row opens. A later case is an else and an if in it; a
/// default is an else, or nothing where it is alone.
pub fn regions_of(rows: &[Row], at: usize) -> usize {
    let behind_another = usize::from(!is_first(rows, at));
    match rows[at].kind {
        row::FUNCTION | row::IF | row::ELSE | row::LOOP => 1,
        row::CASE => 1 + behind_another,
        row::DEFAULT => behind_another,
        _ => 0,
    }
}

/// The rows of the chain that a row stands for: those of a case or a default each
/// open a region, and a switch's end is an end for each of its cases.
pub fn chain_rows_of(rows: &[Row], at: usize) -> usize {
    match rows[at].kind {
        row::SWITCH => 0,
        row::CASE | row::DEFAULT => regions_of(rows, at),
        row::END => match layer(rows, at) {
            Some(closed) if rows[closed.opener].kind == row::SWITCH => opened_by(rows, &closed),
            _ => 1,
        },
        _ => 1,
    }
}
