//! The cells of the map (docs/PROGRAMS.md, "The map"): how the strikes of each pair of
//! places ended. They come from struck runs, none from a rule about how a strike ends.

use crate::sweep::{End, Strike};

/// The do that the narrow jump to a place crosses, and the place that it comes from.
#[derive(Clone, Copy, Debug, PartialEq, Eq)]
pub struct Crossed {
    pub from: usize,
    pub row: u16,
}

/// The cells of a function of m lines.
pub struct Cells {
    /// by the place struck at, then by the one struck to; none where the run never stood
    ends: Vec<Vec<Option<End>>>,
    /// by the place struck to
    crossed: Vec<Option<Crossed>>,
}

impl Cells {
    /// "Down go the places where its run was struck, 0 to m - 1, across the places that it
    /// was struck to, 0 to m."
    pub fn new(m: usize) -> Cells {
        Cells { ends: vec![vec![None; m + 1]; m], crossed: vec![None; m + 1] }
    }

    /// Takes a strike inside the function, and the row of the do that it crosses, if it is
    /// a narrow jump.
    pub fn add(&mut self, strike: &Strike, row: Option<u16>) {
        let Strike { from, to, end, .. } = *strike;
        let cell = &mut self.ends[from][to];
        *cell = Some(cell.map_or(end, |before| worse(before, end)));
        if let Some(row) = row {
            self.crossed[to] = Some(Crossed { from, row });
        }
    }

    /// The worst of the pair; none where the run never stood at the first place.
    pub fn at(&self, from: usize, to: usize) -> Option<End> {
        self.ends[from][to]
    }

    /// A place where the run stood was struck to every place.
    pub fn stood(&self, place: usize) -> bool {
        self.ends[place][0].is_some()
    }

    /// No place is behind one do and before another, so there is one at most.
    pub fn crossed(&self, to: usize) -> Option<Crossed> {
        self.crossed[to]
    }
}

/// "finished with another trace, else not finished, else finished with the same trace or
/// an alarm, which do not meet in one pair"
fn worse(one: End, other: End) -> End {
    let ends = [one, other];
    assert!(!(ends.contains(&End::Same) && ends.contains(&End::Alarm)), "they do not meet");
    let order = [End::Other, End::Unfinished, End::Same, End::Alarm];
    order.into_iter().find(|end| ends.contains(end)).expect("there are four ways to end")
}

/// "neighbouring cells Y to just below Y + N"
#[derive(Clone, Copy, Debug, PartialEq, Eq)]
pub struct Piece {
    pub y: usize,
    pub n: usize,
}

/// The pieces of the places below m for which something holds.
pub fn pieces(m: usize, holds: impl Fn(usize) -> bool) -> Vec<Piece> {
    let mut pieces: Vec<Piece> = Vec::new();
    for y in (0..m).filter(|y| holds(*y)) {
        match pieces.last_mut() {
            Some(last) if last.y + last.n == y => last.n += 1,
            _ => pieces.push(Piece { y, n: 1 }),
        }
    }
    pieces
}
