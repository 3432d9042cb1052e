//! The rows that the open functions of a hardened run go on at, so that one whose budget is
//! spent can be held against a source run (01, "The hardened lines").

use crate::hardened_run::{Frame, HardenedRun};
use crate::layout::Layout;
use crate::table::Table;

/// For each line the row that the source's run is at when the hardened one stands before
/// it. A tick and a back have no row of their own: the do is done, the call has returned,
/// and the source's run is at the row behind.
pub fn rows_of_lines(table: &Table) -> Vec<usize> {
    let layout = Layout::of(table);
    // a row 01 has no line either: its function's first is that of the row behind it
    let opens = |row: &usize| table.functions.iter().any(|function| function.opens == *row);
    let mut rows = Vec::new();
    for row in (0..table.rows).filter(|row| !opens(row)) {
        rows.resize(usize::from(layout.line(row)) + 1, row);
    }
    rows
}

/// The row of each open function, oldest first. None of them stands at place m.
pub fn rows(rows_of_lines: &[usize], run: &HardenedRun) -> Vec<usize> {
    let line = |frame: &Frame| run.spans[frame.function].first + frame.place;
    run.frames.iter().map(|frame| rows_of_lines[line(frame)]).collect()
}
