//! Regions and values of random tables, against what 01 says of them.

mod flat_chain;

use independent::layout::{Layout, Region};
use independent::random::Random;
use independent::table::{self, Table};
use independent::{harden, limits, line, make};

fn some_tables() -> Vec<Vec<u8>> {
    let mut tables: Vec<Vec<u8>> = limits::all()
        .into_iter()
        .filter(|(_, number)| *number == 0)
        .map(|(rows, _)| rows)
        .collect();
    tables.extend((0..4000).map(|seed| make::any_table(&mut Random::new(seed))));
    tables
}

/// The kind of each row, and the row that opened the region around it.
fn openers(rows: &[u8]) -> Vec<(u8, Option<usize>)> {
    let mut open: Vec<usize> = Vec::new();
    let mut around = Vec::new();
    for (at, row) in rows.chunks(6).enumerate() {
        // An end row closes; for what it takes, it stands where it closes.
        let inside = open.last().copied();
        around.push((row[0], inside));
        match row[0] {
            1 | 3 | 5 => open.push(at),
            4 => *open.last_mut().unwrap() = at,
            6 => drop(open.pop()),
            _ => {}
        }
    }
    around
}

/// "a do, break or continue takes 1 value, an if, loop or call 2 values, a
/// function's end 1"
fn takes(kinds: &[(u8, Option<usize>)], at: usize) -> u16 {
    match kinds[at] {
        (2 | 7 | 8, _) => 1,
        (3 | 5 | 9, _) => 2,
        (6, Some(opener)) if kinds[opener].0 == 1 => 1,
        _ => 0,
    }
}

#[test]
fn sizes_bases_and_values_by_their_definitions() {
    for rows in some_tables() {
        let table = table::parse(&rows).unwrap();
        let layout = Layout::of(&table);
        let kinds = openers(&flat_chain::chain(&rows));
        let mut next = 1;
        let mut number = 0;
        for opener in (0..kinds.len()).filter(|at| matches!(kinds[*at].0, 1 | 3 | 4 | 5)) {
            number = if kinds[opener].0 == 1 { 0 } else { number + 1 };
            let direct = direct_rows(&kinds, opener);
            let size = 1 + direct.iter().map(|at| takes(&kinds, *at)).sum::<u16>();
            let want = Region { number, base: next, last: next + size - 1 };
            assert_eq!(layout.region(opener), want);
            values_of_direct_rows(&layout, &kinds, &direct, next);
            next += size;
        }
    }
}

fn direct_rows(kinds: &[(u8, Option<usize>)], opener: usize) -> Vec<usize> {
    (0..kinds.len()).filter(|at| kinds[*at].1 == Some(opener)).collect()
}

fn values_of_direct_rows(
    layout: &Layout,
    kinds: &[(u8, Option<usize>)],
    direct: &[usize],
    base: u16,
) {
    let mut e = base;
    for at in direct {
        if takes(kinds, *at) > 0 {
            assert_eq!(layout.value(*at), e, "row {at}");
        }
        e += takes(kinds, *at);
    }
}

/// "So no value stands in two regions, and none is 0."
#[test]
fn values_are_disjoint() {
    for rows in some_tables() {
        let layout = Layout::of(&table::parse(&rows).unwrap());
        let regions = layout.regions();
        assert_eq!(regions[0].base, 1);
        for pair in regions.windows(2) {
            assert_eq!(pair[1].base, pair[0].last + 1);
        }
    }
}

/// A row has two lines (do, call), one, or none (01); a switch's are its chain's.
#[test]
fn as_many_lines_as_the_rows_ask_for() {
    for rows in some_tables() {
        let count: usize = flat_chain::chain(&rows)
            .chunks(6)
            .map(|row| match row[0] {
                1 => 0,
                2 | 9 => 2,
                _ => 1,
            })
            .sum();
        let table: Table = table::parse(&rows).unwrap();
        let lines = harden::lines(&table);
        assert_eq!(lines.len(), count);
        assert_eq!(line::from_bytes(&line::to_bytes(&lines)), lines);
    }
}
