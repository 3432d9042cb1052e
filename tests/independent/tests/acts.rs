//! What each row does and where a run goes on behind it: found a second time by walking over
//! the rows, forward and back, where `acts` walks the tree; and a table by hand.

use independent::acts::{Act, Acts};
use independent::random::Random;
use independent::row::{self, Row, ROW_BYTES};
use independent::{damage, make, read_back, table};

/// The rows of the chain: reading back "gives the ifs".
fn chain_of(given: &[u8]) -> Vec<Row> {
    let lines = damage::hardened(given);
    let mut out = vec![0; 1024 * ROW_BYTES];
    let written = read_back(&lines, &mut out);
    assert_eq!(written.number, 0);
    out[..written.length].chunks(ROW_BYTES).map(Row::read).collect()
}

fn opens(row: Row) -> bool {
    matches!(row.kind, row::FUNCTION | row::IF | row::LOOP)
}

/// The first row behind this one, which stands in what is to be closed, that is of the kind
/// and not inside anything opened on the way; none if the end comes before.
fn ahead(rows: &[Row], from: usize, kind: u8) -> Option<usize> {
    let mut inside = 0;
    for (at, row) in rows.iter().enumerate().skip(from + 1) {
        match row.kind {
            found if inside == 0 && found == kind => return Some(at),
            row::END if inside == 0 => return None,
            row::END => inside -= 1,
            _ if opens(*row) => inside += 1,
            _ => {}
        }
    }
    unreachable!("everything is closed")
}

/// The rows that opened what is open at this one, innermost first.
fn around(rows: &[Row], from: usize) -> Vec<usize> {
    let mut closed = 0;
    let mut found = Vec::new();
    for at in (0..from).rev() {
        match rows[at].kind {
            row::END => closed += 1,
            _ if opens(rows[at]) && closed > 0 => closed -= 1,
            _ if opens(rows[at]) => found.push(at),
            _ => {}
        }
        if rows[at].kind == row::FUNCTION {
            return found;
        }
    }
    found
}

fn end_of(rows: &[Row], opener: usize) -> usize {
    ahead(rows, opener, row::END).expect("everything is closed")
}

/// The loop that a break or a continue is of.
fn innermost_loop(rows: &[Row], at: usize) -> usize {
    let is_loop = |opener: &usize| rows[*opener].kind == row::LOOP;
    around(rows, at).into_iter().find(is_loop).expect("a loop around")
}

/// 01, "Running", of one row.
fn act(rows: &[Row], at: usize) -> Act {
    let row = rows[at];
    match row.kind {
        row::FUNCTION => Act::Opens,
        row::DO => Act::Do(row),
        row::IF => {
            let other = ahead(rows, at, row::ELSE);
            Act::Test { test: row, past: other.unwrap_or_else(|| end_of(rows, at)) + 1 }
        }
        row::LOOP => Act::Test { test: row, past: end_of(rows, at) + 1 },
        row::ELSE => Act::Goes(end_of(rows, at) + 1),
        row::BREAK => Act::Goes(end_of(rows, innermost_loop(rows, at)) + 1),
        row::CONTINUE => Act::Goes(innermost_loop(rows, at)),
        row::CALL => Act::Call(usize::from(row.n)),
        row::END => {
            let opener = around(rows, at)[0];
            match rows[opener].kind {
                row::FUNCTION => Act::Returns,
                row::LOOP => Act::Goes(opener),
                _ => Act::Goes(at + 1),
            }
        }
        kind => unreachable!("a chain has no row kind {kind}"),
    }
}

/// 5,000 random tables, a third of them with switches.
#[test]
fn as_the_rows_say() {
    let mut rng = Random::new(801);
    for _ in 0..5000 {
        let given = make::any_table(&mut rng);
        let rows = chain_of(&given);
        let acts = Acts::of(&table::parse(&given).unwrap());
        for at in 0..rows.len() {
            assert_eq!(acts.at(at), act(&rows, at), "row {at} of {given:?}");
        }
    }
}

/// The rows of the functions are all rows but the 01s.
#[test]
fn every_row_is_of_one_function() {
    let mut rng = Random::new(802);
    for _ in 0..500 {
        let table = table::parse(&make::any_table(&mut rng)).unwrap();
        let acts = Acts::of(&table);
        let standing: Vec<usize> =
            (0..table.functions.len()).flat_map(|number| acts.function(number)).collect();
        let expected: Vec<usize> =
            (0..table.rows).filter(|at| acts.at(*at) != Act::Opens).collect();
        assert_eq!(standing, expected);
    }
}

/// 0 function, 1 do, 2 if, 3 do, 4 else, 5 do, 6 do, 7 end, 8 end
#[test]
fn narrow() {
    let rows = [[1, 0], [2, 0], [3, 0], [2, 0], [4, 0], [2, 0], [2, 0], [6, 0], [6, 0]];
    let bytes: Vec<u8> = rows.iter().flat_map(|[kind, op]| [*kind, *op, 0, 0, 0, 0]).collect();
    let acts = Acts::of(&table::parse(&bytes).unwrap());
    let pairs = |from: usize| (1..=8).filter(|to| acts.narrow(from, *to)).collect::<Vec<_>>();
    assert_eq!(pairs(1), [1, 2]);
    assert_eq!(pairs(2), [1, 2]);
    assert_eq!(pairs(3), [3, 4]);
    assert_eq!(pairs(4), [3, 4]);
    assert_eq!(pairs(5), [5, 6]);
    assert_eq!(pairs(6), [5, 6, 7]);
    assert_eq!(pairs(7), [6, 7]);
    assert_eq!(pairs(8), [8]);
}
