//! The figures of a table (02, No. 2), worked out by hand; on random tables against sums
//! over the rows, which the calls do not use, and against what hardening takes.

mod flat_chain;
mod letters;
mod listing;

use independent::printed::Printed;
use independent::programs::Program;
use independent::random::Random;
use independent::{check, faults, harden, limits, make, measure, switch_limits, texts, Measured};
use letters::rows;

fn figures(lines: usize, regions: usize, value: u16) -> Measured {
    Measured { number: 0, lines, regions, value }
}

/// "the figures then 0"
fn refused(number: u8) -> Measured {
    Measured { number, lines: 0, regions: 0, value: 0 }
}

#[test]
fn the_worked_tables() {
    assert_eq!(measure(&limits::worked_listing()), figures(7, 2, 7));
    assert_eq!(measure(&switch_limits::worked_switch()), figures(13, 5, 13));
    assert_eq!(measure(&rows("f.")), figures(1, 1, 2));
}

/// Tables in letters. Behind each: its lines, then the sizes of its regions in the order
/// they open, a semicolon between functions. The last value of the last region is the
/// highest, since each base is past all that comes before it.
const BY_HAND: &[(&str, usize, usize, u16)] = &[
    // do tick ret; 3
    ("fd.", 3, 1, 3),
    // test, do tick leave, do tick leave, ret; 4 2 2
    ("fided..", 8, 3, 8),
    // test leave leave ret; 4 1 1
    ("fie..", 4, 3, 6),
    // test leave ret; 4 1
    ("fi..", 3, 2, 5),
    ("fl..", 3, 2, 5),
    // test, out leave, do tick, ret; 5 2
    ("flb.d.", 6, 2, 7),
    // test, out out do tick leave, ret; 4 4: no run comes to the continue or the do
    ("flbcd..", 7, 2, 8),
    // test, test, out leave, out leave, ret; 4 4 2
    ("flib.c..", 7, 3, 10),
    // call back, call back, ret; 6
    ("faa.", 5, 1, 6),
    // test, call back do tick leave, ret; 4 4
    ("fiad..", 7, 2, 8),
    // test leave three times, ret, do tick ret; 8 1 1 1; 3
    ("fi.i.i..fd.", 10, 4, 14),
    // the same two, the other way round
    ("fd.fi.i.i..", 10, 4, 14),
    // test leave ret twice; 4 1; 4 1: two each, and not four
    ("fi..fl..", 6, 2, 10),
    // the second has the most of three; 4 1; 6 1 1; 2
    ("fi..fi.l..f.", 9, 3, 15),
    // test, five times do tick, leave, ret; 4 6. The test's go is line 12.
    ("fiddddd..", 13, 2, 10),
    // as fided.. is
    ("fs1d*d..", 8, 3, 8),
    // test, do tick leave, test leave leave, ret; 4 2 3 1: a later case is two regions
    ("fs1d2..", 8, 4, 10),
    // test leave, test leave leave leave, ret; 4 1 3 1 1
    ("fs12*..", 7, 5, 10),
    // test, test, out leave, test, out leave, do tick leave, leave, do tick, leave, ret;
    // 4 4 2 3 2 2
    ("fls1b2c*d.d..", 15, 6, 17),
    // an empty switch, a default that is alone, and such in each other
    ("fs..", 1, 1, 2),
    ("fs*..", 1, 1, 2),
    ("fs*d..", 3, 1, 3),
    ("fs*s*ds....", 3, 1, 3),
];

#[test]
fn tables_by_hand() {
    for (letters, lines, regions, value) in BY_HAND {
        assert_eq!(measure(&rows(letters)), figures(*lines, *regions, *value), "{letters}");
    }
}

/// The largest tables. One function of 1,022 dos: two lines and one value each. The same
/// of calls: two lines and two values each. Eight functions of a body and 63 empty loops:
/// sizes 128 and 63 times 1, lines 2 for each loop.
#[test]
fn at_the_limits() {
    assert_eq!(measure(&limits::rows(1024)), figures(2045, 1, 1024));
    let calls = rows(&format!("f{}.", "a".repeat(1022)));
    assert_eq!(measure(&calls), figures(2045, 1, 2046));
    let eight = limits::regions(64, 5).repeat(8);
    assert_eq!(measure(&eight), figures(8 * 127, 64, 8 * 191));
    // 16 ifs in each other and a do: a test and a leave each; 4, 15 times 3, 2
    assert_eq!(measure(&limits::open(16, &[3])), figures(32 + 2 + 1, 17, 4 + 45 + 2));
    // 31 functions of a call and one of nothing; 31 times 4, 2
    assert_eq!(measure(&limits::functions(32)), figures(94, 1, 126));
    // 16 cases: a test and two leaves each, but of the last no else; 4, 1, 15 times 3 and 1
    assert_eq!(measure(&switch_limits::one_switch(16)), figures(48, 32, 65));
}

#[test]
fn turned_away() {
    assert_eq!(measure(&[]), refused(1));
    assert_eq!(measure(&rows("f.")[..11]), refused(1));
    assert_eq!(measure(&limits::rows(1025)), refused(2));
    for (letters, number) in
        [("fD.", 3), ("f", 4), ("fd..", 4), ("fe.", 4), ("fA.", 7), ("fs11..", 11), ("fs1A1D", 11)]
    {
        assert_eq!(measure(&rows(letters)), refused(number), "{letters}");
    }
    for (table, number) in limits::all().into_iter().filter(|(_, number)| *number != 0) {
        assert_eq!(measure(&table), refused(number));
    }
    let mut rng = Random::new(8);
    for _ in 0..20 {
        for (name, make) in faults::ALL {
            let (table, number) = make(&mut rng);
            let measured = measure(&table);
            assert_eq!(measured.number, number, "{name}");
            assert_eq!(measured == refused(number), number != 0, "{name}");
        }
    }
}

/// What each row of a chain adds: "22 tick follows each do", "27 back follows each call";
/// 01, 03, 04 and 05 open a region, whose size has 1 for itself; and 01's "takes".
fn summed(table: &[u8]) -> Measured {
    let mut sum = figures(0, 0, 0);
    let (mut open, mut regions) = (0, 0);
    for row in flat_chain::chain(table).chunks(6) {
        let (lines, opened, values) = match row[0] {
            1 => (0, 1, 1),
            2 => (2, 0, 1),
            3 | 5 => (1, 1, 3),
            4 => (1, 1, 1),
            6 => (1, 0, if open == 1 { 1 } else { 0 }),
            7 | 8 => (1, 0, 1),
            9 => (2, 0, 2),
            kind => panic!("no kind {kind} in a chain"),
        };
        match row[0] {
            1 | 3 | 5 => open += 1,
            6 => open -= 1,
            _ => {}
        }
        regions = if row[0] == 1 { 1 } else { regions + opened };
        sum = figures(sum.lines + lines, sum.regions.max(regions), sum.value + values);
    }
    sum
}

/// "All four figures are those that hardening and running then show": an output of just
/// as many bytes is enough, and is filled; one byte less is not.
fn as_hardened(table: &[u8], measured: Measured) {
    let length = 20 * measured.lines;
    let mut out = vec![0xee; length + 1];
    let written = harden(table, &mut out[..length]);
    assert_eq!((written.number, written.length), (0, length));
    assert_eq!((out[length - 20], out[length]), (0x28, 0xee));
    let written = harden(table, &mut out[..length - 1]);
    assert_eq!((written.number, written.length), (8, 0));
}

#[test]
fn random_tables() {
    let mut with_switches = 0;
    for seed in 0..20_000 {
        let table = make::any_table(&mut Random::new(seed));
        let measured = measure(&table);
        assert_eq!(measured, summed(&table), "{seed}");
        as_hardened(&table, measured);
        with_switches += usize::from(table.chunks(6).any(|row| row[0] == 10));
    }
    assert!(with_switches > 5000, "{with_switches}");
    for (table, _) in limits::all().into_iter().filter(|(_, number)| *number == 0) {
        assert_eq!(measure(&table), summed(&table));
        as_hardened(&table, measure(&table));
    }
}

/// The figures are the chain's: a switch and its ifs have the same.
#[test]
fn a_switch_as_its_chain() {
    for seed in 0..5000 {
        let table = make::any_table(&mut Random::new(seed));
        assert_eq!(measure(&flat_chain::chain(&table)), measure(&table));
    }
}

/// Refused or not, the number is that of `check`.
#[test]
fn the_number_is_that_of_check() {
    let mut rng = Random::new(3);
    for _ in 0..20_000 {
        let table = faults::mutated(&mut rng);
        assert_eq!(measure(&table).number, check(&table));
    }
}

fn printed(input: &str) -> Printed {
    Program::Measure.printed(&[], input.as_bytes()).unwrap()
}

/// docs/PROGRAMS.md, "measure".
#[test]
fn the_text() {
    let lines = "lines 7\nregions 2\nvalue 7\nbytes 140\n";
    assert_eq!(printed(listing::ROWS), Printed::out(lines));
    assert_eq!(printed(listing::ROWS.trim_end()), Printed::out(lines));
    let lines = "lines 1\nregions 1\nvalue 2\nbytes 20\n";
    assert_eq!(printed("010000000000\n060000000000\n"), Printed::out(lines));
    assert_eq!(printed(""), Printed::out("refused 1\n"));
    assert_eq!(printed("010000000000\n"), Printed::out("refused 4\n"));
    assert_eq!(printed(&"ffffffffffff\n".repeat(1025)), Printed::out("refused 2\n"));
    let unreadable =
        Printed { out: "unreadable\n".into(), err: "line 1: more than 12 digits\n".into() };
    assert_eq!(printed(listing::LINES), unreadable);
}

/// For every text that `harden` gets, it prints four lines where that prints lines, and
/// the same as that where it does not.
#[test]
fn as_the_hardening_program() {
    let mut accepted = 0;
    for text in texts::all(2, 60) {
        if !text.programs.contains(&Program::Harden) {
            assert!(!text.programs.contains(&Program::Measure));
            continue;
        }
        assert!(text.programs.contains(&Program::Measure), "{}", text.name);
        let [lines, figures] = [Program::Harden, Program::Measure]
            .map(|program| program.printed(&[], &text.bytes[..]).unwrap());
        if lines.out.starts_with('2') {
            let count = lines.out.lines().count();
            let begins = format!("lines {count}\nregions ");
            let ends = format!("\nbytes {}\n", 20 * count);
            assert!(figures.out.starts_with(&begins) && figures.out.ends_with(&ends));
            accepted += 1;
        } else {
            assert_eq!(figures, lines, "{}", text.name);
        }
    }
    assert!(accepted > 100, "{accepted}");
}
