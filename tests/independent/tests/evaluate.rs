//! The sweep of a hardened table from copies, against the one that begins each run at line 0;
//! and what `independent evaluate` prints, by hand.

mod between;

use between::wide;
use independent::copied_sweep;
use independent::damage;
use independent::evaluate::{evaluate, Asked};
use independent::hardened_run::{spans_of, HardenedRun, Jump};
use independent::line::{self, Line};
use independent::machine::{Outcome, Variables};
use independent::printed::Printed;
use independent::program::Program;
use independent::random::Random;
use independent::sweep::{End, Strike, Sweep};
use independent::tallies::{Tallies, Tally};
use independent::{limits, sweep_programs, text};

/// The fee of a struck run that finishes.
fn fee(lines: &[Line], variables: Variables, budget: u16, strike: &Strike) -> Option<u16> {
    let mut run = HardenedRun::new(lines, variables);
    let outcome = run.run(budget, Some(Jump { k: strike.k, place: strike.to as u16 }));
    (outcome == Outcome::Finished).then_some(run.variables[0])
}

/// Both sorts by the slow sweep, wide first, by 01's definition of a guard between.
fn slowly(lines: &[Line], program: &Program, budget: u16) -> Option<[Tally; 2]> {
    let sweep = Sweep::new(lines, program.variables, budget)?;
    let mut unstruck = HardenedRun::new(lines, program.variables);
    unstruck.run(budget, None);
    let spans = spans_of(lines);
    let mut tallies = [Tally::default(); 2];
    for strike in sweep.strikes() {
        let span = spans[strike.function];
        let function = &lines[span.first..span.first + span.m];
        let narrow = !wide(function, strike.from, strike.to);
        let tally = &mut tallies[usize::from(narrow)];
        tally.counts.add(strike.end);
        let fee = fee(lines, program.variables, budget, &strike);
        assert_eq!(fee.is_some(), matches!(strike.end, End::Same | End::Other));
        tally.lower += u32::from(fee.is_some_and(|fee| fee < unstruck.variables[0]));
    }
    Some(tallies)
}

#[test]
fn copied_as_from_line_0() {
    let mut rng = Random::new(95);
    let random = (0..1000).map(|_| sweep_programs::random(&mut rng).0);
    let mut lower = 0;
    for program in sweep_programs::by_hand().into_iter().chain(random) {
        let lines = line::from_bytes(&damage::hardened(&program.rows));
        for budget in [40, 400] {
            let tallies = copied_sweep::sweep(&lines, program.variables, budget);
            let copied = tallies.map(|Tallies { wide, narrow, .. }| [wide, narrow]);
            assert_eq!(copied, slowly(&lines, &program, budget), "{program:?}");
            lower += copied.map_or(0, |[_, narrow]| narrow.lower);
        }
    }
    assert!(lower > 100, "{lower}");
}

fn listing() -> String {
    text::lines(&limits::worked_listing(), 6)
}

fn printed(words: &[&str], rows: &str) -> Printed {
    evaluate(Asked::read(words).expect("right words"), rows.as_bytes()).unwrap()
}

/// The unhardened counts are those of `tests/source_sweep.rs`. Hardened, of 12 steps with 8
/// places each 74 alarm, 15 are the same, 2 other and 5 unfinished (`tests/sweep.rs`). Narrow
/// are 12 to the same place and 6 across a do: row 1 left out and done twice (other), row 3
/// left out twice and done twice once (same), and done twice where it overflows.
#[test]
fn the_listing() {
    let expected = "\
rows 6
chain 6
lines 7
unhardened steps 9
unhardened fee 0
unhardened wide strikes 28 alarm 0 same 13 other 12 unfinished 3 lower 0
unhardened narrow strikes 17 alarm 0 same 12 other 4 unfinished 1 lower 0
hardened steps 12
hardened fee 0
hardened wide strikes 78 alarm 74 same 0 other 0 unfinished 4 lower 0
hardened narrow strikes 18 alarm 0 same 15 other 2 unfinished 1 lower 0
";
    assert_eq!(printed(&["v1=1", "budget=20"], &listing()), Printed::out(expected));
}

/// v0 = 5, v0 = v0 + v1 with v1 = 2. Hardened: do, tick, do, tick, ret, so 5 steps of 6
/// places. Narrow are 5 to the same place; the first do left out gives 2, the second 5, done
/// twice they give 7 and 9.
#[test]
fn lower_fees() {
    let rows = "010000000000\n020000000500\n020200010000\n060000000000\n";
    let text = printed(&["v1=2"], rows).out;
    let line = |start: &str| text.lines().find_map(|line| line.strip_prefix(start)).unwrap();
    assert_eq!(line("hardened fee "), "7");
    let narrow = "strikes 9 alarm 0 same 5 other 4 unfinished 0 lower 2";
    assert_eq!(line("hardened narrow "), narrow);
    assert_eq!(line("hardened wide "), "strikes 21 alarm 21 same 0 other 0 unfinished 0 lower 0");
    assert_eq!(line("unhardened wide "), "strikes 2 alarm 0 same 0 other 2 unfinished 0 lower 1");
}

/// A switch of two cases and a default: 8 rows as written, and 9 as ifs in elses.
#[test]
fn a_switch() {
    let rows = "010000000000\n0a0000000000\n0b0000000100\n0b0000000200\n0c0000000000\n\
                020000000700\n060000000000\n060000000000\n";
    let text = printed(&[], rows).out;
    // function; if, else, if, else, do, end, end; end
    assert!(text.starts_with("rows 8\nchain 9\nlines "), "{text}");
    // unstruck: if, if, do, end, end, end
    assert!(text.contains("\nunhardened steps 6\nunhardened fee 7\n"), "{text}");
}

#[test]
fn refused() {
    assert_eq!(printed(&[], "010000000000\n"), Printed::refused(4));
    // the source's run takes 9 steps, the hardened one 12
    for budget in ["budget=8", "budget=9", "budget=11"] {
        assert_eq!(printed(&["v1=1", budget], &listing()), Printed::refused(13));
    }
    assert_eq!(printed(&[], "01").out, "unreadable\n");
}

#[test]
fn words() {
    let mut variables = [0; 16];
    assert_eq!(Asked::read(&[]), Some(Asked { variables, budget: 65_535 }));
    variables[15] = 7;
    let asked = Some(Asked { variables, budget: 3 });
    assert_eq!(Asked::read(&["v15=7", "budget=3"]), asked);
    for wrong in [&["v16=1"][..], &["v1"], &["list"], &["v1=65536"], &["v1=1", "v1=1"], &["v01=2"]]
    {
        assert_eq!(Asked::read(wrong), None, "{wrong:?}");
    }
}
