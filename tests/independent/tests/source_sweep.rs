//! The sweep of an unhardened table: counts worked out by hand, and on programs by hand and
//! random ones another sweep, which begins each struck run at its first row.

use independent::acts::{Act, Acts};
use independent::by_name::{add, call, functions, of, set};
use independent::machine::Outcome;
use independent::program::Program;
use independent::random::Random;
use independent::row_run::RowRun;
use independent::source_run::SourceRun;
use independent::source_sweep::sweep;
use independent::sweep::Counts;
use independent::sweep_programs;
use independent::table;
use independent::tallies::{Tallies, Tally};

/// Same, other, unfinished and lower; there is never an alarm.
fn told(tally: Tally) -> [u32; 4] {
    let Counts { alarms, same, other, unfinished } = tally.counts;
    assert_eq!(alarms, 0);
    assert_eq!(tally.strikes(), same + other + unfinished);
    [same, other, unfinished, tally.lower]
}

fn swept(program: &Program, budget: u16) -> Option<Tallies> {
    sweep(&table::parse(&program.rows).unwrap(), program.variables, budget)
}

/// The wide strikes, then the narrow ones.
fn both_sorts(program: &Program, budget: u16) -> [[u32; 4]; 2] {
    let tallies = swept(program, budget).expect("a run that finishes");
    [told(tallies.wide), told(tallies.narrow)]
}

/// 01's listing with v1 = 1 stands at rows 1, 2, 3, 4, 2, 3, 4, 2, 5; before these 9 steps
/// v0 is 0, 2, 2, 1, 1, 1, 0, 0, 0. Each is struck to rows 1 to 5: 45 strikes. From row 1
/// the whole run is made again. From rows 2 and 4 the loop takes v0 down: one row 3 for each
/// 1 of it. So it does from row 3, but where v0 is 0 the difference overflows. From row 5 the
/// run finishes at once.
///
/// Step 0 (nothing done): row 1 same, rows 2, 4 and 5 an empty trace, row 3 overflows.
/// Steps 1 and 2 (v0 = 2), steps 3 to 5 (v0 = 1): rows 2 to 4 same; row 1 and row 5 other.
/// Steps 6 to 8 (v0 = 0, all done): rows 2, 4 and 5 same, row 1 other, row 3 overflows.
/// Same 1 + 5 * 3 + 3 * 3 = 25, other 3 + 5 * 2 + 3 = 16, unfinished 1 + 3 = 4.
///
/// Narrow are the 9 to the same row (same); row 1 to 2 in step 0 and row 2 to 1 in steps 1, 4
/// and 7 (other, 4); row 3 to 4 in steps 2 and 5 (same, 2); row 4 to 3 in step 3 (same) and
/// in step 6 (overflows). So 12 same, 4 other, 1 unfinished; the rest is wide. The fee is 0,
/// and none is lower.
#[test]
fn the_listing() {
    let listing = sweep_programs::listing();
    assert_eq!(both_sorts(&listing, 20), [[13, 12, 3, 0], [12, 4, 1, 0]]);
    let tallies = swept(&listing, 20).unwrap();
    assert_eq!((tallies.unstruck.steps, tallies.unstruck.fee()), (9, 0));
    assert_eq!(tallies.wide.strikes() + tallies.narrow.strikes(), 45);
}

/// The longest struck runs of the listing are those to row 1, with 9 steps behind step k.
/// With the budget 9 only step 0's finishes, and the others do not: one from step 1 to 8 each,
/// of which steps 1, 4 and 7 stand at row 2 and are narrow. All else takes at most 9 steps but
/// these: from step k with v0 left, row 2 takes 3 * v0 + 2 steps, row 3 3 * v0 + 1, row 4
/// 3 * v0 + 3. Steps 1 to 8 are struck to rows 2, 3 and 4, with v0 = 2 at most by step 2:
/// step 1 9, 8, 10; step 2 10, 9, 11; step 3 8, 7, 9; step 4 9, 8, 10; step 5 10, 9, 11;
/// step 6 8, -, 9; step 7 9, -, 10; step 8 10, -, 11. Past 9 are 1 to 4; 2 to 2 and to 4;
/// 4 to 4; 5 to 2 and to 4; 7 to 4; 8 to 2 and to 4. Narrow of these are 2 to 4 and 5 to 4.
#[test]
fn a_short_budget() {
    let listing = sweep_programs::listing();
    // 8 to row 1, 5 of them wide; 9 more, 7 of them wide, which were all the same before
    assert_eq!(both_sorts(&listing, 9), [[13 - 7, 12 - 5, 3 + 12, 0], [12 - 2, 4 - 3, 1 + 5, 0]]);
    assert!(swept(&listing, 8).is_none());
}

/// 1 v0 = 5, 2 v0 = v0 + v1 with v1 = 2, 3 end: 7. Step 0 to row 2 gives 2, to row 3 0; step 1
/// (v0 = 5) to row 1 gives 7, to row 3 5; step 2 (v0 = 7) to row 1 gives 7, to row 2 9. Wide
/// are rows 1 to 3 and 3 to 1.
#[test]
fn lower_fees() {
    let program = of(functions(&[&[set(0, 5), add(0, 1)]]), &[(1, 2)]);
    assert_eq!(both_sorts(&program, 20), [[0, 2, 0, 1], [3, 4, 0, 2]]);
}

/// Function 0 is rows 1 to 3, function 1 rows 5 and 6: with 3 steps in function 0 and 2 in the
/// other there are 9 + 4 strikes. Unstruck: rows 1 (call), 5, 6, 2, 3; v1 = 1, v0 = 4.
/// Step 0 (row 1): to row 2 the call is left out, [2], to row 3 nothing is done, fee 0: wide.
/// Step 1 (row 5): to row 6 [2], narrow. Step 2 (row 6): to row 5 [5, 5, 2], narrow.
/// Step 3 (row 2): to row 1 [5, 5, 2], wide; to row 3 [5], fee 0, narrow. Step 4 (row 3): to
/// row 1 [5, 2, 5, 2], wide; to row 2 [5, 2, 2], narrow.
#[test]
fn a_call() {
    let program = of(functions(&[&[call(1), set(0, 4)], &[set(1, 1)]]), &[]);
    assert_eq!(both_sorts(&program, 20), [[0, 4, 0, 1], [5, 4, 0, 1]]);
}

/// The same sweep in another way: where each step stands is told by the run over the tree,
/// and each struck run begins at its first row.
fn from_the_first_row(program: &Program, budget: u16) -> [[u32; 4]; 2] {
    let table = table::parse(&program.rows).unwrap();
    let acts = Acts::of(&table);
    let mut source = SourceRun::new(&table, program.variables, budget);
    assert_eq!(source.run(), Outcome::Finished);
    let mut sorts = [[0; 4]; 2];
    for (reached, k) in source.reached.iter().zip(0..) {
        let function = &table.functions[reached.function];
        for to in function.opens + 1..=function.end {
            let mut run = RowRun::new(&acts, program.variables);
            run.run(k);
            run.strike(to);
            let ended = (run.run(budget), run.trace == source.trace);
            let low = reached.row.min(to);
            let crossed: Vec<Act> = (low..reached.row.max(to)).map(|row| acts.at(row)).collect();
            let sort = &mut sorts[usize::from(matches!(crossed[..], [] | [Act::Do(_)]))];
            sort[match ended {
                (Outcome::Finished, true) => 0,
                (Outcome::Finished, false) => 1,
                _ => 2,
            }] += 1;
            let lower = run.variables[0] < source.variables[0];
            sort[3] += u32::from(ended.0 == Outcome::Finished && lower);
        }
    }
    sorts
}

#[test]
fn as_from_the_first_row() {
    let mut rng = Random::new(91);
    let random = (0..1000).map(|_| sweep_programs::random(&mut rng).0);
    let mut totals = [[0; 4]; 2];
    for program in sweep_programs::by_hand().into_iter().chain(random) {
        let Some(tallies) = swept(&program, 400) else { continue };
        let found = [told(tallies.wide), told(tallies.narrow)];
        assert_eq!(found, from_the_first_row(&program, 400), "{program:?}");
        for (total, count) in totals.iter_mut().flatten().zip(found.into_iter().flatten()) {
            *total += count;
        }
    }
    // of each sort many of each end
    assert!(totals[0].iter().all(|count| *count > 2000), "{totals:?}");
    assert!(totals[1].iter().all(|count| *count > 150), "{totals:?}");
}

/// "None where the unstruck run does not finish"
#[test]
fn unfinished() {
    for program in sweep_programs::never_finished() {
        assert!(swept(&program, 300).is_none());
    }
}
