//! Source runs row by row: unstruck against the run over the tree; struck to the row where
//! they stand, which changes nothing; struck across a do, against the run in which that do
//! slips; and struck elsewhere, by hand.

mod counted;
mod letters;
mod short;

use counted::Counted;
use independent::acts::{Act, Acts};
use independent::by_name::{add, call, differs, equal, functions, of, set, ELSE, END};
use independent::machine::{Outcome, Variables};
use independent::program::{self, Program};
use independent::row::{self, Row};
use independent::row_run::RowRun;
use independent::slip::{self, How, Slip};
use independent::source_run::SourceRun;
use independent::table::{self, Table};
use independent::{limits, overflow_programs, sweep_programs};

/// A table in both readings, and the first values.
struct Both {
    table: Table,
    acts: Acts,
    variables: Variables,
}

impl Both {
    fn of(program: &Program) -> Both {
        let table = table::parse(&program.rows).unwrap();
        let acts = Acts::of(&table);
        Both { table, acts, variables: program.variables }
    }

    /// The run before each of its first steps, so many at most.
    fn before_steps(&self, most: u16) -> Vec<RowRun<'_>> {
        let mut run = RowRun::new(&self.acts, self.variables);
        let mut before = Vec::new();
        for steps in 1..=most {
            before.push(run.clone());
            if run.run(steps) != Outcome::BudgetSpent {
                break;
            }
        }
        before
    }

    /// The run goes on to the budget as the run over the tree does, with this slip.
    fn agrees(&self, mut run: RowRun, budget: u16, slip: Option<Slip>) -> Outcome {
        let (expected, source) = slip::run(&self.table, self.variables, budget, slip);
        let outcome = run.run(budget);
        assert_eq!(
            (outcome, run.steps, &run.trace, run.variables),
            (expected, source.steps, &source.trace, source.variables),
            "{slip:?} with the budget {budget}"
        );
        outcome
    }
}

/// By hand: loops, breaks, calls, recursions, switches; finishing, overflowing, endless.
fn by_hand() -> Vec<Program> {
    let mut programs = sweep_programs::by_hand();
    programs.extend(overflow_programs::finishing());
    programs.extend(overflow_programs::overflowing());
    programs.extend(sweep_programs::never_finished());
    programs
}

fn random(count: u64) -> impl Iterator<Item = Program> {
    (0..count).map(|seed| program::by_seed(81_000 + seed, 40))
}

/// Each row reached, then how the run ended or where it goes on.
fn unstruck_agrees(program: &Program, budget: u16) -> Outcome {
    let both = Both::of(program);
    let mut source = SourceRun::new(&both.table, both.variables, budget);
    let outcome = source.run();
    let reached: Vec<(usize, usize)> =
        source.reached.iter().map(|reached| (reached.function, reached.row)).collect();
    let stood: Vec<(usize, usize)> = both
        .before_steps(budget)
        .iter()
        .map(|run| (run.stands().function, run.stands().row))
        .collect();
    assert_eq!(stood, reached);
    let mut run = RowRun::new(&both.acts, both.variables);
    assert_eq!(run.run(budget), outcome);
    let open: Vec<usize> = run.open.iter().map(|open| open.function).collect();
    let ended = (run.steps, &run.trace, run.variables, open);
    assert_eq!(ended, (source.steps, &source.trace, source.variables, source.open));
    if outcome == Outcome::BudgetSpent {
        let at: Vec<usize> = run.open.iter().map(|open| open.row).collect();
        assert_eq!(at, source.at);
    }
    outcome
}

#[test]
fn unstruck_as_the_tree() {
    let mut met = Counted::default();
    let programs = by_hand().into_iter().chain(random(6000)).chain(short::programs());
    for (number, program) in programs.enumerate() {
        let budget = [200, 37, 4, 90][number % 4];
        met.add(unstruck_agrees(&program, budget).words());
    }
    met.least(&[("finished", 4000), ("budget spent", 2000)]);
    met.least(&[("too many open functions", 1000), ("overflow", 800)]);
}

/// Of each program every step, up to the last number.
fn struck_where_it_stands(program: &Program, most: u16) {
    let both = Both::of(program);
    for mut run in both.before_steps(most) {
        run.strike(run.stands().row);
        both.agrees(run, most, None);
    }
}

#[test]
fn the_row_where_it_stands_changes_nothing() {
    for program in by_hand().into_iter().chain(random(3000)) {
        struck_where_it_stands(&program, 120);
    }
}

/// Out of the last of these standings, the jump across the do that comes next and the one
/// back across the do just done, where there are such; each with its slip.
fn jumps_across_dos(both: &Both, standings: &[RowRun]) -> Vec<(usize, Slip)> {
    let is_do = |row: &usize| matches!(both.acts.at(*row), Act::Do(_));
    let do_of = |run: &RowRun| Some(run.stands().row).filter(is_do);
    let k = standings.len() as u16 - 1;
    let (now, before) = standings.split_last().expect("a run stands somewhere");
    let left_out = do_of(now).map(|row| (row + 1, Slip { step: k, how: How::LeftOut }));
    let last = before.last().and_then(do_of);
    let twice = last.map(|row| (row, Slip { step: k - 1, how: How::Twice }));
    left_out.into_iter().chain(twice).collect()
}

/// All such jumps out of so many first steps, with budgets around the step struck.
fn struck_across_dos(met: &mut Counted, program: &Program, most: u16) {
    let both = Both::of(program);
    let standings = both.before_steps(most);
    for (now, k) in standings.iter().zip(0..) {
        for (to, slip) in jumps_across_dos(&both, &standings[..=usize::from(k)]) {
            assert!(both.acts.narrow(now.stands().row, to));
            for budget in [k + 1, k + 2, k + 3, most + 4] {
                let mut struck = now.clone();
                struck.strike(to);
                let outcome = both.agrees(struck, budget, Some(slip));
                met.add(format!("{:?} {}", slip.how, outcome.words()));
            }
        }
    }
}

#[test]
fn across_a_do_it_slips() {
    let mut met = Counted::default();
    for program in by_hand().into_iter().chain(random(2000)) {
        struck_across_dos(&mut met, &program, 100);
    }
    for how in ["LeftOut", "Twice"] {
        for (words, least) in [("finished", 2000), ("overflow", 200), ("budget spent", 2000)] {
            met.least(&[(&format!("{how} {words}"), least)]);
        }
    }
    met.least(&[("LeftOut too many open functions", 50)]);
}

/// Strikes the run before step k to a row; answers outcome, steps and trace.
fn struck(program: &Program, k: u16, row: usize) -> (Outcome, u16, Vec<u16>) {
    let both = Both::of(program);
    let mut run = RowRun::new(&both.acts, both.variables);
    assert_eq!(run.run(k), Outcome::BudgetSpent);
    run.strike(row);
    let outcome = run.run(60);
    (outcome, run.steps, run.trace)
}

/// 1 if v0 = 7 (it is not), 2 do, 3 else, 4 do, 5 end, 6 do, 7 end.
#[test]
fn into_the_parts_of_an_if() {
    let rows = [equal(row::IF, 0, 7), set(1, 1), ELSE, set(1, 2), END, set(2, 3)];
    let program = of(functions(&[&rows]), &[]);
    // unstruck: rows 1, 4, 5, 6, 7
    assert_eq!(struck(&program, 0, 1), (Outcome::Finished, 5, vec![4, 6]));
    // the then part, whose else row goes past the end: 2, 3, 6, 7
    assert_eq!(struck(&program, 0, 2), (Outcome::Finished, 4, vec![2, 6]));
    // the else row itself: 3, 6, 7
    assert_eq!(struck(&program, 0, 3), (Outcome::Finished, 3, vec![6]));
    // back into the then part from behind: 1, 4, 5, then 2, 3, 6, 7
    assert_eq!(struck(&program, 3, 2), (Outcome::Finished, 7, vec![4, 2, 6]));
}

/// 1 while v0 differs from 0 (it does not), 2 do v1 + 1, 3 if v1 = 2, 4 break, 5 end,
/// 6 end, 7 do, 8 end.
#[test]
fn into_a_loop() {
    let exit = [equal(row::IF, 1, 2), Row::plain(row::BREAK), END];
    let rows = [&[differs(row::LOOP, 0, 0), add(1, 15)], &exit[..], &[END, set(3, 3)]].concat();
    let program = of(functions(&[&rows]), &[(15, 1)]);
    assert_eq!(struck(&program, 0, 1), (Outcome::Finished, 3, vec![7]));
    // 2, 3, then the loop's end 6, its test 1, which is false, 7, 8
    assert_eq!(struck(&program, 0, 2), (Outcome::Finished, 6, vec![2, 7]));
    // a break that was never come to: 4, 7, 8
    assert_eq!(struck(&program, 0, 4), (Outcome::Finished, 3, vec![7]));
    // the end of the if, then that of the loop: 5, 6, 1, 7, 8
    assert_eq!(struck(&program, 0, 5), (Outcome::Finished, 5, vec![7]));
    // the end of the function
    assert_eq!(struck(&program, 0, 8), (Outcome::Finished, 1, vec![]));
}

/// 0 function, 1 call 1, 2 do, 3 end; 4 function, 5 do, 6 end. Unstruck 1, 5, 6, 2, 3.
#[test]
fn in_a_function_that_is_called() {
    let program = of(functions(&[&[call(1), set(0, 1)], &[set(1, 1)]]), &[]);
    assert_eq!(struck(&program, 0, 1), (Outcome::Finished, 5, vec![5, 2]));
    // its end at once: 1, 6, 2, 3
    assert_eq!(struck(&program, 1, 6), (Outcome::Finished, 4, vec![2]));
    // back from its end to its do: 1, 5, 5, 6, 2, 3
    assert_eq!(struck(&program, 2, 5), (Outcome::Finished, 6, vec![5, 5, 2]));
    // the caller goes back to its call: 1, 5, 6, then all again
    assert_eq!(struck(&program, 3, 1), (Outcome::Finished, 8, vec![5, 5, 2]));
}

/// A call that is struck again and again opens no more than 16.
#[test]
fn too_many_open() {
    let program = of(limits::recursion(), &[(0, 15), (1, 1)]);
    let both = Both::of(&program);
    let mut run = RowRun::new(&both.acts, both.variables);
    while run.open.len() < 16 {
        run.run(run.steps + 1);
    }
    let calls = |row: &usize| matches!(both.acts.at(*row), Act::Call(_));
    let row = both.acts.function(0).find(calls).expect("it calls itself");
    let steps = run.steps;
    run.strike(row);
    assert_eq!((run.run(60_000), run.steps), (Outcome::TooManyOpen, steps + 1));
}

/// No run stands in another function's rows, nor at a row 01.
#[test]
#[should_panic(expected = "no row of it")]
fn not_into_another_function() {
    let program = of(functions(&[&[call(1)], &[]]), &[]);
    struck(&program, 0, 4);
}
