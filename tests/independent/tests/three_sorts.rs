//! Every jump is of one of three sorts, and ends as the documents say of that sort: its place
//! is beyond m (01), a guard is between (01, and 02, No. 5), or none is (02, No. 6).

mod between;
mod counted;
mod edge;
mod letters;
mod pair;
mod short;
mod small;
mod struck;

use between::wide;
use counted::Counted;
use independent::hardened_run::{HardenedRun, Jump};
use independent::line::{self, Line};
use independent::machine::Outcome;
use independent::program::{self, Program};
use independent::small_jump::{Before, Sort};
use independent::{overflow_programs, sweep_programs};
use pair::Pair;
use small::{agrees, Small};
use struck::{beyond, wide_end};

/// The places are equal, or a do's and its tick's, whichever the run stands at.
fn across_one_do(function: &[Line], from: usize, to: usize) -> bool {
    let is = |place: usize, kind| function.get(place).is_some_and(|line| line.kind == kind);
    let do_and_tick = |low: usize| is(low, line::DO) && is(low + 1, line::TICK);
    from == to || (to == from + 1 && do_and_tick(from)) || (from == to + 1 && do_and_tick(to))
}

/// How a jump ends: with the budgets of which the last step is the one struck or the next,
/// and with a larger one. Answers what it did with that.
fn ends(pair: &Pair, before: &HardenedRun, sort: Sort, jump: Jump, most: u16) -> String {
    let (k, place) = (jump.k, usize::from(jump.place));
    let budgets = [k + 1, k + 2, most];
    let name = match sort {
        Sort::Beyond => {
            budgets.iter().for_each(|budget| beyond(pair, before, *budget, Some(jump)));
            "beyond"
        }
        Sort::Wide => {
            budgets.iter().for_each(|budget| wide_end(pair, before, *budget, k, place));
            "wide"
        }
        Sort::Equal | Sort::Slip(_) => {
            agrees(pair, &Small { jump, slip: sort.slip() }, budgets);
            "small"
        }
    };
    let (outcome, run) = pair.struck(most, Some(jump));
    match outcome {
        Outcome::Alarm => format!("{name}, alarm in step k + {}", run.steps - 1 - k),
        _ => format!("{name}, {}", outcome.words()),
    }
}

/// Every place up to one beyond m, at a step of the unstruck run: of the three just one is
/// the case, and it is the one that the jump is told to be.
fn jumps_at(met: &mut Counted, pair: &Pair, before: &HardenedRun, most: u16) {
    let Before { span, place: from, .. } = Before::of(before);
    let function = &pair.lines[span.first..span.first + span.m];
    for place in 0..=span.m + 1 {
        let is_beyond = place > span.m;
        let is_wide = !is_beyond && wide(function, from, place);
        let is_small = across_one_do(function, from, place);
        let sort = Before::of(before).sort(&pair.lines, place);
        let told = match sort {
            Sort::Beyond => [true, false, false],
            Sort::Wide => [false, true, false],
            Sort::Equal | Sort::Slip(_) => [false, false, true],
        };
        assert_eq!([is_beyond, is_wide, is_small], told, "from {from} to {place}");
        let jump = Jump { k: before.steps, place: place as u16 };
        met.add(ends(pair, before, sort, jump, most));
    }
}

/// Every jump of the unstruck run's steps, of which it takes at most so many.
fn all_jumps(met: &mut Counted, program: &Program, steps: u16, most: u16) {
    let pair = Pair::new(&program.rows, program.variables);
    let (_, whole) = pair.struck(steps, None);
    for k in 0..whole.steps {
        jumps_at(met, &pair, &pair.struck(k, None).1, most);
    }
}

#[test]
fn programs_by_hand() {
    let mut met = Counted::default();
    let finished = sweep_programs::by_hand().into_iter().chain(overflow_programs::finishing());
    let never = sweep_programs::never_finished().into_iter();
    for program in finished.chain(never).chain(overflow_programs::overflowing()) {
        all_jumps(&mut met, &program, 100, 150);
    }
    met.least(&[("beyond, the place is beyond m", 1500), ("wide, overflow", 300)]);
    met.least(&[("wide, alarm in step k + 0", 15_000), ("wide, alarm in step k + 1", 3000)]);
    met.least(&[("small, finished", 1300), ("small, overflow", 300)]);
    met.least(&[("small, too many open functions", 200), ("small, budget spent", 300)]);
}

#[test]
fn random_programs() {
    let mut met = Counted::default();
    for seed in 0..1500 {
        all_jumps(&mut met, &program::by_seed(seed, 24), 60, 90);
    }
    met.least(&[("beyond, the place is beyond m", 20_000), ("wide, overflow", 8000)]);
    met.least(&[("wide, alarm in step k + 0", 250_000), ("wide, alarm in step k + 1", 100_000)]);
    met.least(&[("small, finished", 20_000), ("small, overflow", 3000)]);
    met.least(&[("small, too many open functions", 2500), ("small, budget spent", 7000)]);
}

#[test]
fn every_short_table() {
    let mut met = Counted::default();
    for program in short::programs() {
        all_jumps(&mut met, &program, 14, 20);
    }
    met.least(&[("beyond, the place is beyond m", 35_000), ("wide, overflow", 1200)]);
    met.least(&[("wide, alarm in step k + 0", 200_000), ("wide, alarm in step k + 1", 40_000)]);
    met.least(&[("small, finished", 7500), ("small, overflow", 1500)]);
    met.least(&[("small, too many open functions", 12_000), ("small, budget spent", 20_000)]);
}
