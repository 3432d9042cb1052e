//! Times the sweeps: beside striking every place by a run of its own, a long one, how the time
//! grows, and the call that stops at the first run with another trace.

use crate::{hardened, print_row, print_times};
use finuraho_bench::calls::{Baseline, Calls, Start, Swept, COUNTER_WORDS};
use finuraho_bench::compare::{Agreed, Pair};
use finuraho_bench::harden::LINE_BYTES;
use finuraho_bench::measure::{medians, medians_of, medians_of_single, Timed};
use finuraho_bench::programs::Program;
use finuraho_bench::sweep_programs::{counting, rounds, tariff, weak_first};
use std::hint::black_box;

/// Samples of what takes a second, and of what takes milliseconds.
const FEW: usize = 3;
const SOME: usize = 15;

const LONG_ROUNDS: u16 = 54;
/// What makes the time grow: the rounds, or the dos that are never reached.
const ROUNDS: [u16; 3] = [125, 250, 500];
const UNREACHED: [usize; 3] = [24, 54, 114];
/// The rounds where the dos grow.
const FEW_ROUNDS: u16 = 37;

/// A table to sweep, and what its unstruck run takes.
struct Case {
    lines: Vec<u8>,
    start: Start,
    steps: u16,
    /// The jumps that cross a do: past each one done, and back to it.
    narrow: u32,
}

fn buffers() -> (Vec<u16>, Vec<u16>) {
    (vec![0; u16::MAX.into()], vec![0; COUNTER_WORDS])
}

impl Case {
    /// The budget is twice the steps, as far as a budget goes.
    fn new(program: &Program) -> Case {
        let lines = hardened(&program.rows);
        let (mut trace, mut words) = buffers();
        let start = Start::unstruck(program.variables, u16::MAX);
        let ran = Baseline.run_hardened(&lines, &start, &mut trace, &mut words);
        assert_eq!(ran.outcome, 1, "every run whose sweep is timed finishes");
        let start = Start { budget: ran.steps.saturating_mul(2), ..start };
        Case { lines, start, steps: ran.steps, narrow: 2 * u32::from(ran.traced) }
    }

    /// The places of its only function.
    fn places(&self) -> usize {
        self.lines.len() / LINE_BYTES + 1
    }

    fn of_rounds() -> [Case; 3] {
        ROUNDS.map(|rounds| Case::new(&counting(rounds, 0)))
    }

    fn of_places() -> [Case; 3] {
        UNREACHED.map(|dos| Case::new(&counting(FEW_ROUNDS, dos)))
    }

    fn weak() -> Case {
        Case::new(&weak_first(ROUNDS[2]))
    }

    fn sweep(&self, calls: &dyn Calls, (trace, words): &mut (Vec<u16>, Vec<u16>)) -> Swept {
        calls.sweep(black_box(&self.lines), black_box(&self.start), trace, words)
    }

    fn timed<'a>(&'a self, calls: &'a dyn Calls) -> Timed<'a> {
        let mut lent = buffers();
        Box::new(move || {
            black_box(self.sweep(calls, &mut lent));
        })
    }

    fn other_timed<'a>(&'a self, calls: &'a dyn Calls) -> Timed<'a> {
        let (mut trace, mut words) = buffers();
        Box::new(move || {
            let (lines, start) = black_box((&self.lines, &self.start));
            black_box(calls.sweep_other(lines, start, &mut trace, &mut words));
        })
    }
}

/// Everything that will be timed here.
pub fn compare(pair: &mut Pair, brief: bool) -> Agreed {
    let long = (!brief).then(|| Case::new(&rounds(LONG_ROUNDS)));
    let cases = [Case::new(&tariff()), Case::weak()].into_iter().chain(long);
    for case in cases.chain(Case::of_rounds()).chain(Case::of_places()) {
        pair.sweep(&case.lines, &case.start, case.start.budget.into(), COUNTER_WORDS)?;
    }
    Ok(())
}

/// All sweeps; where it is to be brief, not the long one.
pub fn time(implementations: &[&dyn Calls], brief: bool) {
    time_tariff(implementations);
    if !brief {
        time_long(implementations);
    }
    time_steps(implementations);
    time_places(implementations);
    time_other(implementations);
}

/// A number with a comma before each three digits, as the names of the other measures have it.
fn grouped(number: impl Into<u64>) -> String {
    let number = number.into();
    match number / 1000 {
        0 => number.to_string(),
        front => format!("{},{:03}", grouped(front), number % 1000),
    }
}

fn each<'a>(implementations: &[&'a dyn Calls], case: &'a Case) -> Vec<Timed<'a>> {
    implementations.iter().map(|calls| case.timed(*calls)).collect()
}

/// Each implementation's one time over its other, with so many digits.
fn print_over(what: &str, one: &[f64], other: &[f64], digits: usize) {
    let parts = one.iter().zip(other).map(|(one, other)| format!("{:.digits$}", one / other));
    print_row(what, &parts.collect::<Vec<_>>());
}

/// What a sweep counts, by a run for every place: at each step one place after the other, until
/// the answer is that it is beyond m.
fn strike_all(calls: &dyn Calls, case: &Case, (trace, words): &mut (Vec<u16>, Vec<u16>)) -> Swept {
    let ran = calls.run_hardened(&case.lines, &case.start, trace, words);
    let known = trace[..ran.traced.into()].to_vec();
    let mut swept = Swept { number: 0, alarms: 0, same: 0, other: 0, unfinished: 0 };
    for step in 0..case.steps {
        for place in 0.. {
            let start = Start { step, place, ..case.start };
            let ran = calls.run_hardened(&case.lines, &start, trace, words);
            let count = match ran.outcome {
                1 if trace[..ran.traced.into()] == known => &mut swept.same,
                1 => &mut swept.other,
                2 => &mut swept.alarms,
                4 => break,
                _ => &mut swept.unfinished,
            };
            *count += 1;
        }
    }
    swept
}

/// The sweep of 60 rows, and the same counts by a run for each place.
fn time_tariff(implementations: &[&dyn Calls]) {
    let case = Case::new(&tariff());
    for calls in implementations {
        let mut lent = buffers();
        let swept = case.sweep(*calls, &mut lent);
        assert_eq!(swept, strike_all(*calls, &case, &mut lent), "the sweep is what it stands for");
    }
    let sweeps = medians(each(implementations, &case));
    let strikes = implementations.iter().map(|calls| -> Timed {
        let (mut lent, case) = (buffers(), &case);
        Box::new(move || {
            black_box(strike_all(*calls, black_box(case), &mut lent));
        })
    });
    let strikes = medians_of(SOME, strikes.collect());
    let Case { steps, narrow, .. } = case;
    print_times(&format!("sweep, 60 rows, {steps} steps, {narrow} narrow jumps"), &sweeps);
    print_times("    by a run for every place", &strikes);
    print_over("    which takes as many times as long", &strikes, &sweeps, 0);
}

fn time_long(implementations: &[&dyn Calls]) {
    let case = Case::new(&rounds(LONG_ROUNDS));
    let times = medians_of_single(FEW, each(implementations, &case));
    print_case(&case, &times);
}

fn print_case(case: &Case, times: &[f64]) {
    let (steps, places) = (grouped(case.steps), case.places());
    let narrow = grouped(case.narrow);
    print_times(&format!("sweep, {steps} steps, {places} places, {narrow} narrow jumps"), times);
}

/// Several sizes of one program, all in turn.
fn sizes<'a>(implementations: &[&'a dyn Calls], cases: &'a [Case]) -> Vec<Timed<'a>> {
    cases.iter().flat_map(|case| each(implementations, case)).collect()
}

/// Twice and four times the steps, with as many times the narrow jumps. Each of these is a run of
/// half the steps on average, so the time goes by their product.
fn time_steps(implementations: &[&dyn Calls]) {
    let cases = Case::of_rounds();
    let times = medians_of(SOME, sizes(implementations, &cases));
    for (case, times) in cases.iter().zip(times.chunks(implementations.len())) {
        print_case(case, times);
        let product = f64::from(case.narrow) * f64::from(case.steps);
        let (narrow, steps) = (grouped(case.narrow), grouped(case.steps));
        let units: Vec<f64> = times.iter().map(|time| time / product).collect();
        print_times(&format!("    over {narrow} x {steps}"), &units);
    }
}

/// Twice and four times the places for the same run: what the added ones cost at a step.
fn time_places(implementations: &[&dyn Calls]) {
    let cases = Case::of_places();
    let times = medians(sizes(implementations, &cases));
    let times: Vec<&[f64]> = times.chunks(implementations.len()).collect();
    print_case(&cases[0], times[0]);
    for (cases, times) in cases.windows(2).zip(times.windows(2)) {
        print_case(&cases[1], times[1]);
        let (steps, more) = (cases[1].steps, cases[1].places() - cases[0].places());
        let tests = f64::from(steps) * more as f64;
        let units = times[1].iter().zip(times[0]).map(|(more, fewer)| (more - fewer) / tests);
        let units: Vec<f64> = units.collect();
        print_times(&format!("    the {more} places more, over {more} x {steps}"), &units);
    }
}

/// The call that stops at the first run with another trace: where there is none, and where the
/// first narrow jump gives one.
fn time_other(implementations: &[&dyn Calls]) {
    let [_, _, none] = Case::of_rounds();
    for (name, case) in [("no weak do", none), ("the first do weak", Case::weak())] {
        let others = implementations.iter().map(|calls| case.other_timed(*calls));
        let timed = each(implementations, &case).into_iter().chain(others).collect();
        let times = medians_of(SOME, timed);
        let (sweeps, others) = times.split_at(implementations.len());
        print_times(&format!("sweep other, {} steps, {name}", grouped(case.steps)), others);
        print_over("    as a fraction of the sweep", others, sweeps, 3);
    }
}
