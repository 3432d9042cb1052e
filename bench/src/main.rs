//! `bench/run`: compares the answers, then times both implementations and prints how many times
//! as long the proved calls take. Without the feature `ours` it times the baseline alone. With the
//! word `brief` it leaves out the sweep that takes a second.

mod sweep_times;

use finuraho_bench::calls::{Baseline, Calls, Start, COUNTER_WORDS};
use finuraho_bench::compare::{Agreed, Pair};
use finuraho_bench::measure::{medians, Timed};
use finuraho_bench::programs::{self, Program, MOST_IN, MOST_OUT};
use independent::random::Random;
use std::hint::black_box;

const BUDGET: u16 = 65_535;
/// Random tables of each sort and random programs that are compared before anything is timed.
const COMPARED: usize = 400;

fn implementations() -> Vec<&'static dyn Calls> {
    #[cfg(feature = "ours")]
    return vec![&finuraho_bench::ours::Ours, &Baseline];
    #[cfg(not(feature = "ours"))]
    return vec![&Baseline];
}

fn main() {
    let implementations = implementations();
    let brief = std::env::args().skip(1).any(|word| word == "brief");
    if let [ours, baseline] = implementations[..] {
        let mut pair = Pair::new(ours, baseline);
        if let Err(disagreement) = compare(&mut pair, brief) {
            println!("DISAGREEMENT: {disagreement}");
            std::process::exit(1);
        }
        println!("compared {} calls on {} tables: no difference", pair.calls, pair.tables);
    } else {
        println!("the proved library is not linked: the baseline alone, nothing compared");
    }
    let names = implementations.iter().map(|calls| calls.name());
    let ratio = (implementations.len() == 2).then_some("ratio");
    let heads: Vec<String> = names.chain(ratio).map(str::to_string).collect();
    print_row("nanoseconds, medians", &heads);
    let tables = [(", mostly dos", programs::mostly_dos()), (", nested", programs::nested())];
    for (name, rows) in tables {
        time_hardening(&implementations, name, &rows);
        time_reading(&implementations, name, &rows);
    }
    time_hardening(&implementations, " of switches", &programs::switches());
    time_switches(&implementations);
    for program in programs::all() {
        time_program(&implementations, &program);
    }
    sweep_times::time(&implementations, brief);
}

/// Everything that will be timed, and random tables, runs and sweeps besides.
fn compare(pair: &mut Pair, brief: bool) -> Agreed {
    let mut rng = Random::new(20);
    let switches = programs::switches();
    for rows in [programs::mostly_dos(), programs::nested(), chain(&switches), switches] {
        pair.rows(&rows)?;
        pair.lines(&hardened(&rows))?;
    }
    for program in programs::all() {
        pair.measured(&program.rows)?;
        for budget in [0, BUDGET] {
            let start = Start::unstruck(program.variables, budget);
            pair.source_run(&program.rows, &start, budget.into())?;
            let lines = hardened(&program.rows);
            pair.hardened_run(&lines, &start, budget.into(), COUNTER_WORDS)?;
        }
    }
    pair.random_tables(&mut rng, COMPARED)?;
    pair.random_runs(&mut rng, COMPARED)?;
    pair.overflows()?;
    pair.random_sweeps(&mut rng, COMPARED)?;
    sweep_times::compare(pair, brief)
}

fn hardened(rows: &[u8]) -> Vec<u8> {
    let mut out = vec![0; MOST_OUT];
    let wrote = Baseline.harden(rows, &mut out);
    assert_eq!(wrote.number, 0, "the timed tables are accepted");
    out.truncate(wrote.length);
    out
}

/// The table without its switches: what its hardened table is read back to.
fn chain(rows: &[u8]) -> Vec<u8> {
    let mut out = vec![0; MOST_IN];
    let wrote = Baseline.read_back(&hardened(rows), &mut out);
    assert_eq!((wrote.number, wrote.length), (0, MOST_IN), "the chain has 1,024 rows");
    out
}

/// A table of switches beside its chain, each of them in turn, and how many times as long it takes.
fn time_switches(implementations: &[&dyn Calls]) {
    let switches = programs::switches();
    let tables = [chain(&switches), switches];
    for calls in implementations {
        let timed = tables.iter().map(|rows| -> Timed {
            let mut out = vec![0; MOST_OUT];
            Box::new(move || {
                black_box(calls.harden(black_box(rows), &mut out));
            })
        });
        let [chain, switches] = medians(timed.collect())[..] else { unreachable!("two tables") };
        println!(
            "harden 1,024 rows of switches, {}: {switches:.2}, their chain {chain:.2}, ratio {:.2}",
            calls.name(),
            switches / chain
        );
    }
}

/// Hardening a table and measuring it, in turn, and what fraction of the first the second takes.
fn time_hardening(implementations: &[&dyn Calls], name: &str, rows: &[u8]) {
    let harden = implementations.iter().map(|calls| -> Timed {
        let mut out = vec![0; MOST_OUT];
        Box::new(move || {
            black_box(calls.harden(black_box(rows), &mut out));
        })
    });
    let measure = implementations.iter().map(|calls| -> Timed {
        Box::new(move || {
            black_box(calls.measure(black_box(rows)));
        })
    });
    let times = medians(harden.chain(measure).collect());
    let (harden, measure) = times.split_at(implementations.len());
    print_times(&format!("harden 1,024 rows{name}"), harden);
    print_times(&format!("measure 1,024 rows{name}"), measure);
    let fractions = measure.iter().zip(harden).map(|(measure, harden)| measure / harden);
    let fractions: Vec<String> = fractions.map(|fraction| format!("{fraction:.3}")).collect();
    print_row("    as a fraction of hardening them", &fractions);
}

fn time_reading(implementations: &[&dyn Calls], name: &str, rows: &[u8]) {
    let lines = hardened(rows);
    let read_back = each(implementations, |calls| {
        let (mut out, lines) = (vec![0; MOST_IN], &lines);
        Box::new(move || {
            black_box(calls.read_back(black_box(lines), &mut out));
        })
    });
    print_times(&format!("read back 1,024 rows{name}"), &read_back);
}

/// The medians of one call for each implementation. Its buffers are made here, once, outside of
/// what is timed; no call clears them before the next.
fn each<'a>(
    implementations: &[&'a dyn Calls],
    timed: impl Fn(&'a dyn Calls) -> Timed<'a>,
) -> Vec<f64> {
    medians(implementations.iter().map(|calls| timed(*calls)).collect())
}

fn time_program(implementations: &[&dyn Calls], program: &Program) {
    let Program { name, rows, variables } = program;
    let lines = hardened(rows);
    let starts = [0, BUDGET].map(|budget| Start::unstruck(*variables, budget));
    let source = starts.map(|start| {
        each(implementations, |calls| {
            let mut trace = vec![0; BUDGET.into()];
            Box::new(move || {
                black_box(calls.run_source(black_box(rows), black_box(&start), &mut trace));
            })
        })
    });
    print_run(&format!("source run, {name}"), source);
    let hardened = starts.map(|start| {
        each(implementations, |calls| {
            let (mut trace, mut words) = (vec![0; BUDGET.into()], vec![0; COUNTER_WORDS]);
            let lines = &lines;
            Box::new(move || {
                let lines = black_box(lines);
                black_box(calls.run_hardened(lines, black_box(&start), &mut trace, &mut words));
            })
        })
    });
    print_run(&format!("hardened run, {name}"), hardened);
}

/// The whole call, the call without a step, and by their difference a step.
fn print_run(what: &str, [none, whole]: [Vec<f64>; 2]) {
    let steps = whole.iter().zip(&none).map(|(whole, none)| (whole - none) / f64::from(BUDGET));
    let steps: Vec<f64> = steps.collect();
    print_times(&format!("{what}: 65,535 steps"), &whole);
    print_times(&format!("{what}: 0 steps"), &none);
    print_times(&format!("{what}: a step"), &steps);
}

fn print_times(what: &str, times: &[f64]) {
    let mut columns: Vec<String> = times.iter().map(|time| format!("{time:.2}")).collect();
    if let [ours, baseline] = times {
        columns.push(format!("{:.2}", ours / baseline));
    }
    print_row(what, &columns);
}

fn print_row(what: &str, columns: &[String]) {
    let columns: String = columns.iter().map(|column| format!("{column:>14}")).collect();
    println!("{what:<52}{columns}");
}
