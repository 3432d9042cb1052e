//! That random programs are worth running: most runs still finish, many of them long; many
//! overflow, by sums and by differences, at the very edge, with several functions open,
//! struck and not, in the last budgeted step too. And that the files and cases meet it.

mod counted;

use counted::Counted;
use independent::hardened_run::HardenedRun;
use independent::line::{self, Line};
use independent::machine::{Outcome, Variables};
use independent::program::{self, Program};
use independent::protocol::Test;
use independent::random::Random;
use independent::strikes::unstruck;
use independent::{damage, replay_run, replay_sweep, run_cases, run_text, sweep_programs};

fn programs(count: u64, largest: usize) -> Vec<Program> {
    (0..count).map(|seed| program::by_seed(seed, largest)).collect()
}

/// Of 6,000 programs of up to 60 rows: two thirds finish, one sixth overflows.
#[test]
fn how_random_programs_end() {
    let mut ends = Counted::default();
    for program in programs(6000, 60) {
        let lines = line::from_bytes(&damage::hardened(&program.rows));
        let mut run = HardenedRun::new(&lines, program.variables);
        let outcome = run.run(3000, None);
        ends.add(outcome.words());
        if outcome == Outcome::Finished && run.steps >= 40 {
            ends.add("finished in 40 steps or more");
        }
        if outcome == Outcome::Overflow {
            let what = if run.line().unwrap().op == 2 { "sum" } else { "difference" };
            ends.add(what);
            ends.add(if run.frames.len() > 1 { "deep" } else { "in function 0" });
        }
    }
    ends.least(&[("finished", 3800), ("finished in 40 steps or more", 700), ("overflow", 1000)]);
    ends.least(&[("sum", 300), ("difference", 600), ("deep", 250), ("in function 0", 600)]);
    ends.least(&[("too many open functions", 300), ("budget spent", 200)]);
}

/// The name of a sum or difference by its result, if it is at an edge.
fn named(line: &Line, v: &Variables) -> Option<String> {
    let [vp, vq] = [line.p, line.q].map(|at| i32::from(v[usize::from(at)]));
    let result = match (line.kind, line.op) {
        (0x21, 2) => vp + vq,
        (0x21, 3) => vp - vq,
        _ => return None,
    };
    let what = if line.op == 2 { "sum" } else { "difference" };
    let whose = if line.p == line.q { "itself" } else { "another" };
    match result {
        0 | 65_535 | 65_536 | -1 => Some(format!("{what} {result} with {whose}")),
        _ => None,
    }
}

/// Both sides of both edges are met in random runs, and by a variable and itself: vp + vp is
/// even, and vp - vp is 0.
#[test]
fn edges_that_random_programs_meet() {
    let mut met = Counted::default();
    for program in programs(6000, 28) {
        let lines = line::from_bytes(&damage::hardened(&program.rows));
        let mut run = HardenedRun::new(&lines, program.variables);
        for step in 1..300 {
            let seen = run.line().and_then(|line| named(&line, &run.variables));
            seen.into_iter().for_each(|name| met.add(name));
            if run.run(step, None) != Outcome::BudgetSpent {
                break;
            }
        }
    }
    met.least(&[("sum 65535 with another", 200), ("sum 65536 with another", 100)]);
    met.least(&[("difference 0 with another", 400), ("difference -1 with another", 200)]);
    met.least(&[("sum 65536 with itself", 20), ("difference 0 with itself", 200)]);
}

/// The runs asked for, by what they are and how they end: of a jump where it strikes.
fn asked(tests: &[Test]) -> Counted {
    let mut counted = Counted::default();
    for Test { ask, answer } in tests {
        let (ask, answer): (Vec<&str>, Vec<&str>) =
            (ask.split(' ').collect(), answer.split(' ').collect());
        let what = match (ask[0], ask[2]) {
            ("source", _) => "source",
            (_, "65535") => "unstruck",
            _ => "jump",
        };
        if answer[0] == "0" {
            counted.add(format!("{what} {}", answer[1]));
            if answer[2] == ask[1] {
                counted.add(format!("{what} {} last", answer[1]));
            }
        }
    }
    counted
}

#[test]
fn replayed_runs() {
    let fixed = asked(&replay_run::fixed());
    fixed.least(&[("source 5", 20), ("unstruck 5", 20), ("jump 5", 60)]);
    fixed.least(&[("source 5 last", 10), ("unstruck 5 last", 10), ("jump 5 last", 50)]);
    let tests = replay_run::tests(1, 6000);
    let random = asked(&tests[tests.len() - 6000..]);
    random.least(&[("source 5", 50), ("unstruck 5", 40), ("jump 5", 250)]);
    random.least(&[("source 5 last", 10), ("unstruck 5 last", 5), ("jump 5 last", 15)]);
    random.least(&[("source 1", 250), ("unstruck 1", 150), ("jump 1", 400), ("jump 2", 2000)]);
}

/// In most sweeps of random programs a place can be landed at that overflows, and in some
/// none; a few are of runs that overflow.
#[test]
fn sweeps() {
    let mut rng = Random::new(1);
    let mut met = Counted::default();
    for _ in 0..2000 {
        let (program, steps) = sweep_programs::random(&mut rng);
        let run = unstruck(&damage::hardened(&program.rows), &program.variables, 300);
        let overflows = run.standing.iter().any(|standing| !standing.overflowing.is_empty());
        met.add(match (steps, overflows) {
            (Some(_), true) => "overflowing when landed at",
            (Some(_), false) => "never overflowing",
            (None, _) if run.outcome == Outcome::Overflow => "overflowing by itself",
            (None, _) => "not finished",
        });
    }
    met.least(&[("overflowing when landed at", 900), ("never overflowing", 400)]);
    met.least(&[("overflowing by itself", 8), ("not finished", 4)]);
    let refused = replay_sweep::fixed().iter().filter(|t| t.answer.starts_with("13 ")).count();
    assert!(refused > 100, "{refused}");
}

/// How the runs of the command lines end.
#[test]
fn cases_of_runs() {
    let fixed = run_cases::cases(1, 0).len();
    let mut counted = Counted::default();
    for (number, case) in run_cases::cases(1, 1000).iter().enumerate() {
        let out = run_text::run(&case.words, &case.input[..]).unwrap().out;
        let Some(outcome) = out.lines().find(|line| line.starts_with("outcome ")) else {
            continue;
        };
        let sort = if number < fixed { "fixed" } else { "random" };
        let run = String::from_utf8_lossy(&case.words[0]);
        counted.add(format!("{sort} {run} {outcome}"));
    }
    let five = |what: &str| format!("{what} outcome 5 overflow");
    let least = [("fixed source", 30), ("fixed hardened", 60), ("random source", 25)];
    for (what, least) in least.into_iter().chain([("random hardened", 40)]) {
        counted.least(&[(&five(what), least)]);
    }
}
