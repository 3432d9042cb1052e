//! The jumps among the command lines for `run`: that each is told as what it is by 01's
//! definitions and by the source's run, and that there are many of each sort.

mod between;
mod counted;

use std::cmp::Ordering;

use between::wide;
use counted::Counted;
use independent::hardened_run::{HardenedRun, Jump};
use independent::line::{self, Line, LINE_BYTES};
use independent::machine::Outcome;
use independent::run_cases::{self, Case};
use independent::run_words::{self, Asked};
use independent::table::{self, Table};
use independent::{readback, records, run_text, slip};

/// A hardened run with a jump, of a table that is accepted.
struct Asks {
    asked: Asked,
    jump: Jump,
    table: Table,
    lines: Vec<Line>,
}

impl Asks {
    fn of(case: &Case) -> Option<Asks> {
        let asked = run_words::read(&case.words).ok()?;
        let (k, place) = asked.jump?;
        let bytes = records::read(&case.input[..], LINE_BYTES).unwrap().ok()?;
        let table = table::parse(&readback::source_of(&bytes).ok()?).unwrap();
        Some(Asks { asked, jump: Jump { k, place }, table, lines: line::from_bytes(&bytes) })
    }

    fn run(&self, budget: u16, jump: Option<Jump>) -> (Outcome, HardenedRun<'_>) {
        let mut run = HardenedRun::new(&self.lines, self.asked.variables);
        (run.run(budget, jump), run)
    }

    /// The unstruck run when the step named comes next, if it does.
    fn before(&self) -> Option<HardenedRun<'_>> {
        let (outcome, run) = self.run(self.jump.k, None);
        (outcome == Outcome::BudgetSpent).then_some(run)
    }

    /// Why the jump doesn't strike.
    fn not_struck(&self) -> Option<&'static str> {
        match self.jump.k {
            65_535 => Some("step 65535"),
            k if k >= self.asked.budget => Some("not in the budget"),
            _ if self.before().is_none() => Some("behind the last step"),
            _ => None,
        }
    }

    /// What the jump is where it strikes, from where the run stands before.
    fn sort(&self, before: &HardenedRun) -> &'static str {
        let (from, to) = (before.frames.last().unwrap().place, usize::from(self.jump.place));
        let span = before.span();
        if to > span.m {
            return "beyond m";
        }
        if wide(&self.lines[span.first..span.first + span.m], from, to) {
            return "wide";
        }
        match to.cmp(&from) {
            Ordering::Greater => "left out",
            Ordering::Less => "twice",
            Ordering::Equal => "nothing",
        }
    }

    /// The do that the source's run, with no jump, reaches when it has taken so many steps.
    fn row(&self, step: u16) -> usize {
        let (_, run) = slip::run(&self.table, self.asked.variables, step + 1, None);
        let reached = run.reached[usize::from(step)];
        assert_eq!(reached.word, "do");
        reached.row
    }

    /// What is to be told of a jump of this sort.
    fn line(&self, sort: &str, before: &HardenedRun) -> Option<String> {
        let step = before.matching();
        match sort {
            "left out" => Some(format!("jump leaves out row {}", self.row(step))),
            "twice" => Some(format!("jump does row {} twice", self.row(step - 1))),
            "nothing" => Some("jump changes nothing".to_string()),
            _ => None,
        }
    }

    /// Counts a jump that strikes: with which words, near the end of the budget, in a called
    /// function, and ended at once by an overflow.
    fn count(&self, met: &mut Counted, sort: &str, before: &HardenedRun) {
        let (Asked { show, trace, budget, .. }, Jump { k, .. }) = (&self.asked, self.jump);
        met.add(sort);
        met.add(format!("{sort}, show {show} and trace {trace}"));
        if before.frames.len() > 1 {
            met.add(format!("{sort}, in a called function"));
        }
        if budget - k <= 2 {
            met.add(format!("{sort}, budget k + {}", budget - k));
        }
        let (outcome, run) = self.run(*budget, Some(self.jump));
        met.add(format!("{sort}, {}", outcome.words()));
        if outcome == Outcome::Overflow && run.steps == k + 1 {
            met.add(format!("{sort}, overflow in the step struck"));
        }
    }

    /// Counts a jump that does not strike, and whether it would be small.
    fn count_not_struck(&self, met: &mut Counted, why: &str) {
        met.add(why);
        if let Some(before) = self.before() {
            met.add(format!("{why}, else {}", self.sort(&before)));
        }
    }
}

/// What is told of the jump, beside what `show` lists: it stands directly before the outcome.
fn told(out: &str) -> Vec<String> {
    let lines: Vec<&str> = out.lines().collect();
    let is_told = |line: &str| line.starts_with("jump ") && !line.starts_with("jump to place ");
    let at: Vec<usize> = (0..lines.len()).filter(|at| is_told(lines[*at])).collect();
    at.iter().for_each(|at| assert!(lines[at + 1].starts_with("outcome "), "{out}"));
    at.into_iter().map(|at| lines[at].to_string()).collect()
}

/// Each case is told what it is; counts the jumps.
fn met(cases: &[Case]) -> Counted {
    let mut met = Counted::default();
    for case in cases {
        let told = told(&run_text::run(&case.words, &case.input[..]).unwrap().out);
        let Some(asks) = Asks::of(case) else {
            assert_eq!(told, [""; 0]);
            continue;
        };
        if let Some(why) = asks.not_struck() {
            assert_eq!(told, [""; 0]);
            asks.count_not_struck(&mut met, why);
            continue;
        }
        let before = asks.before().unwrap();
        let sort = asks.sort(&before);
        assert_eq!(told, Vec::from_iter(asks.line(sort, &before)));
        asks.count(&mut met, sort, &before);
    }
    met
}

/// The sorts of jumps of which something is told.
const SMALL: [&str; 3] = ["left out", "twice", "nothing"];

/// Those that `tests/run-texts` takes.
#[test]
fn cases_of_the_script() {
    let met = met(&run_cases::cases(11, 400));
    met.least(&[("left out", 100), ("twice", 100), ("nothing", 80), ("wide", 300)]);
    met.least(&[("beyond m", 150), ("step 65535", 50)]);
    met.least(&[("not in the budget", 55), ("behind the last step", 40)]);
    for sort in SMALL {
        met.least(&[(&format!("{sort}, in a called function"), 20)]);
        met.least(&[(&format!("{sort}, budget k + 1"), 15)]);
        met.least(&[(&format!("{sort}, budget k + 2"), 12)]);
        met.least(&[(&format!("{sort}, budget spent"), 25), (&format!("{sort}, finished"), 40)]);
        met.least(&[(&format!("{sort}, too many open functions"), 2)]);
        met.least(&[(&format!("not in the budget, else {sort}"), 6)]);
        for words in ["false and trace false", "false and trace true", "true and trace false"] {
            met.least(&[(&format!("{sort}, show {words}"), 10)]);
        }
        met.least(&[(&format!("{sort}, show true and trace true"), 10)]);
    }
    met.least(&[("twice, overflow in the step struck", 30), ("wide, budget spent", 5)]);
}

/// Of random ones alone, and of more.
#[test]
fn random_cases() {
    let fixed = run_cases::cases(1, 0).len();
    let met = met(&run_cases::cases(1, 3000)[fixed..]);
    met.least(&[("left out", 250), ("twice", 220), ("nothing", 220), ("wide", 450)]);
    met.least(&[("beyond m", 50), ("not in the budget", 280), ("behind the last step", 120)]);
    for sort in SMALL {
        met.least(&[(&format!("{sort}, in a called function"), 20)]);
        met.least(&[(&format!("{sort}, overflow"), 20)]);
    }
    met.least(&[("twice, overflow in the step struck", 20), ("wide, overflow", 50)]);
}
