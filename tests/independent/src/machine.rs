//! What source runs and hardened runs have in common: the variables, the dos,
//! the tests, the outcomes (01, "The source table" and "Running"; 02, No. 5).

/// "sixteen 16-bit variables v0 to v15, shared by all functions"
pub type Variables = [u16; 16];

/// "16 functions open in a run"
pub const MOST_OPEN_FUNCTIONS: usize = 16;

/// "k = 65,535 is no jump"
pub const NO_JUMP: u16 = 65_535;

/// How a run ends. Its discriminant is 01's number, or 02's.
#[derive(Clone, Copy, Debug, PartialEq, Eq)]
pub enum Outcome {
    /// "0 budget spent"
    BudgetSpent = 0,
    /// "1 finished"
    Finished = 1,
    /// "2 alarm"
    Alarm = 2,
    /// "3 too many open functions"
    TooManyOpen = 3,
    /// "4 the place is beyond m"
    PlaceBeyond = 4,
    /// "stops either run with outcome 5"
    Overflow = 5,
}

impl Outcome {
    pub fn number(self) -> u8 {
        self as u8
    }

    /// 01's own words, and for 5 those of docs/PROGRAMS.md.
    pub fn words(self) -> &'static str {
        match self {
            Outcome::BudgetSpent => "budget spent",
            Outcome::Finished => "finished",
            Outcome::Alarm => "alarm",
            Outcome::TooManyOpen => "too many open functions",
            Outcome::PlaceBeyond => "the place is beyond m",
            Outcome::Overflow => "overflow",
        }
    }
}

/// What a variable can hold.
const VALUES: std::ops::RangeInclusive<i64> = 0..=65_535;

/// "do: op 0: vp = n; 1: vp = vq; 2: vp = vp + vq; 3: vp = vp - vq". Answers the
/// variables behind it. "A do whose sum passes 65,535 or whose difference falls below
/// 0" has none: it ends the run "before it changes a variable or the trace", and its
/// caller has no way on without having heard of it.
pub fn do_it(op: u8, p: u8, q: u8, n: u16, v: &Variables) -> Result<Variables, Outcome> {
    let (p, q) = (usize::from(p), usize::from(q));
    let [n, vp, vq] = [n, v[p], v[q]].map(i64::from);
    let result = match op {
        0 => n,
        1 => vq,
        2 => vp + vq,
        3 => vp - vq,
        _ => unreachable!("a do of an accepted table has op 0 to 3"),
    };
    if !VALUES.contains(&result) {
        return Err(Outcome::Overflow);
    }
    let mut after = *v;
    after[p] = u16::try_from(result).expect("it is in the range");
    Ok(after)
}

/// "test op 0: vp = n; 1: vp differs from n; 2: vp less than vq, unsigned"
pub fn holds(op: u8, p: u8, q: u8, n: u16, v: &Variables) -> bool {
    let (p, q) = (usize::from(p), usize::from(q));
    match op {
        0 => v[p] == n,
        1 => v[p] != n,
        2 => v[p] < v[q],
        _ => unreachable!("a test of an accepted table has op 0 to 2"),
    }
}
