//! Document 01's example program, measured, hardened and run: unstruck, struck by a jump that the
//! counters catch, and by one that they cannot; then swept by every single jump. Then a tariff by
//! bands, written as a switch, the same way, for three numbers of hives.

mod finuraho;

use std::process::ExitCode;

use finuraho::{Jump, Measured, Ran, Refused, Swept, Variables, LINE_BYTES};

const BUDGET: usize = 20;

/// v0 = 2; while v0 differs from 0: v0 = v0 - v1.
const ROWS: [[u8; 6]; 6] = [
    [0x01, 0, 0, 0, 0, 0], // row 0: function opens
    [0x02, 0, 0, 0, 2, 0], // row 1: v0 = 2
    [0x05, 1, 0, 0, 0, 0], // row 2: while v0 differs from 0
    [0x02, 3, 0, 1, 0, 0], // row 3: v0 = v0 - v1
    [0x06, 0, 0, 0, 0, 0], // row 4: end of loop
    [0x06, 0, 0, 0, 0, 0], // row 5: end of function
];

/// The fee v1 by the hives v0.
const BANDS: [[u8; 6]; 10] = [
    [0x01, 0, 0, 0, 0, 0],    // function opens
    [0x0a, 0, 0, 0, 0, 0],    // switch on v0
    [0x0b, 0, 0, 0, 10, 0],   // case 10
    [0x02, 0, 1, 0, 0x84, 3], // v1 = 900
    [0x0b, 0, 0, 0, 50, 0],   // case 50
    [0x02, 0, 1, 0, 0xbc, 2], // v1 = 700
    [0x0c, 0, 0, 0, 0, 0],    // default
    [0x02, 0, 1, 0, 0x90, 1], // v1 = 400
    [0x06, 0, 0, 0, 0, 0],    // end of switch
    [0x06, 0, 0, 0, 0, 0],    // end of function
];

const VALUES: Variables = [0, 1, 0, 0, 0, 0, 0, 0, 0, 0, 0, 0, 0, 0, 0, 0];

const OUTCOMES: [&str; 6] = [
    "budget spent",
    "finished",
    "alarm",
    "too many open functions",
    "place beyond the last",
    "overflow",
];

fn main() -> ExitCode {
    match example().and_then(|()| quote_bands()) {
        Ok(()) => ExitCode::SUCCESS,
        Err(Refused(number)) => {
            println!("refused {number}");
            ExitCode::FAILURE
        }
    }
}

fn example() -> Result<(), Refused> {
    let rows = ROWS.as_flattened();
    let lines = &harden(rows)?;
    for line in lines.chunks(LINE_BYTES) {
        println!("{}", line.iter().map(|byte| format!("{byte:02x}")).collect::<String>());
    }
    let mut trace = [0; BUDGET];
    let ran = finuraho::run_source(rows, &VALUES, &mut trace)?;
    show("source", &ran, &trace);
    // Its dos are its trace's length; the table has no call.
    println!("hardened it takes {} steps", finuraho::hardened_steps(&ran, 0));
    run_hardened("hardened", lines, None)?;
    // From inside the loop to the return, over the guards between: caught before v0 = 1 is taken
    // for the result.
    let wide = Jump { step: 4, place: 6 };
    run_hardened("jump before step 4 to place 6", lines, Some(wide))?;
    // Over line 0 alone, a do: no guard lies between, so the run goes on as if nothing had
    // happened, without row 1.
    let narrow = Jump { step: 0, place: 1 };
    run_hardened("jump before step 0 to place 1", lines, Some(narrow))?;
    // Over guards, to the do that takes v1 = 1 from v0, which is 0 yet: the difference is no fee,
    // and the run ends there.
    let below = Jump { step: 0, place: 3 };
    run_hardened("jump before step 0 to place 3", lines, Some(below))?;
    sweep(lines, &VALUES)
}

fn quote_bands() -> Result<(), Refused> {
    let lines = harden(BANDS.as_flattened())?;
    for hives in [10, 50, 200] {
        let mut values = [0; 16];
        values[0] = hives;
        let ran = finuraho::run_hardened(&lines, &values, None, &mut [0; BUDGET])?;
        let outcome = OUTCOMES[usize::from(ran.outcome)];
        println!("{hives} hives: {outcome}, {} steps, fee {}", ran.steps, ran.variables[1]);
        sweep(&lines, &values)?;
    }
    Ok(())
}

/// A hardened table, in exactly the memory that it takes.
fn harden(rows: &[u8]) -> Result<Vec<u8>, Refused> {
    let Measured { lines, regions, value, .. } = finuraho::measure(rows)?;
    let mut out = vec![0; LINE_BYTES * usize::from(lines)];
    println!("{lines} lines, {} bytes, {regions} regions, values up to {value}", out.len());
    finuraho::harden(rows, &mut out)?;
    Ok(out)
}

fn run_hardened(what: &str, lines: &[u8], jump: Option<Jump>) -> Result<(), Refused> {
    let mut trace = [0; BUDGET];
    let ran = finuraho::run_hardened(lines, &VALUES, jump, &mut trace)?;
    show(what, &ran, &trace);
    Ok(())
}

/// What comes of every single jump. One that ends with another trace goes unseen.
fn sweep(lines: &[u8], values: &Variables) -> Result<(), Refused> {
    let Swept { alarms, same, other, unfinished, .. } =
        finuraho::sweep(lines, values, &mut [0; BUDGET])?;
    print!("single jumps: {alarms} alarms, {same} with the same trace, ");
    println!("{other} with another, {unfinished} unfinished");
    Ok(())
}

fn show(what: &str, ran: &Ran, trace: &[u16]) {
    let outcome = OUTCOMES[usize::from(ran.outcome)];
    let (steps, v0) = (ran.steps, ran.variables[0]);
    print!("{what}: {outcome}, {steps} steps, v0 = {v0}, trace");
    let done = &trace[..usize::from(ran.traced)];
    for row in done {
        print!(" {row}");
    }
    println!("{}", if done.is_empty() { " empty" } else { "" });
}
