//! The command line.

use std::env;
use std::ffi::OsString;
use std::io::{self, Write};
use std::os::unix::ffi::OsStrExt;
use std::path::Path;
use std::process::ExitCode;

use independent::evaluate::{self, Asked};
use independent::printed::{self, Printed};
use independent::programs::Program;
use independent::protocol::Test;
use independent::{replay, replay_fault, replay_measure, replay_read, replay_run, replay_sweep};
use independent::{run_cases, sweep_cases, texts};

const USAGE: &str = "usage:
  independent harden                            rows on stdin, lines on stdout
  independent measure                           rows on stdin, figures on stdout
  independent readback                          lines on stdin, rows on stdout
  independent explain                           rows on stdin, number, row and words on stdout
  independent texts SEED COUNT DIR              texts for these four, and their answers
  independent run WORDS                         a run of the table on stdin
  independent run-cases SEED COUNT DIR          command lines and inputs for it, and its answers
  independent sweep WORDS                       a sweep of the hardened table on stdin
  independent sweep-cases SEED COUNT DIR        command lines and inputs for it, and its answers
  independent evaluate [budget=N] [v0=N .. v15=N]
                                                sweeps of the rows on stdin, before hardening and after it
  independent replay SEED COUNT DIR             tests of check and harden
  independent replay-fault SEED COUNT DIR       tests of fault
  independent replay-measure SEED COUNT DIR     tests of measure and hardened_steps
  independent replay-read SEED COUNT DIR        tests of reading back
  independent replay-bytes DIR                  one byte of the listing, every way
  independent replay-run SEED COUNT DIR [long]  tests of runs
  independent replay-sweep SEED COUNT DIR [long]
                                                tests of sweeps";

fn main() -> ExitCode {
    let given: Vec<OsString> = env::args_os().skip(1).collect();
    let named = given.first().and_then(|word| Program::named(&word.to_string_lossy()));
    let done = match named {
        Some(program) => as_program(program, &given[1..]),
        None => write_files(&given).map_err(|error| format!("independent: {error}")),
    };
    match done {
        Ok(()) => ExitCode::SUCCESS,
        Err(line) => {
            eprintln!("{line}");
            ExitCode::from(2)
        }
    }
}

/// Does what the program does; what it says to a failed read or write is the
/// error.
fn as_program(program: Program, words: &[OsString]) -> Result<(), String> {
    let words: Vec<Vec<u8>> = words.iter().map(|word| word.as_bytes().to_vec()).collect();
    let printed = program
        .printed(&words, io::stdin().lock())
        .map_err(|error| printed::cannot_read(&error))?;
    print(&printed).map_err(|error| printed::cannot_write(&error))
}

/// What is said beside an answer comes before it.
fn print(printed: &Printed) -> io::Result<()> {
    io::stderr().write_all(&printed.err).expect("standard error takes all");
    let mut out = io::stdout().lock();
    out.write_all(printed.out.as_bytes())?;
    out.flush()
}

/// The commands that the scripts use, most of which write files.
fn write_files(given: &[OsString]) -> io::Result<()> {
    let arguments: Vec<String> =
        given.iter().map(|word| word.to_string_lossy().into_owned()).collect();
    let words: Vec<&str> = arguments.iter().map(String::as_str).collect();
    match words[..] {
        ["evaluate", ref rest @ ..] => evaluated(rest),
        ["texts", seed, count, to] => {
            let (seed, count) = numbers(seed, count)?;
            texts::write(&texts::all(seed, count), Path::new(to))
        }
        ["run-cases", seed, count, to] => {
            let (seed, count) = numbers(seed, count)?;
            run_cases::write(Program::Run, &run_cases::cases(seed, count), Path::new(to))
        }
        ["sweep-cases", seed, count, to] => {
            let (seed, count) = numbers(seed, count)?;
            run_cases::write(Program::Sweep, &sweep_cases::cases(seed, count), Path::new(to))
        }
        ["replay-fault", seed, count, to] => {
            files(replay_fault::tests, seed, count, to, Vec::new())
        }
        ["replay-measure", seed, count, to] => {
            files(replay_measure::tests, seed, count, to, Vec::new())
        }
        ["replay", seed, count, to] => files(replay::tests, seed, count, to, Vec::new()),
        ["replay-read", seed, count, to] => files(replay_read::tests, seed, count, to, Vec::new()),
        ["replay-bytes", to] => replay::write(&replay_read::every_byte(), Path::new(to)),
        ["replay-run", seed, count, to] => files(replay_run::tests, seed, count, to, Vec::new()),
        ["replay-run", seed, count, to, "long"] => {
            files(replay_run::tests, seed, count, to, replay_run::long_tests())
        }
        ["replay-sweep", seed, count, to] => {
            files(replay_sweep::tests, seed, count, to, Vec::new())
        }
        ["replay-sweep", seed, count, to, "long"] => {
            files(replay_sweep::tests, seed, count, to, replay_sweep::long_tests())
        }
        _ => Err(wrong_usage()),
    }
}

fn evaluated(words: &[&str]) -> io::Result<()> {
    let asked = Asked::read(words).ok_or_else(wrong_usage)?;
    print(&evaluate::evaluate(asked, io::stdin().lock())?)
}

fn wrong_usage() -> io::Error {
    io::Error::new(io::ErrorKind::InvalidInput, USAGE)
}

fn numbers(seed: &str, count: &str) -> io::Result<(u64, usize)> {
    let seed = seed.parse().map_err(|_| wrong_usage())?;
    let count = count.parse().map_err(|_| wrong_usage())?;
    Ok((seed, count))
}

/// Writes the two files of a replay command.
fn files(
    make: fn(u64, usize) -> Vec<Test>,
    seed: &str,
    count: &str,
    to: &str,
    more: Vec<Test>,
) -> io::Result<()> {
    let (seed, count) = numbers(seed, count)?;
    let mut tests = make(seed, count);
    tests.extend(more);
    replay::write(&tests, Path::new(to))
}
