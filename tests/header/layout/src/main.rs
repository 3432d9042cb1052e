//! Prints where Rust puts each field of the six answers; ../layout.c prints the same from the
//! header.

use std::mem::{offset_of, size_of};

use finuraho_bench::calls::{AnyOther, Measured, Ran, Swept, Wrote};

/// As in crates/rules/src/answer.rt; bench doesn't time this call, so it is declared here.
#[allow(dead_code)]
#[repr(C)]
struct Fault {
    number: u8,
    row: usize,
}

fn main() {
    println!("wrote {}", size_of::<Wrote>());
    println!("number {}", offset_of!(Wrote, number));
    println!("length {}", offset_of!(Wrote, length));
    println!("found {}", size_of::<Fault>());
    println!("number {}", offset_of!(Fault, number));
    println!("row {}", offset_of!(Fault, row));
    println!("measured {}", size_of::<Measured>());
    println!("number {}", offset_of!(Measured, number));
    println!("regions {}", offset_of!(Measured, regions));
    println!("lines {}", offset_of!(Measured, lines));
    println!("value {}", offset_of!(Measured, value));
    println!("ran {}", size_of::<Ran>());
    println!("number {}", offset_of!(Ran, number));
    println!("outcome {}", offset_of!(Ran, outcome));
    println!("steps {}", offset_of!(Ran, steps));
    println!("traced {}", offset_of!(Ran, traced));
    println!("variables {}", offset_of!(Ran, variables));
    println!("swept {}", size_of::<Swept>());
    println!("number {}", offset_of!(Swept, number));
    println!("alarms {}", offset_of!(Swept, alarms));
    println!("same {}", offset_of!(Swept, same));
    println!("other {}", offset_of!(Swept, other));
    println!("unfinished {}", offset_of!(Swept, unfinished));
    println!("any_other {}", size_of::<AnyOther>());
    println!("number {}", offset_of!(AnyOther, number));
    println!("other {}", offset_of!(AnyOther, other));
}
