//! Document 01 in Rust, written for speed, and what it takes to time the proved calls beside it.
//! See README.md.

pub mod calls;
pub mod compare;
pub mod figures;
pub mod harden;
pub mod hardened_run;
pub mod measure;
#[cfg(feature = "ours")]
pub mod ours;
pub mod programs;
pub mod read_back;
pub mod source_run;
pub mod sweep;
pub mod sweep_programs;
pub mod table;
