//! The proved calls, through the C boundary of target/staticlib/libfinuraho.a.
//!
//! Nothing checks these declarations against the Rattle source: `compare` does, on many inputs.

use crate::calls::{AnyOther, Calls, Measured, Ran, Start, Swept, Variables, Wrote};

unsafe extern "C" {
    fn finuraho_check(rows: *const u8, rows_len: usize) -> u8;
    fn finuraho_measure(rows: *const u8, rows_len: usize) -> Measured;
    fn finuraho_harden(rows: *const u8, rows_len: usize, out: *mut u8, out_len: usize) -> Wrote;
    fn finuraho_check_hardened(lines: *const u8, lines_len: usize) -> u8;
    fn finuraho_read_back(
        lines: *const u8,
        lines_len: usize,
        out: *mut u8,
        out_len: usize,
    ) -> Wrote;
    fn finuraho_run_source(
        rows: *const u8,
        rows_len: usize,
        variables: *const Variables,
        budget: u16,
        trace: *mut u16,
        trace_len: usize,
    ) -> Ran;
    fn finuraho_run_hardened(
        lines: *const u8,
        lines_len: usize,
        variables: *const Variables,
        budget: u16,
        step: u16,
        place: u16,
        trace: *mut u16,
        trace_len: usize,
        counters: *mut u16,
        counters_len: usize,
    ) -> Ran;
    fn finuraho_sweep(
        lines: *const u8,
        lines_len: usize,
        variables: *const Variables,
        budget: u16,
        trace: *mut u16,
        trace_len: usize,
        counters: *mut u16,
        counters_len: usize,
    ) -> Swept;
    fn finuraho_sweep_other(
        lines: *const u8,
        lines_len: usize,
        variables: *const Variables,
        budget: u16,
        trace: *mut u16,
        trace_len: usize,
        counters: *mut u16,
        counters_len: usize,
    ) -> AnyOther;
}

/// The proved calls. None of them asks anything of its caller, so every wrapper is safe: each
/// pointer comes from a slice, with that slice's length.
pub struct Ours;

impl Calls for Ours {
    fn name(&self) -> &'static str {
        "ours"
    }

    fn check(&self, rows: &[u8]) -> u8 {
        unsafe { finuraho_check(rows.as_ptr(), rows.len()) }
    }

    fn measure(&self, rows: &[u8]) -> Measured {
        unsafe { finuraho_measure(rows.as_ptr(), rows.len()) }
    }

    fn harden(&self, rows: &[u8], out: &mut [u8]) -> Wrote {
        unsafe { finuraho_harden(rows.as_ptr(), rows.len(), out.as_mut_ptr(), out.len()) }
    }

    fn check_hardened(&self, lines: &[u8]) -> u8 {
        unsafe { finuraho_check_hardened(lines.as_ptr(), lines.len()) }
    }

    fn read_back(&self, lines: &[u8], out: &mut [u8]) -> Wrote {
        unsafe { finuraho_read_back(lines.as_ptr(), lines.len(), out.as_mut_ptr(), out.len()) }
    }

    fn run_source(&self, rows: &[u8], start: &Start, trace: &mut [u16]) -> Ran {
        let (trace, trace_len) = (trace.as_mut_ptr(), trace.len());
        let Start { variables, budget, .. } = start;
        unsafe {
            finuraho_run_source(rows.as_ptr(), rows.len(), variables, *budget, trace, trace_len)
        }
    }

    fn run_hardened(
        &self,
        lines: &[u8],
        start: &Start,
        trace: &mut [u16],
        counters: &mut [u16],
    ) -> Ran {
        unsafe {
            finuraho_run_hardened(
                lines.as_ptr(),
                lines.len(),
                &start.variables,
                start.budget,
                start.step,
                start.place,
                trace.as_mut_ptr(),
                trace.len(),
                counters.as_mut_ptr(),
                counters.len(),
            )
        }
    }

    fn sweep(&self, lines: &[u8], start: &Start, trace: &mut [u16], counters: &mut [u16]) -> Swept {
        unsafe {
            finuraho_sweep(
                lines.as_ptr(),
                lines.len(),
                &start.variables,
                start.budget,
                trace.as_mut_ptr(),
                trace.len(),
                counters.as_mut_ptr(),
                counters.len(),
            )
        }
    }

    fn sweep_other(
        &self,
        lines: &[u8],
        start: &Start,
        trace: &mut [u16],
        counters: &mut [u16],
    ) -> AnyOther {
        unsafe {
            finuraho_sweep_other(
                lines.as_ptr(),
                lines.len(),
                &start.variables,
                start.budget,
                trace.as_mut_ptr(),
                trace.len(),
                counters.as_mut_ptr(),
                counters.len(),
            )
        }
    }
}
