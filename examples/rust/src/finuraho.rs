//! The calls of include/finuraho.h that this program makes, over slices.
//!
//! A slice's pointer is valid for its length and a lent one overlaps nothing else: that is all that
//! the header asks, so each function here is safe.

pub const LINE_BYTES: usize = 20;
pub const COUNTER_WORDS: usize = 1024;
pub const NO_JUMP: u16 = 65_535;

pub type Variables = [u16; 16];

#[repr(C)]
struct Wrote {
    number: u8,
    length: usize,
}

/// How much a hardened table takes.
#[repr(C)]
#[derive(Debug)]
pub struct Measured {
    number: u8,
    pub regions: u8,
    pub lines: u16,
    pub value: u16,
}

/// How a run ended.
#[repr(C)]
#[derive(Debug)]
pub struct Ran {
    number: u8,
    pub outcome: u8,
    pub steps: u16,
    pub traced: u16,
    pub variables: Variables,
}

/// How the runs of a sweep ended, one for each single jump.
#[repr(C)]
#[derive(Debug)]
pub struct Swept {
    number: u8,
    pub alarms: u32,
    pub same: u32,
    pub other: u32,
    pub unfinished: u32,
}

/// The number of a call that was turned away, 1 to 11 or 13.
#[derive(Debug)]
pub struct Refused(pub u8);

unsafe extern "C" {
    fn finuraho_measure(rows: *const u8, rows_len: usize) -> Measured;
    fn finuraho_harden(rows: *const u8, rows_len: usize, out: *mut u8, out_len: usize) -> Wrote;
    fn finuraho_run_source(
        rows: *const u8,
        rows_len: usize,
        variables: *const Variables,
        budget: u16,
        trace: *mut u16,
        trace_len: usize,
    ) -> Ran;
    fn finuraho_run_hardened(
        lines: *const u8,
        lines_len: usize,
        variables: *const Variables,
        budget: u16,
        step: u16,
        place: u16,
        trace: *mut u16,
        trace_len: usize,
        counters: *mut u16,
        counters_len: usize,
    ) -> Ran;
    fn finuraho_hardened_steps(steps: u16, dos: u16, calls: u16) -> u32;
    fn finuraho_sweep(
        lines: *const u8,
        lines_len: usize,
        variables: *const Variables,
        budget: u16,
        trace: *mut u16,
        trace_len: usize,
        counters: *mut u16,
        counters_len: usize,
    ) -> Swept;
}

/// A jump before step `step` to `place`.
#[derive(Clone, Copy)]
pub struct Jump {
    pub step: u16,
    pub place: u16,
}

/// The figures of the table that `harden` writes.
pub fn measure(rows: &[u8]) -> Result<Measured, Refused> {
    let measured = unsafe { finuraho_measure(rows.as_ptr(), rows.len()) };
    match measured.number {
        0 => Ok(measured),
        number => Err(Refused(number)),
    }
}

/// The hardened table at the front of `out`.
pub fn harden<'a>(rows: &[u8], out: &'a mut [u8]) -> Result<&'a [u8], Refused> {
    let wrote = unsafe { finuraho_harden(rows.as_ptr(), rows.len(), out.as_mut_ptr(), out.len()) };
    match wrote.number {
        0 => Ok(&out[..wrote.length]),
        number => Err(Refused(number)),
    }
}

/// A source run whose budget is the number of slots.
pub fn run_source(rows: &[u8], values: &Variables, trace: &mut [u16]) -> Result<Ran, Refused> {
    let (slots, len) = (trace.as_mut_ptr(), trace.len());
    accepted(unsafe {
        finuraho_run_source(rows.as_ptr(), rows.len(), values, budget(len), slots, len)
    })
}

/// A hardened run whose budget is the number of slots.
pub fn run_hardened(
    lines: &[u8],
    values: &Variables,
    jump: Option<Jump>,
    trace: &mut [u16],
) -> Result<Ran, Refused> {
    let Jump { step, place } = jump.unwrap_or(Jump { step: NO_JUMP, place: 0 });
    let mut counters = [0; COUNTER_WORDS];
    accepted(unsafe {
        finuraho_run_hardened(
            lines.as_ptr(),
            lines.len(),
            values,
            budget(trace.len()),
            step,
            place,
            trace.as_mut_ptr(),
            trace.len(),
            counters.as_mut_ptr(),
            counters.len(),
        )
    })
}

/// The steps of the hardened run, from a source run that finished.
pub fn hardened_steps(ran: &Ran, calls: u16) -> u32 {
    unsafe { finuraho_hardened_steps(ran.steps, ran.traced, calls) }
}

/// Every single jump of the run whose budget is the number of slots.
pub fn sweep(lines: &[u8], values: &Variables, trace: &mut [u16]) -> Result<Swept, Refused> {
    let mut counters = [0; COUNTER_WORDS];
    let swept = unsafe {
        finuraho_sweep(
            lines.as_ptr(),
            lines.len(),
            values,
            budget(trace.len()),
            trace.as_mut_ptr(),
            trace.len(),
            counters.as_mut_ptr(),
            counters.len(),
        )
    };
    match swept.number {
        0 => Ok(swept),
        number => Err(Refused(number)),
    }
}

/// A run takes at most 65,535 steps.
fn budget(slots: usize) -> u16 {
    u16::try_from(slots).unwrap_or(u16::MAX)
}

fn accepted(ran: Ran) -> Result<Ran, Refused> {
    match ran.number {
        0 => Ok(ran),
        number => Err(Refused(number)),
    }
}
