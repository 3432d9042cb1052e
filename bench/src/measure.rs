//! Times calls. A sample is a batch of calls that takes long enough for the clock; the answer is
//! the median of many samples, in nanoseconds a call.

use std::time::Instant;

const SAMPLES: usize = 101;
/// A sample takes about this long at least.
const SAMPLE_NANOSECONDS: u128 = 300_000;

/// A call to be timed. It hands its answer to `black_box` itself.
pub type Timed<'a> = Box<dyn FnMut() + 'a>;

fn nanoseconds(call: &mut Timed, batch: u32) -> f64 {
    let start = Instant::now();
    for _ in 0..batch {
        call();
    }
    start.elapsed().as_nanos() as f64 / f64::from(batch)
}

/// How many calls make a sample.
fn batch_for(call: &mut Timed) -> u32 {
    let mut batch = 1;
    loop {
        let start = Instant::now();
        for _ in 0..batch {
            call();
        }
        if start.elapsed().as_nanos() >= SAMPLE_NANOSECONDS {
            return batch;
        }
        batch *= 2;
    }
}

/// The medians of several calls.
pub fn medians(calls: Vec<Timed>) -> Vec<f64> {
    medians_of(SAMPLES, calls)
}

/// The medians of so many samples.
pub fn medians_of(samples: usize, mut calls: Vec<Timed>) -> Vec<f64> {
    let batches: Vec<u32> = calls.iter_mut().map(batch_for).collect();
    in_turn(calls, &batches, samples)
}

/// The same where every sample is one call, and none is made before them.
pub fn medians_of_single(samples: usize, calls: Vec<Timed>) -> Vec<f64> {
    let batches = vec![1; calls.len()];
    in_turn(calls, &batches, samples)
}

/// The samples of the calls take turns, so that a machine that slows down slows all of them.
fn in_turn(mut calls: Vec<Timed>, batches: &[u32], count: usize) -> Vec<f64> {
    let mut samples = vec![Vec::with_capacity(count); calls.len()];
    for _ in 0..count {
        for ((call, batch), samples) in calls.iter_mut().zip(batches).zip(&mut samples) {
            samples.push(nanoseconds(call, *batch));
        }
    }
    samples.into_iter().map(median).collect()
}

fn median(mut samples: Vec<f64>) -> f64 {
    samples.sort_by(f64::total_cmp);
    samples[samples.len() / 2]
}
