//! Timing of several tasks in one run, for all benches.

// Each bench is compiled with its own copy of this module and may not use all of it.
#![allow(dead_code)]

use std::hint::black_box;
use std::time::{Duration, Instant};

/// How long one sample takes at least, so that reading the clock costs little beside it.
const SAMPLE: Duration = Duration::from_micros(500);

/// How long the samples of one task take together, at least, where all tasks are equally fast.
const TOTAL: Duration = Duration::from_millis(1_500);

/// How many samples of each task are taken at least.
const SAMPLES: usize = 40;

/// The best times of one call of two tasks that do the same work, in seconds.
pub struct Best {
    /// The time of the library.
    pub library: f64,
    /// The time of the independent crate.
    pub independent: f64,
}

impl Best {
    /// The speed of the library divided by that of the independent crate.
    pub fn ratio(&self) -> f64 {
        self.independent / self.library
    }
}

/// Gives the best times of two tasks that do the same work.
pub fn compare<A, B>(mut library: impl FnMut() -> A, mut independent: impl FnMut() -> B) -> Best {
    let times = best_times(&mut [
        &mut || {
            black_box(library());
        },
        &mut || {
            black_box(independent());
        },
    ]);
    Best {
        library: times[0],
        independent: times[1],
    }
}

/// Times all tasks in turn and gives the best time of one call of each, in seconds. In turn,
/// because the speed of the machine changes over time; the best, because all disturbances make a
/// call slower.
pub fn best_times(tasks: &mut [&mut dyn FnMut()]) -> Vec<f64> {
    best_times_within(TOTAL, tasks)
}

/// As `best_times`, with the time that the samples of one task take together, where all tasks are
/// equally fast.
pub fn best_times_within(each: Duration, tasks: &mut [&mut dyn FnMut()]) -> Vec<f64> {
    let calls: Vec<u32> = tasks
        .iter_mut()
        .map(|task| calls_per_sample(*task))
        .collect();
    let mut best = vec![f64::INFINITY; tasks.len()];

    let total = each * tasks.len() as u32;
    let start = Instant::now();
    let mut samples = 0;
    while samples < SAMPLES || start.elapsed() < total {
        for ((task, calls), best) in tasks.iter_mut().zip(&calls).zip(&mut best) {
            *best = best.min(sample(*task, *calls));
        }
        samples += 1;
    }
    best
}

/// Gives the millions of bytes per second, where one call handles this many bytes.
pub fn megabytes_per_second(bytes: usize, seconds: f64) -> f64 {
    bytes as f64 / seconds / 1e6
}

/// Doubles the number of calls until a sample is long enough.
fn calls_per_sample(task: &mut dyn FnMut()) -> u32 {
    let mut calls = 1;
    while sample(task, calls) * f64::from(calls) < SAMPLE.as_secs_f64() {
        calls *= 2;
    }
    calls
}

/// Gives the mean time of one call, in seconds.
fn sample(task: &mut dyn FnMut(), calls: u32) -> f64 {
    let start = Instant::now();
    for _ in 0..calls {
        task();
    }
    start.elapsed().as_secs_f64() / f64::from(calls)
}
