//! Medians of times, taken in turn.

#![allow(dead_code)]

use std::time::{Duration, Instant};

/// How many samples a median is taken over, where nothing else is said.
pub const SAMPLES: usize = 101;

/// How long one sample takes at least.
const SAMPLE_TIME: Duration = Duration::from_micros(400);

/// The median time of one call of each contender, in nanoseconds.
pub fn medians<const N: usize>(contenders: [&mut dyn FnMut(); N]) -> [f64; N] {
    medians_over([SAMPLES; N], contenders)
}

/// The same over so many samples of each, which are spread evenly.
pub fn medians_over<const N: usize>(
    samples: [usize; N],
    mut contenders: [&mut dyn FnMut(); N],
) -> [f64; N] {
    let calls: Vec<u32> = contenders.iter_mut().map(|c| calls_for_sample(c)).collect();
    let rounds = samples.into_iter().max().unwrap_or(0);
    let mut times = samples.map(Vec::with_capacity);
    for round in 0..rounds {
        for (index, contender) in contenders.iter_mut().enumerate() {
            let due = (round + 1) * samples[index] / rounds;
            if times[index].len() < due {
                let time = time_of(contender, calls[index]);
                times[index].push(time.as_nanos() as f64 / f64::from(calls[index]));
            }
        }
    }
    std::array::from_fn(|index| median(&mut times[index]))
}

/// How many calls fill a sample.
fn calls_for_sample(contender: &mut dyn FnMut()) -> u32 {
    let mut calls = 1;
    while time_of(contender, calls) < SAMPLE_TIME {
        calls *= 2;
    }
    calls
}

/// The time of so many calls.
pub fn time_of(contender: &mut dyn FnMut(), calls: u32) -> Duration {
    let start = Instant::now();
    for _ in 0..calls {
        contender();
    }
    start.elapsed()
}

fn median(times: &mut [f64]) -> f64 {
    times.sort_by(f64::total_cmp);
    times[times.len() / 2]
}
