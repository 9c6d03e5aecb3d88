//! Medians of calls that take turns.

use std::time::Instant;

/// How long a batch of calls takes at least, and all calls of one row together, in nanoseconds.
const BATCH: f64 = 20_000.0;
const ROW: f64 = 400_000_000.0;

/// Nanoseconds a call, by a batch of `count` calls.
fn batch(call: &mut dyn FnMut(), count: usize) -> f64 {
    let start = Instant::now();
    for _ in 0..count {
        call();
    }
    start.elapsed().as_nanos() as f64 / count as f64
}

/// The median of some times.
pub fn median(mut times: Vec<f64>) -> f64 {
    times.sort_by(f64::total_cmp);
    times[times.len() / 2]
}

/// The median time of each call, in nanoseconds; the calls take turns, each round from another one on.
pub fn medians(calls: &mut [Box<dyn FnMut() + '_>]) -> Vec<f64> {
    let first: Vec<f64> = calls.iter_mut().map(|call| batch(call, 3)).collect();
    let counts: Vec<usize> = first.iter().map(|time| (BATCH / time).ceil().max(1.0) as usize).collect();
    let round: f64 = first.iter().zip(&counts).map(|(time, count)| time * *count as f64).sum();
    let rounds = ((ROW / round) as usize).clamp(5, 301);
    let mut times = vec![Vec::new(); calls.len()];
    for r in 0..rounds {
        for turn in 0..calls.len() {
            let which = (r + turn) % calls.len();
            times[which].push(batch(&mut calls[which], counts[which]));
        }
    }
    times.into_iter().map(median).collect()
}
