//! Times, taken side by side.

use crate::groups::{Group, Kernel};
use std::time::{Duration, Instant};

/// So many rounds; in each round every kernel runs one batch.
const ROUNDS: usize = 401;
/// About how long a batch takes.
const BATCH: Duration = Duration::from_micros(500);

/// Nanoseconds per call, by kernel and round. The kernels take turns, and each
/// round begins with another, so that a slow spell of the machine meets all.
pub fn measure(group: &mut Group) -> Vec<Vec<f64>> {
    measure_in(group, ROUNDS)
}

pub fn measure_in(group: &mut Group, rounds: usize) -> Vec<Vec<f64>> {
    let batches: Vec<usize> = group.kernels.iter_mut().map(batch_of).collect();
    let kernels = group.kernels.len();
    let mut times = vec![Vec::with_capacity(rounds); kernels];
    for round in 0..rounds {
        for turn in 0..kernels {
            let index = (round + turn) % kernels;
            let taken = time(&mut group.kernels[index], batches[index]);
            let calls = batches[index] * group.calls;
            times[index].push(taken.as_nanos() as f64 / calls as f64);
        }
    }
    times
}

/// How many repetitions a kernel makes in one batch.
fn batch_of(kernel: &mut Kernel) -> usize {
    let mut count = 1;
    while time(kernel, count) < BATCH {
        count *= 2;
    }
    count
}

fn time(kernel: &mut Kernel, count: usize) -> Duration {
    let start = Instant::now();
    (kernel.repeat)(count);
    start.elapsed()
}
