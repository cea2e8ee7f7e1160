//! Medians of many samples. Those who do a job take turns, so that what slows
//! the machine slows them alike, and each is first in turn. From turn to turn
//! the stack begins elsewhere in its page, so that no one placement decides.
//! Between two runs of the program times still differ: look at several.

use super::jobs::{Buffers, Job};
use crate::implementations::{ARCHIVE, PLAIN};
use std::sync::atomic::{compiler_fence, Ordering};
use std::time::Instant;

/// How many places the stack begins at, and how many levels lie between two. A
/// level takes 16 bytes or more, so together they are more than a page. The
/// number is prime, so that each is first in turn at each place.
const PLACES: usize = 23;
const LEVELS: usize = 13;

/// Microseconds for one call.
#[derive(Clone, Copy, Debug)]
pub struct Times {
    pub archive: f64,
    pub plain: f64,
    /// A copy of the same bytes; beside calls on a tally, *weigh*.
    pub beside: f64,
    /// Half the distance of the archive's quartiles, as a part of its median.
    pub noise: f64,
}

/// Times a job.
pub fn time(job: &Job, samples: usize) -> Times {
    job.check(&ARCHIVE, &PLAIN);
    let mut scratch = job.buffers();
    let [archive, plain, beside] = in_turn(
        job,
        samples,
        [
            &mut |buffers| job.run(&ARCHIVE, buffers),
            &mut |buffers| job.run(&PLAIN, buffers),
            &mut |buffers| job.beside(&mut scratch, buffers),
        ],
    );
    Times {
        archive: archive[1],
        plain: plain[1],
        beside: beside[1],
        noise: (archive[2] - archive[0]) / 2.0 / archive[1],
    }
}

/// The quartiles of the microseconds that each of these takes for one call of
/// the job. All write to the same buffers.
pub fn in_turn<const K: usize>(
    job: &Job,
    samples: usize,
    mut runs: [&mut dyn FnMut(&mut Buffers); K],
) -> [[f64; 3]; K] {
    let mut buffers = job.buffers();
    let mut times = [(); K].map(|_| Vec::with_capacity(samples));
    for turn in 0..samples {
        let depth = turn % PLACES * LEVELS;
        for step in 0..K {
            let who = (turn + step) % K;
            times[who].push(sample(job, depth, || runs[who](&mut buffers)));
        }
    }
    times.map(quartiles)
}

/// Microseconds for one call of the job, so deep in the stack.
fn sample(job: &Job, depth: usize, mut run: impl FnMut()) -> f64 {
    let mut elapsed = 0.0;
    at_depth(depth, &mut || {
        let start = Instant::now();
        run();
        elapsed = start.elapsed().as_secs_f64();
    });
    elapsed * 1e6 / job.calls() as f64
}

/// Runs something with the stack lower by a small frame for each level. The
/// fence keeps the compiler from making a jump of the call.
#[inline(never)]
fn at_depth(depth: usize, run: &mut dyn FnMut()) {
    if depth == 0 {
        return run();
    }
    at_depth(depth - 1, run);
    compiler_fence(Ordering::SeqCst);
}

fn quartiles(mut samples: Vec<f64>) -> [f64; 3] {
    samples.sort_by(f64::total_cmp);
    [1, 2, 3].map(|quarter| samples[(samples.len() - 1) * quarter / 4])
}
