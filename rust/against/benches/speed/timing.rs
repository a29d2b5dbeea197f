//! How long a call takes: several sides timed in turn, the best round of each.

use std::time::{Duration, Instant};

/// How often each side is timed, unless that takes too long.
const ROUNDS: usize = 400;

/// How often at least.
const FEWEST_ROUNDS: usize = 40;

/// How long the rounds of one side may take all together, once there were the fewest.
const LONGEST: Duration = Duration::from_secs(1);

/// How long one timing takes at least: short, so that some fall between the work of others.
const TIMING: Duration = Duration::from_micros(800);

/// Something to be timed.
pub trait Side {
    /// The seconds that so many calls take.
    fn seconds(&mut self, calls: u32) -> f64;
}

/// A piece of work gives a number of its answer, so that no call can be left out.
impl<Work: FnMut() -> usize> Side for Work {
    #[inline(never)]
    fn seconds(&mut self, calls: u32) -> f64 {
        let start = Instant::now();
        let sum: usize = (0..calls).map(|_| self()).sum();
        let seconds = start.elapsed().as_secs_f64();
        assert!(sum > 0, "every answer here has a number above 0");
        seconds
    }
}

/// The seconds of one call of each of these, timed in turn; each one's best round counts.
pub fn best(sides: &mut [&mut dyn Side]) -> Vec<f64> {
    let calls: Vec<u32> = sides
        .iter_mut()
        .map(|side| calls_that_last(*side))
        .collect();
    let mut best = vec![f64::INFINITY; sides.len()];
    let (start, longest) = (Instant::now(), LONGEST * sides.len() as u32);
    for round in 0..ROUNDS {
        if round >= FEWEST_ROUNDS && start.elapsed() > longest {
            break;
        }
        for (at, side) in sides.iter_mut().enumerate() {
            let seconds = side.seconds(calls[at]) / f64::from(calls[at]);
            best[at] = best[at].min(seconds);
        }
    }
    best
}

/// How many calls take at least one timing.
fn calls_that_last(side: &mut dyn Side) -> u32 {
    let mut calls = 1;
    while side.seconds(calls) < TIMING.as_secs_f64() {
        calls *= 2;
    }
    calls
}
