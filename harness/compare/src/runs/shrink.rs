//! Makes a failing run shorter: leaves changes out for as long as it still fails.

use std::time::{Duration, Instant};

use crate::runs::memory::RunMemory;
use crate::runs::play::play;
use crate::runs::tally::Tally;
use crate::runs::RunMismatch;

const TIME: Duration = Duration::from_secs(4);

/// The shortest failing run that leaving changes out leads to within a few seconds.
pub fn shrink(mut best: RunMismatch, memory: &mut RunMemory) -> RunMismatch {
    let until = Instant::now() + TIME;
    let mut step = best.scenario.steps.len() / 2;
    while step > 0 && Instant::now() < until {
        let mut shorter = false;
        let mut end = best.scenario.steps.len();
        while end >= step && Instant::now() < until {
            let mut scenario = best.scenario.clone();
            scenario.steps.drain(end - step..end);
            if let Err(failure) = play(&scenario, memory, &mut Tally::new()) {
                best = RunMismatch { scenario, failure, ..best };
                shorter = true;
            }
            end -= step;
        }
        if !shorter || step > best.scenario.steps.len() {
            step /= 2;
        }
    }
    best
}
