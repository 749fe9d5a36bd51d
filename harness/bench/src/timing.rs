//! Times of one call, by the port and by the original in turn.

use std::hint::black_box;
use std::time::{Duration, Instant};

const SAMPLES: usize = 21;
/// A sample is as many calls as last about so long, or one.
const SAMPLE: Duration = Duration::from_millis(5);

/// Microseconds a call, of each sample.
pub type Samples = Vec<f64>;

/// The samples of both sides; those of the original where it has such a call.
pub struct Times {
    pub port: Samples,
    pub rust: Option<Samples>,
}

/// Some calls in a row: the time they took, and what of it was spent on getting inputs ready.
type Batch<'a> = Box<dyn FnMut(usize) -> (Duration, Duration) + 'a>;

fn whole<'a>(mut call: impl FnMut() + 'a) -> Batch<'a> {
    Box::new(move |calls| {
        let begun = Instant::now();
        for _ in 0..calls {
            call();
        }
        (begun.elapsed(), Duration::ZERO)
    })
}

fn less<'a>(mut call: impl FnMut() -> Duration + 'a) -> Batch<'a> {
    Box::new(move |calls| {
        let (begun, mut less) = (Instant::now(), Duration::ZERO);
        for _ in 0..calls {
            less += call();
        }
        (begun.elapsed(), less)
    })
}

/// How many calls a sample has. What is run to find out also fills the caches.
fn calls(batch: &mut Batch) -> usize {
    let mut calls = 1;
    loop {
        let spent = batch(calls).0;
        if spent >= SAMPLE / 4 {
            let one = spent.as_secs_f64() / calls as f64;
            return ((SAMPLE.as_secs_f64() / one).round() as usize).max(1);
        }
        calls *= 2;
    }
}

fn in_turn<const SIDES: usize>(mut sides: [Batch; SIDES]) -> [Samples; SIDES] {
    let calls = sides.each_mut().map(calls);
    let mut samples = [(); SIDES].map(|_| Vec::new());
    for _ in 0..SAMPLES {
        for ((side, &calls), samples) in sides.iter_mut().zip(&calls).zip(&mut samples) {
            let (spent, less) = side(calls);
            samples.push((spent.as_secs_f64() - less.as_secs_f64()) * 1e6 / calls as f64);
        }
    }
    samples
}

/// An export that the original has no call like.
pub fn alone(port: impl FnMut()) -> Times {
    let [port] = in_turn([whole(port)]);
    Times { port, rust: None }
}

/// Both sides, sample by sample in turn.
pub fn side_by_side(port: impl FnMut(), rust: impl FnMut()) -> Times {
    let [port, rust] = in_turn([whole(port), whole(rust)]);
    Times { port, rust: Some(rust) }
}

/// The same, less the time that each call says was spent on getting its inputs ready.
pub fn side_by_side_less(port: impl FnMut() -> Duration, rust: impl FnMut() -> Duration) -> Times {
    let [port, rust] = in_turn([less(port), less(rust)]);
    Times { port, rust: Some(rust) }
}

/// The same, with what the original's call can't be made without timed in its turn as well and taken off.
pub fn side_by_side_but(port: impl FnMut(), rust: impl FnMut(), but: impl FnMut()) -> Times {
    let [port, rust, but] = in_turn([whole(port), whole(rust), whole(but)]);
    Times { port, rust: Some(rust.iter().zip(but).map(|(rust, but)| rust - but).collect()) }
}

/// The median, and half the distance between the quartiles in percent of it.
pub fn median(mut samples: Samples) -> (f64, f64) {
    samples.sort_by(f64::total_cmp);
    let quarter = |count: usize| samples[count * (samples.len() - 1) / 4];
    (quarter(2), 50.0 * (quarter(3) - quarter(1)) / quarter(2).abs())
}

/// Keeps the processor at work for a while: in the first of it the same calls can take twice as long.
pub fn warm_up() {
    let (begun, mut sum) = (Instant::now(), 0u64);
    while begun.elapsed() < Duration::from_secs(1) {
        sum = (0..10_000).fold(sum, |sum, x| black_box(sum.wrapping_mul(31).wrapping_add(x)));
    }
    black_box(sum);
}

/// Keeps freed memory, of blocks up to 32 MB, instead of handing it back to the system.
#[cfg(target_env = "gnu")]
pub fn keep_memory() {
    extern "C" {
        fn mallopt(parameter: i32, value: i32) -> i32;
    }
    const TRIM_THRESHOLD: i32 = -1;
    const MMAP_THRESHOLD: i32 = -3;
    unsafe {
        mallopt(TRIM_THRESHOLD, i32::MAX);
        mallopt(MMAP_THRESHOLD, 1 << 25);
    }
}

#[cfg(not(target_env = "gnu"))]
pub fn keep_memory() {}
