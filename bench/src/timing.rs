//! How long readers take.

use crate::reader::Reader;
use std::hint::black_box;
use std::time::Instant;

/// How often each reader goes over the inputs.
pub const ROUNDS: usize = 200;

/// One pass over the inputs: the time of a reader, in nanoseconds.
pub type Pass = fn(&[&[u8]]) -> f64;

/// A reader, and what it reads.
pub type Entrant<'a> = (Pass, &'a [&'a [u8]]);

/// The median time of each pass. The entrants take turns, and each round begins with the next of them, so that the clock of
/// the machine is the same for all.
pub fn race<const N: usize>(entrants: [Entrant<'_>; N]) -> [f64; N] {
    let mut times = [(); N].map(|()| Vec::with_capacity(ROUNDS));
    for round in 0..ROUNDS {
        for turn in 0..N {
            let number = (round + turn) % N;
            let (pass, inputs) = entrants[number];
            times[number].push(pass(inputs));
        }
    }
    times.map(median)
}

/// The time in which a reader reads the inputs, one after another.
pub fn pass<R: Reader>(inputs: &[&[u8]]) -> f64 {
    let start = Instant::now();
    for octets in inputs {
        let _ = black_box(R::read(black_box(octets)));
    }
    start.elapsed().as_nanos() as f64
}

fn median(mut times: Vec<f64>) -> f64 {
    times.sort_by(f64::total_cmp);
    times[times.len() / 2]
}
