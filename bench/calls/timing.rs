//! A call of the library beside plain Rust, in turn and in one process.

use std::fmt::Debug;
use std::time::{Duration, Instant};

fn timed<A>(call: impl FnOnce() -> A) -> (Duration, A) {
    let start = Instant::now();
    let answer = call();
    (start.elapsed(), answer)
}

/// The least time of each of the two in so many runs in turn. Their answers are to be equal.
pub fn beside<A: PartialEq + Debug>(runs: u32, mut plain: impl FnMut() -> A, mut library: impl FnMut() -> A) -> (Duration, Duration) {
    let mut least = (Duration::MAX, Duration::MAX);
    for _ in 0..runs {
        let (time, wanted) = timed(&mut plain);
        least.0 = least.0.min(time);
        let (time, answer) = timed(&mut library);
        least.1 = least.1.min(time);
        assert!(answer == wanted, "the answers differ");
    }
    least
}

/// Prints the times of so many calls each, and the ratio.
pub fn print_times(part: &str, calls: u32, (plain, library): (Duration, Duration)) {
    let of_one = |time: Duration| 1e6 * time.as_secs_f64() / f64::from(calls);
    let ratio = library.as_secs_f64() / plain.as_secs_f64();
    println!("{part:<44} plain {:>10.1} us  library {:>10.1} us  ratio {ratio:.2}", of_one(plain), of_one(library));
}

/// Prints the same as megabytes a second.
pub fn print_speeds(part: &str, bytes: usize, (plain, library): (Duration, Duration)) {
    let speed = |time: Duration| bytes as f64 / 1e6 / time.as_secs_f64();
    let ratio = library.as_secs_f64() / plain.as_secs_f64();
    println!("{part:<44} plain {:>8.0} MB/s  library {:>8.0} MB/s  ratio {ratio:.2}", speed(plain), speed(library));
}
