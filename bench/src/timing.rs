//! How long calls take.

use std::time::{Duration, Instant};

const ROUNDS: u32 = 30;
const SPAN: Duration = Duration::from_millis(20);
/// A turn is at least about so long: reading the clock takes some hundredths of a microsecond.
const TURN: Duration = Duration::from_micros(10);

/// Microseconds of the fastest of many rounds for each call. They take turns, so that a slow spell of the machine meets all of them.
pub fn least(calls: usize, mut call: impl FnMut(usize)) -> Vec<f64> {
    let mut turn = |number: usize, times: u32| {
        let start = Instant::now();
        (0..times).for_each(|_| call(number));
        start.elapsed() / times
    };
    let repeated = |time: Duration| (TURN.as_nanos() / time.as_nanos().max(1)).clamp(1, 100) as u32;
    let times: Vec<u32> = (0..calls).map(|number| repeated(turn(number, 3))).collect();
    let mut least = vec![Duration::MAX; calls];
    let begun = Instant::now();
    let mut rounds = 0;
    while rounds < ROUNDS || begun.elapsed() < SPAN * calls as u32 {
        for (number, least) in least.iter_mut().enumerate() {
            *least = turn(number, times[number]).min(*least);
        }
        rounds += 1;
    }
    least.iter().map(|time| time.as_secs_f64() * 1e6).collect()
}

/// The same for a number of calls that is known.
pub fn least_of_each<const N: usize>(call: impl FnMut(usize)) -> [f64; N] {
    least(N, call).try_into().expect("N times")
}
