//! The seeds of a test, and the environment variables that move and multiply them.

use crate::random::Random;
use std::env;

/// The environment variable with the first seed; 0 if it is not set.
pub const SEED: &str = "EXCHANGE_SEED";
/// The environment variable with the number by which every count of seeds is multiplied; 1 if it
/// is not set.
pub const TIMES: &str = "EXCHANGE_TIMES";

/// Runs a test with the generator of each seed. It prints the seeds, and the one that failed.
pub fn each_seed(count: u64, mut test: impl FnMut(&mut Random)) {
    let first = number(SEED).unwrap_or(0);
    let count = count * number(TIMES).unwrap_or(1);
    println!("seeds from {SEED}={first}, {count} of them");
    for seed in (0..count).map(|place| first.wrapping_add(place)) {
        let _failing = Failing(seed);
        test(&mut Random::new(seed));
    }
}

fn number(variable: &str) -> Option<u64> {
    let text = env::var(variable).ok()?;
    Some(text.parse().unwrap_or_else(|_| panic!("{variable} is no number: {text}")))
}

/// Says the seed if the test panics.
struct Failing(u64);

impl Drop for Failing {
    fn drop(&mut self) {
        if std::thread::panicking() {
            println!("failed at {SEED}={}", self.0);
        }
    }
}
