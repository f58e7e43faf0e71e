//! Timing a workload.

use crate::clock;
use crate::task::{Implementation, Task};
use crate::workloads::{assert_accepted, Workload};
use compare::Answer;
use std::time::Duration;

/// How long a sample should last at the least: shorter workloads are run several times in it.
const SAMPLE: Duration = Duration::from_millis(20);
/// How many samples of each implementation are taken, if they do not take too long.
const SAMPLES: usize = 15;
/// How long the samples of a workload may take before no further are begun.
const PATIENCE: Duration = Duration::from_secs(4);

/// What timing a workload found.
pub struct Timed {
    /// The answers, on which the implementations agree.
    pub answers: Vec<Answer>,
    /// The shortest time of the proved library.
    pub exchange: Duration,
    /// The shortest time of the reference.
    pub reference: Duration,
}

impl Timed {
    /// The proved library's time as a share of the reference's.
    pub fn ratio(&self) -> f64 {
        self.exchange.as_secs_f64() / self.reference.as_secs_f64()
    }
}

/// The areas of a workload and its tasks.
struct Bench<'a> {
    tasks: &'a [Task],
    area: Vec<u8>,
}

impl Bench<'_> {
    fn new(workload: &Workload) -> Bench<'_> {
        assert_accepted(workload);
        let area_bytes = workload.tasks.iter().map(Task::area_bytes).max();
        Bench { tasks: &workload.tasks, area: vec![0; area_bytes.unwrap_or(0)] }
    }

    /// All tasks once. A profiler finds what is measured by this function's name.
    #[inline(never)]
    fn measured(&mut self, implementation: Implementation, answers: &mut Vec<Answer>) {
        for task in self.tasks {
            let area = &mut self.area[..task.area_bytes()];
            answers.push(task.run(implementation, area));
        }
    }

    fn answers(&mut self, implementation: Implementation) -> Vec<Answer> {
        let mut answers = Vec::with_capacity(self.tasks.len());
        self.measured(implementation, &mut answers);
        answers
    }

    /// The time of all tasks once, as the mean of so many rounds.
    fn sample(&mut self, implementation: Implementation, rounds: u32) -> Duration {
        let mut answers = Vec::with_capacity(self.tasks.len());
        let start = clock::now();
        for _ in 0..rounds {
            answers.clear();
            self.measured(implementation, &mut answers);
        }
        (clock::now() - start) / rounds
    }
}

/// The answers of a workload, run once.
pub fn run_once(workload: &Workload, implementation: Implementation) -> Vec<Answer> {
    Bench::new(workload).answers(implementation)
}

/// The processor time of a workload with both implementations in turn.
///
/// # Panics
/// If they do not agree.
pub fn timed(workload: &Workload) -> Timed {
    const BOTH: [Implementation; 2] = [Implementation::Exchange, Implementation::Reference];
    let mut bench = Bench::new(workload);
    let [answers, expected] = BOTH.map(|implementation| bench.answers(implementation));
    assert_eq!(answers, expected, "{}", workload.name);
    let start = clock::now();
    let mut shortest = BOTH.map(|implementation| bench.sample(implementation, 1));
    let rounds = shortest.map(|once| (SAMPLE.as_nanos() / once.as_nanos().max(1)) as u32 + 1);
    for _ in 1..SAMPLES {
        if clock::now() - start > PATIENCE {
            break;
        }
        for (place, implementation) in BOTH.into_iter().enumerate() {
            let sample = bench.sample(implementation, rounds[place]);
            shortest[place] = shortest[place].min(sample);
        }
    }
    let [exchange, reference] = shortest;
    Timed { answers, exchange, reference }
}
