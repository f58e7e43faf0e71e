//! What a search over 64 choices of pairs costs beside 64 judgings of the same question.

use crate::clock;
use crate::task::{Operation, Task};
use crate::workloads::Workload;
use compare::{proved, Answer, APART_BYTES, SITUATION_BYTES};
use std::time::Duration;

/// Four names that the questions of these workloads do not use, so that every choice has the
/// same field.
const NAMES: [u8; 4] = [12, 13, 14, 15];
const CHOICES: u32 = 64;
/// How many samples of each are taken; the shortest counts.
const SAMPLES: usize = 9;

/// Prints a row for each workload: the search as a share of 64 judgings.
pub fn print<'a>(workloads: impl Iterator<Item = &'a Workload>) {
    println!("| workload | 64 judgings | search | ratio |");
    println!("|---|---:|---:|---:|");
    for workload in workloads {
        let mut judged = Duration::MAX;
        let mut searched = Duration::MAX;
        for _ in 0..SAMPLES {
            judged = judged.min(workload.tasks.iter().map(judgings).sum());
            searched = searched.min(workload.tasks.iter().map(search).sum());
        }
        let ratio = searched.as_secs_f64() / judged.as_secs_f64();
        println!("| {} | {judged:.1?} | {searched:.1?} | {ratio:.3} |", workload.name);
    }
}

fn capacity(task: &Task) -> u64 {
    match task.operation {
        Operation::Judge { capacity, .. } => capacity,
        Operation::List { .. } => unreachable!("these workloads judge"),
    }
}

fn judgings(task: &Task) -> Duration {
    let capacity = capacity(task);
    let mut work = vec![0; (SITUATION_BYTES * capacity) as usize];
    let start = clock::now();
    for _ in 0..CHOICES {
        let _: Answer = proved::judge(&task.question, capacity, &mut work);
    }
    clock::now() - start
}

fn search(task: &Task) -> Duration {
    let capacity = capacity(task);
    let mut work = vec![0; (SITUATION_BYTES * capacity) as usize];
    let mut area = [0; APART_BYTES];
    let start = clock::now();
    let _: Answer = proved::apart(&task.question, capacity, &NAMES, &mut work, &mut area);
    clock::now() - start
}
