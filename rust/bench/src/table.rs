//! The table of a run.

use crate::timing::{timed, Timed};
use crate::workloads::Workload;
use compare::Answer;
use std::time::Duration;

/// A workload in one line.
pub fn described(workload: &Workload) -> String {
    let note = if workload.on_request { " (only if named)" } else { "" };
    format!("{:15} {}{note}", workload.name, workload.about)
}

/// Times the workloads and prints a row for each as it is done.
pub fn print<'a>(workloads: impl Iterator<Item = &'a Workload>) {
    println!("| workload | n | exchange | reference | ratio | exchange per n |");
    println!("|---|---:|---:|---:|---:|---:|");
    let mut ratios = Vec::new();
    for workload in workloads {
        let timed = timed(workload);
        println!("{}", row(workload.name, &timed));
        ratios.push(timed.ratio());
    }
    println!("| geometric mean | | | | {:.2} | |", geometric_mean(&ratios));
}

fn row(name: &str, timed: &Timed) -> String {
    let size = size(&timed.answers);
    let each = match size {
        0 => String::new(),
        size => time(timed.exchange / size),
    };
    let (exchange, reference) = (time(timed.exchange), time(timed.reference));
    let found = found(&timed.answers);
    format!("| {name} | {found} | {exchange} | {reference} | {:.2} | {each} |", timed.ratio())
}

/// How many situations or steps were found in all.
fn size(answers: &[Answer]) -> u32 {
    let size = |answer: &Answer| match *answer {
        Answer::Same(size) | Answer::Different(size) | Answer::Result(size) => size as u32,
        Answer::Refused(_) | Answer::Unsettled | Answer::None => 0,
    };
    answers.iter().map(size).sum()
}

/// The answer, or what several answers come to.
fn found(answers: &[Answer]) -> String {
    match answers {
        [Answer::Result(count)] => format!("{count} steps"),
        [answer @ (Answer::Same(_) | Answer::Different(_))] => answer.to_string(),
        [_] => "unsettled".into(),
        _ => format!("{} in {}", size(answers), answers.len()),
    }
}

fn geometric_mean(ratios: &[f64]) -> f64 {
    let sum: f64 = ratios.iter().map(|ratio| ratio.ln()).sum();
    (sum / ratios.len() as f64).exp()
}

/// A time with three digits.
fn time(time: Duration) -> String {
    let seconds = time.as_secs_f64();
    let (number, unit) = match seconds {
        1.0.. => (seconds, "s"),
        1e-3.. => (seconds * 1e3, "ms"),
        1e-6.. => (seconds * 1e6, "µs"),
        _ => (seconds * 1e9, "ns"),
    };
    let digits = match number {
        100.0.. => 0,
        10.0.. => 1,
        _ => 2,
    };
    format!("{number:.digits$} {unit}")
}
