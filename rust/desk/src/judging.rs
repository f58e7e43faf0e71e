//! Many files judged at once.

use crate::input::{self, Found, Unreadable};
use crate::words::counted;
use exchange::{Answer, Capacity, Judge, Question, Verdict};
use std::io::{self, IsTerminal, Write};
use std::sync::atomic::{AtomicUsize, Ordering};
use std::sync::mpsc::{channel, Receiver, RecvTimeoutError};
use std::thread;
use std::time::{Duration, Instant};

/// From when on and how often a terminal is told how far the work is.
const PATIENCE: Duration = Duration::from_secs(1);
const PAUSE: Duration = Duration::from_millis(200);

/// Which relation the parts are judged by: open bisimilarity, or late or early bisimilarity, in
/// which different names stay different and the names held apart play no part.
#[derive(Clone, Copy, Default, PartialEq, Eq, Debug)]
pub enum Relation {
    /// Open bisimilarity.
    #[default]
    Open,
    /// Late bisimilarity.
    Late,
    /// Early bisimilarity.
    Early,
}

/// What came of a file.
#[derive(Clone, PartialEq, Eq, Debug)]
pub enum Outcome {
    /// What the library answers.
    Judged(Answer<Verdict>),
    /// Why nothing was asked.
    Unreadable(Unreadable),
}

impl Outcome {
    /// The exit status: 0 same, 1 different, 2 unsettled, 3 refused or unreadable.
    pub fn status(&self) -> u8 {
        match self {
            Outcome::Judged(answer) => status(answer),
            Outcome::Unreadable(_) => 3,
        }
    }
}

/// The exit status of an answer.
pub fn status(answer: &Answer<Verdict>) -> u8 {
    match answer {
        Answer::Result(Verdict::Same(_)) => 0,
        Answer::Result(Verdict::Different(_)) => 1,
        Answer::Unsettled => 2,
    }
}

/// The outcome of each file, worst first.
pub fn judged(found: Found, relation: Relation, capacity: Capacity) -> Vec<(String, Outcome)> {
    let answers = at_once(
        &found.files,
        |judge: &mut Judge, file| outcome(file, relation, judge),
        || Judge::new(capacity),
    );
    let mut outcomes: Vec<(String, Outcome)> = found.files.into_iter().zip(answers).collect();
    let unreadable = found.unreadable.into_iter();
    outcomes.extend(unreadable.map(|reason| (String::new(), Outcome::Unreadable(reason))));
    outcomes.sort_by_key(|(_, outcome)| std::cmp::Reverse(outcome.status()));
    outcomes
}

fn outcome(file: &str, relation: Relation, judge: &mut Judge) -> Outcome {
    let exchange = match input::exchange(file) {
        Ok(exchange) => exchange,
        Err(unreadable) => return Outcome::Unreadable(unreadable),
    };
    match Question::new(&exchange.bytes()) {
        Ok(question) => Outcome::Judged(match relation {
            Relation::Open => judge.judge(question),
            Relation::Late => judge.judge_late(question),
            Relation::Early => judge.judge_early(question),
        }),
        Err(refusal) => Outcome::Unreadable(Unreadable::refused(file, refusal)),
    }
}

/// The line of an outcome.
pub fn line(file: &str, outcome: &Outcome) -> String {
    match outcome {
        Outcome::Judged(Answer::Unsettled) => format!("{:14} {file}", "unsettled"),
        Outcome::Judged(answer) => format!("{:14} {file}", answer.to_string()),
        Outcome::Unreadable(reason) => format!("{:14} {}", reason.word(), reason.line),
    }
}

/// The last line: how many of each.
pub fn counts(outcomes: &[(String, Outcome)]) -> String {
    let of = |status| outcomes.iter().filter(|(_, outcome)| outcome.status() == status).count();
    let files = counted(outcomes.len(), "file");
    format!(
        "{files}: {} same, {} different, {} unsettled, {} refused or unreadable",
        of(0),
        of(1),
        of(2),
        of(3)
    )
}

/// Does a piece of work for each file on as many threads as the machine runs at once, each with
/// a tool of its own. The results stand in the order of the files.
pub fn at_once<Tool, Result: Send>(
    files: &[String],
    work: impl Fn(&mut Tool, &str) -> Result + Sync,
    tool: impl Fn() -> Tool + Sync,
) -> Vec<Result> {
    let threads = thread::available_parallelism().map_or(1, usize::from).min(files.len());
    let next = AtomicUsize::new(0);
    let (done, results) = channel();
    thread::scope(|scope| {
        for _ in 0..threads {
            let done = done.clone();
            let (next, work, tool) = (&next, &work, &tool);
            scope.spawn(move || {
                let mut tool = tool();
                while let Some((place, file)) = taken(next, files) {
                    let _ = done.send((place, work(&mut tool, file)));
                }
            });
        }
        drop(done);
        gathered(&results, files.len())
    })
}

/// The next file that no thread has taken.
fn taken<'a>(next: &AtomicUsize, files: &'a [String]) -> Option<(usize, &'a str)> {
    let place = next.fetch_add(1, Ordering::Relaxed);
    files.get(place).map(|file| (place, file.as_str()))
}

/// All results in order. A terminal is told how far the work is, once it takes long.
fn gathered<Result>(results: &Receiver<(usize, Result)>, count: usize) -> Vec<Result> {
    let begun = Instant::now();
    let mut told = begun;
    let mut gathered: Vec<(usize, Result)> = Vec::with_capacity(count);
    let is_terminal = io::stderr().is_terminal();
    loop {
        match results.recv_timeout(PAUSE) {
            Ok(result) => gathered.push(result),
            Err(RecvTimeoutError::Timeout) => {}
            Err(RecvTimeoutError::Disconnected) => break,
        }
        if is_terminal && begun.elapsed() > PATIENCE && told.elapsed() > PAUSE {
            told = Instant::now();
            let _ = write!(io::stderr(), "\r{} of {count} files", gathered.len());
        }
    }
    if told != begun {
        let _ = write!(io::stderr(), "\r\x1b[K");
    }
    gathered.sort_by_key(|&(place, _)| place);
    gathered.into_iter().map(|(_, result)| result).collect()
}
