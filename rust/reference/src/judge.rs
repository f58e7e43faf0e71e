//! The verdict: the situations of the field that no bisimulation relates are struck out.

use crate::answer::{Answer, Check};
use crate::field::{field, Field, Kind};
use crate::form::Form;
use crate::question::Question;

/// The greatest capacity.
pub const CAPACITY: u64 = 4096;
/// The bytes of work area for each situation of the capacity.
pub const SITUATION_BYTES: u64 = 256;

/// Checks 1 to 12, then the verdict.
pub fn judge(
    question: &[u8],
    kind: Kind,
    form: Form,
    capacity: u64,
    work: &mut [u8],
) -> Result<Answer, Check> {
    let used = used(capacity, work)?;
    let question = Question::read(question)?;
    let verdict = verdict(&question, kind, form, capacity);
    work[..used].fill(0);
    Ok(verdict)
}

/// Checks 1 and 2: the bytes of the work area that are used.
pub fn used(capacity: u64, work: &[u8]) -> Result<usize, Check> {
    if !(1..=CAPACITY).contains(&capacity) {
        return Err(Check::Capacity);
    }
    let used = SITUATION_BYTES * capacity;
    if (work.len() as u64) < used {
        return Err(Check::WorkArea);
    }
    Ok(used as usize)
}

/// The verdict on an accepted question.
pub fn verdict(question: &Question, kind: Kind, form: Form, capacity: u64) -> Answer {
    match field(question, kind, form, capacity as usize) {
        None => Answer::Unsettled,
        Some(field) if start_stays(&field) => Answer::Same(field.size() as u64),
        Some(field) => Answer::Different(field.size() as u64),
    }
}

/// Whether the start is in the greatest set of situations in which every demand has an answer
/// that leads into the set alone. A situation goes when the last answer to one of its demands
/// goes, and an answer with the first of its situations.
fn start_stays(field: &Field) -> bool {
    let mut left: Vec<u32> = field.demands.iter().map(|demand| demand.answers).collect();
    let mut lost = vec![false; field.answers.len()];
    let mut struck = vec![false; field.size()];
    let mut going: Vec<u32> = Vec::new();
    let mut strike = |owner: u32, going: &mut Vec<u32>| {
        if !std::mem::replace(&mut struck[owner as usize], true) {
            going.push(owner);
        }
    };
    for demand in field.demands.iter().filter(|demand| demand.answers == 0) {
        strike(demand.owner, &mut going);
    }
    while let Some(gone) = going.pop() {
        for &answer in &field.answering[gone as usize] {
            if std::mem::replace(&mut lost[answer as usize], true) {
                continue;
            }
            let number = field.answers[answer as usize] as usize;
            left[number] -= 1;
            if left[number] == 0 {
                strike(field.demands[number].owner, &mut going);
            }
        }
    }
    !struck[0]
}
