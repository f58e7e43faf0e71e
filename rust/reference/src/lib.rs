//! A second implementation of the exchange judge, written from its paper alone and apart from the
//! proved one. It parses a question into trees, works on trees and names, and prints them back.
//!
//! The ten operations take numbers and byte areas and answer with an [`Answer`].

#![deny(missing_docs)]
#![forbid(unsafe_code)]

mod answer;
mod condition;
mod fewest;
mod field;
mod form;
mod judge;
mod question;
mod steps;
mod term;
pub mod untidied;

pub use answer::{Answer, Check};
pub use condition::NAMES;
pub use judge::{CAPACITY, SITUATION_BYTES};
pub use question::{APART_BYTES, ARITY, DEFINITIONS, PART_BYTES, QUESTION_BYTES};
pub use steps::{Listed, STEPS, STEP_BYTES};

use condition::{Apart, Condition};
use field::Kind;
use form::Form;
use question::Question;
use term::{Edition, Shape, Term};

/// Checks a question: 0, or the first check that turns it back.
pub fn check(question: &[u8]) -> Answer {
    match Question::read(question) {
        Ok(_) => Answer::Result(0),
        Err(check) => check.into(),
    }
}

/// Lists the steps of side 1 or 2 with the given new name, and answers their count.
pub fn steps(question: &[u8], side: u64, new_name: u64, area: &mut [u8]) -> Answer {
    steps_in(Form::Tidied, question, side, new_name, area)
}

/// The same with results in a form.
fn steps_in(form: Form, question: &[u8], side: u64, new_name: u64, area: &mut [u8]) -> Answer {
    let (part, new, question) = match side_to_list(question, side, new_name) {
        Ok(found) => found,
        Err(check) => return check.into(),
    };
    if area.len() < STEPS * STEP_BYTES {
        return Check::ResultArea.into();
    }
    let Some(listed) = list(&part, new, &question, form) else {
        return Answer::Unsettled;
    };
    for (place, step) in area.chunks_exact_mut(STEP_BYTES).zip(&listed) {
        place.copy_from_slice(&step.bytes());
    }
    Answer::Result(listed.len() as u64)
}

/// The steps of side 1 or 2 as values, in the order in which they are listed. An error is the
/// answer of the listing.
pub fn listed_steps(question: &[u8], side: u64, new_name: u64) -> Result<Vec<Listed>, Answer> {
    let (part, new, question) = side_to_list(question, side, new_name)?;
    list(&part, new, &question, Form::Tidied).ok_or(Answer::Unsettled)
}

/// Checks 3 to 13: the part to list and the new name.
fn side_to_list(bytes: &[u8], side: u64, new_name: u64) -> Result<(Term, u8, Question), Check> {
    let question = Question::read(bytes)?;
    let part = match side {
        1 => question.first.clone(),
        2 => question.second.clone(),
        _ => return Err(Check::Listing),
    };
    match name(new_name) {
        Some(new) if !part.names().has(new) => Ok((part, new, question)),
        _ => Err(Check::Listing),
    }
}

/// The listed steps in ascending byte order, or nothing if they are beyond the limits.
fn list(part: &Term, new: u8, question: &Question, form: Form) -> Option<Vec<Listed>> {
    let steps = steps::steps(part, &question.definitions, form)?;
    let mut listed: Vec<Listed> = steps.iter().map(|step| Listed::of(step, new)).collect();
    listed.sort_by_cached_key(Listed::bytes);
    Some(listed)
}

/// Replaces the larger of two names by the smaller, free in both parts and in the apart list,
/// and answers the length of the question written.
pub fn merge(question: &[u8], a: u64, b: u64, area: &mut [u8]) -> Answer {
    let written = merged(question, a, b).and_then(|question| write(&question, area));
    written.map_or_else(Answer::from, Answer::Result)
}

/// Checks 3 to 14 and the merged question.
fn merged(bytes: &[u8], a: u64, b: u64) -> Result<Question, Check> {
    let question = Question::read(bytes)?;
    let (Some(a), Some(b)) = (name(a), name(b)) else {
        return Err(Check::Merging);
    };
    if Apart::of(&question.apart).has(a, b) {
        return Err(Check::Merging);
    }
    let condition = Condition::EMPTY.merged(a, b);
    let apart = question.apart.iter().map(|&(a, b)| (condition.class(a), condition.class(b)));
    Ok(Question {
        first: question.first.rewritten(&condition),
        second: question.second.rewritten(&condition),
        apart: apart.collect(),
        definitions: question.definitions,
        edition: question.edition,
    })
}

/// Sets a third part beside both sides, and answers the length of the question written.
pub fn beside(question: &[u8], third: &[u8], area: &mut [u8]) -> Answer {
    let written = with_third(question, third).and_then(|question| write(&question, area));
    written.map_or_else(Answer::from, Answer::Result)
}

/// Checks 3 to 12, 6 to 10 for the third part, and the question with it.
fn with_third(bytes: &[u8], third: &[u8]) -> Result<Question, Check> {
    let question = Question::read(bytes)?;
    let third = question.third(third)?;
    let beside = |side: Term| Term::new(Shape::Parallel(side, third.clone()));
    Ok(Question { first: beside(question.first), second: beside(question.second), ..question })
}

/// Writes a question of edition two in edition one, and answers the length written.
pub fn convert_down(question: &[u8], area: &mut [u8]) -> Answer {
    convert(question, Edition::Two, area)
}

/// Writes a question of edition one in edition two, and answers the length written.
pub fn convert_up(question: &[u8], area: &mut [u8]) -> Answer {
    convert(question, Edition::One, area)
}

/// Checks 3 to 12 of a question of this edition, 17 and 15.
fn convert(question: &[u8], from: Edition, area: &mut [u8]) -> Answer {
    let converted = Question::read_in(question, from).and_then(Question::converted);
    let written = converted.and_then(|question| write(&question, area));
    written.map_or_else(Answer::from, Answer::Result)
}

/// Judges a question: whether its parts are open bisimilar under its apart list.
pub fn judge(question: &[u8], capacity: u64, work: &mut [u8]) -> Answer {
    judge_in(Form::Tidied, Kind::Open, question, capacity, work)
}

/// Judges whether the parts of a question are late bisimilar; its apart list is only checked.
pub fn judge_late(question: &[u8], capacity: u64, work: &mut [u8]) -> Answer {
    judge_in(Form::Tidied, Kind::Late, question, capacity, work)
}

/// Judges whether the parts of a question are early bisimilar; its apart list is only checked.
pub fn judge_early(question: &[u8], capacity: u64, work: &mut [u8]) -> Answer {
    judge_in(Form::Tidied, Kind::Early, question, capacity, work)
}

/// Judges with results in a form.
fn judge_in(form: Form, kind: Kind, question: &[u8], capacity: u64, work: &mut [u8]) -> Answer {
    judge::judge(question, kind, form, capacity, work).unwrap_or_else(Answer::from)
}

/// Finds the fewest pairs of the names that, held apart besides, make the parts the same, and
/// answers the length of the enlarged list written.
pub fn apart(
    question: &[u8],
    capacity: u64,
    names: &[u8],
    work: &mut [u8],
    area: &mut [u8],
) -> Answer {
    apart_in(Form::Tidied, question, capacity, names, work, area)
}

/// The same with results in a form.
fn apart_in(
    form: Form,
    question: &[u8],
    capacity: u64,
    names: &[u8],
    work: &mut [u8],
    area: &mut [u8],
) -> Answer {
    let found = fewest::apart(question, form, capacity, names, work, area);
    found.unwrap_or_else(Answer::from)
}

/// A number given as a free name.
fn name(number: u64) -> Option<u8> {
    u8::try_from(number).ok().filter(|&name| usize::from(name) < NAMES)
}

/// Check 15, then the question at the front of the area; its length.
fn write(question: &Question, area: &mut [u8]) -> Result<u64, Check> {
    let bytes = question.bytes();
    let place = area.get_mut(..bytes.len()).ok_or(Check::ResultArea)?;
    place.copy_from_slice(&bytes);
    Ok(bytes.len() as u64)
}
