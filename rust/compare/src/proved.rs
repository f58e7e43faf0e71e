//! The proved library with the signatures and answers of the reference.

use exchange::{Refusal, Verdict};
use reference::Answer;

/// Checks a question.
pub fn check(question: &[u8]) -> Answer {
    exchange::check(question).map_or_else(refused, |()| Answer::Result(0))
}

/// Lists the steps of side 1 or 2.
pub fn steps(question: &[u8], side: u64, new_name: u64, area: &mut [u8]) -> Answer {
    match exchange::steps(question, side, new_name, area) {
        Ok(exchange::Answer::Result(count)) => Answer::Result(count as u64),
        Ok(exchange::Answer::Unsettled) => Answer::Unsettled,
        Err(refusal) => refused(refusal),
    }
}

/// Merges two names.
pub fn merge(question: &[u8], a: u64, b: u64, area: &mut [u8]) -> Answer {
    written(exchange::merge(question, a, b, area))
}

/// Sets a third part beside both sides.
pub fn beside(question: &[u8], third: &[u8], area: &mut [u8]) -> Answer {
    written(exchange::beside(question, third, area))
}

/// Writes a question of edition two in edition one.
pub fn convert_down(question: &[u8], area: &mut [u8]) -> Answer {
    written(exchange::convert_down(question, area))
}

/// Writes a question of edition one in edition two.
pub fn convert_up(question: &[u8], area: &mut [u8]) -> Answer {
    written(exchange::convert_up(question, area))
}

/// Judges a question.
pub fn judge(question: &[u8], capacity: u64, work: &mut [u8]) -> Answer {
    judged(exchange::judge(question, capacity, work))
}

/// Judges whether the parts are late bisimilar.
pub fn judge_late(question: &[u8], capacity: u64, work: &mut [u8]) -> Answer {
    judged(exchange::judge_late(question, capacity, work))
}

/// Judges whether the parts are early bisimilar.
pub fn judge_early(question: &[u8], capacity: u64, work: &mut [u8]) -> Answer {
    judged(exchange::judge_early(question, capacity, work))
}

/// Finds the fewest pairs to hold apart.
pub fn apart(
    question: &[u8],
    capacity: u64,
    names: &[u8],
    work: &mut [u8],
    area: &mut [u8],
) -> Answer {
    match exchange::apart(question, capacity, names, work, area) {
        Ok(exchange::Answer::Result(Some(length))) => Answer::Result(length as u64),
        Ok(exchange::Answer::Result(None)) => Answer::None,
        Ok(exchange::Answer::Unsettled) => Answer::Unsettled,
        Err(refusal) => refused(refusal),
    }
}

fn judged(answer: Result<exchange::Answer<Verdict>, Refusal>) -> Answer {
    match answer {
        Ok(exchange::Answer::Result(Verdict::Same(size))) => Answer::Same(size as u64),
        Ok(exchange::Answer::Result(Verdict::Different(size))) => Answer::Different(size as u64),
        Ok(exchange::Answer::Unsettled) => Answer::Unsettled,
        Err(refusal) => refused(refusal),
    }
}

fn written(answer: Result<usize, Refusal>) -> Answer {
    answer.map_or_else(refused, |length| Answer::Result(length as u64))
}

fn refused(refusal: Refusal) -> Answer {
    Answer::Refused(refusal.rule())
}
