//! The operations with the meaning that they had before request 2026-04: results and the parts of a
//! start are as they are. They are for tests that compare the two meanings; check, merge, beside
//! and the converters have one.

use crate::answer::Answer;
use crate::field::Kind;
use crate::form::Form;
use crate::{apart_in, judge_in, steps_in};

/// Lists the steps of side 1 or 2 with the given new name, and answers their count.
pub fn steps(question: &[u8], side: u64, new_name: u64, area: &mut [u8]) -> Answer {
    steps_in(Form::AsItIs, question, side, new_name, area)
}

/// Judges whether the parts of a question are open bisimilar under its apart list.
pub fn judge(question: &[u8], capacity: u64, work: &mut [u8]) -> Answer {
    judge_in(Form::AsItIs, Kind::Open, question, capacity, work)
}

/// Judges whether the parts of a question are late bisimilar.
pub fn judge_late(question: &[u8], capacity: u64, work: &mut [u8]) -> Answer {
    judge_in(Form::AsItIs, Kind::Late, question, capacity, work)
}

/// Judges whether the parts of a question are early bisimilar.
pub fn judge_early(question: &[u8], capacity: u64, work: &mut [u8]) -> Answer {
    judge_in(Form::AsItIs, Kind::Early, question, capacity, work)
}

/// Finds the fewest pairs of the names that, held apart besides, make the parts the same.
pub fn apart(
    question: &[u8],
    capacity: u64,
    names: &[u8],
    work: &mut [u8],
    area: &mut [u8],
) -> Answer {
    apart_in(Form::AsItIs, question, capacity, names, work, area)
}
