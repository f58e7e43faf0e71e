//! The proved exchange judge and the reference, run side by side. The functions are those of the
//! reference. Each runs both, and panics unless they give the same answer, leave the same bytes in
//! the lent area, and the proved library has touched neither the question nor a byte around what
//! it was lent.

#![deny(missing_docs)]
#![forbid(unsafe_code)]

mod guarded;
pub mod proved;

pub use reference::*;

use guarded::Guarded;

/// Checks a question.
pub fn check(question: &[u8]) -> Answer {
    let reference = |question: &[u8], _: &mut [u8]| reference::check(question);
    both(question, &mut [], |question, _| proved::check(question), reference)
}

/// Lists the steps of side 1 or 2.
pub fn steps(question: &[u8], side: u64, new_name: u64, area: &mut [u8]) -> Answer {
    both(
        question,
        area,
        |question, area| proved::steps(question, side, new_name, area),
        |question, area| reference::steps(question, side, new_name, area),
    )
}

/// Merges two names.
pub fn merge(question: &[u8], a: u64, b: u64, area: &mut [u8]) -> Answer {
    both(
        question,
        area,
        |question, area| proved::merge(question, a, b, area),
        |question, area| reference::merge(question, a, b, area),
    )
}

/// Sets a third part beside both sides.
pub fn beside(question: &[u8], third: &[u8], area: &mut [u8]) -> Answer {
    let lent_third = Guarded::copy(third);
    let answer = both(
        question,
        area,
        |question, area| proved::beside(question, lent_third.bytes(), area),
        |question, area| reference::beside(question, third, area),
    );
    lent_third.assert_holds(third, "the third part");
    answer
}

/// Writes a question of edition two in edition one.
pub fn convert_down(question: &[u8], area: &mut [u8]) -> Answer {
    both(question, area, proved::convert_down, reference::convert_down)
}

/// Writes a question of edition one in edition two.
pub fn convert_up(question: &[u8], area: &mut [u8]) -> Answer {
    both(question, area, proved::convert_up, reference::convert_up)
}

/// Judges a question.
pub fn judge(question: &[u8], capacity: u64, work: &mut [u8]) -> Answer {
    both(
        question,
        work,
        |question, work| proved::judge(question, capacity, work),
        |question, work| reference::judge(question, capacity, work),
    )
}

/// Judges whether the parts are late bisimilar.
pub fn judge_late(question: &[u8], capacity: u64, work: &mut [u8]) -> Answer {
    both(
        question,
        work,
        |question, work| proved::judge_late(question, capacity, work),
        |question, work| reference::judge_late(question, capacity, work),
    )
}

/// Judges whether the parts are early bisimilar.
pub fn judge_early(question: &[u8], capacity: u64, work: &mut [u8]) -> Answer {
    both(
        question,
        work,
        |question, work| proved::judge_early(question, capacity, work),
        |question, work| reference::judge_early(question, capacity, work),
    )
}

/// Finds the fewest pairs to hold apart.
pub fn apart(
    question: &[u8],
    capacity: u64,
    names: &[u8],
    work: &mut [u8],
    area: &mut [u8],
) -> Answer {
    let lent_names = Guarded::copy(names);
    let mut lent_work = Guarded::copy(work);
    let answer = both(
        question,
        area,
        |question, area| {
            proved::apart(question, capacity, lent_names.bytes(), lent_work.bytes_mut(), area)
        },
        |question, area| reference::apart(question, capacity, names, work, area),
    );
    lent_names.assert_holds(names, "the names");
    lent_work.assert_holds(work, "the work area");
    answer
}

/// Runs an operation of the proved library on copies, and of the reference on the arguments.
fn both(
    question: &[u8],
    area: &mut [u8],
    proved: impl FnOnce(&[u8], &mut [u8]) -> Answer,
    reference: impl FnOnce(&[u8], &mut [u8]) -> Answer,
) -> Answer {
    let lent_question = Guarded::copy(question);
    let mut lent_area = Guarded::copy(area);
    let proved = proved(lent_question.bytes(), lent_area.bytes_mut());
    let answer = reference(question, area);
    assert_eq!(proved, answer, "proved and reference, for the question {question:02x?}");
    lent_question.assert_holds(question, "the question");
    lent_area.assert_holds(area, "the lent area");
    answer
}
