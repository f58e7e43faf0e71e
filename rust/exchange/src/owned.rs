//! A judge with a work area of its own.

use crate::{Answer, Capacity, Question, Refusal, Verdict};
use alloc::vec;
use alloc::vec::Vec;

/// One of the operations that judge.
type Judging = fn(&[u8], u64, &mut [u8]) -> Result<Answer<Verdict>, Refusal>;

/// A capacity and the work area that it needs, for one judging after another.
///
/// ```
/// use exchange::{Answer, Capacity, Judge, Question, Verdict};
///
/// // τ.0 + [a=b]τ.0 and τ.0
/// let bytes = [1, 0, 0, 8, 6, 1, 0, 5, 0, 1, 1, 0, 0, 2, 1, 0, 0, 0];
/// let mut judge = Judge::new(Capacity::default());
/// assert_eq!(judge.judge(Question::new(&bytes)?), Answer::Result(Verdict::Same(2)));
/// # Ok::<(), exchange::Refusal>(())
/// ```
#[derive(Clone, Debug)]
pub struct Judge {
    capacity: Capacity,
    work: Vec<u8>,
}

impl Judge {
    /// A judge of this capacity.
    #[must_use]
    pub fn new(capacity: Capacity) -> Judge {
        Judge { capacity, work: vec![0; capacity.work_bytes()] }
    }

    /// Its capacity.
    #[must_use]
    pub fn capacity(&self) -> Capacity {
        self.capacity
    }

    /// Judges the question, as [`judge`](crate::judge) does.
    pub fn judge(&mut self, question: Question<'_>) -> Answer<Verdict> {
        self.by(crate::judge, question)
    }

    /// Judges the question with names that stay different, as [`judge_late`](crate::judge_late)
    /// does.
    pub fn judge_late(&mut self, question: Question<'_>) -> Answer<Verdict> {
        self.by(crate::judge_late, question)
    }

    /// The same as [`judge_early`](crate::judge_early) does.
    pub fn judge_early(&mut self, question: Question<'_>) -> Answer<Verdict> {
        self.by(crate::judge_early, question)
    }

    fn by(&mut self, operation: Judging, question: Question<'_>) -> Answer<Verdict> {
        operation(question.bytes(), self.capacity.situations(), &mut self.work)
            .expect("capacity, work area and question pass the rules 1 to 12")
    }
}

/// A judge of the default capacity.
impl Default for Judge {
    fn default() -> Judge {
        Judge::new(Capacity::default())
    }
}
