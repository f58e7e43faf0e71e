//! Answers, and how they are read from the number that crosses the C boundary.

use crate::refusal::Refusal;
use core::fmt;

/// What an operation with limits answers: a result, or that a limit was passed.
#[must_use]
#[derive(Clone, Copy, PartialEq, Eq, Hash, Debug)]
pub enum Answer<T> {
    /// The result.
    Result(T),
    /// A limit of document 01 was passed: nothing is said of the parts.
    Unsettled,
}

/// What judging says of the two parts. The number is the size of the field: of all situations
/// that the two can reach together.
#[must_use]
#[derive(Clone, Copy, PartialEq, Eq, Hash, Debug)]
pub enum Verdict {
    /// The parts are open bisimilar under the apart list.
    Same(usize),
    /// They are not.
    Different(usize),
}

/// The word and the number that the program `judge` prints.
impl fmt::Display for Verdict {
    fn fmt(&self, f: &mut fmt::Formatter<'_>) -> fmt::Result {
        match self {
            Verdict::Same(size) => write!(f, "same {size}"),
            Verdict::Different(size) => write!(f, "different {size}"),
        }
    }
}

/// The word and the number that the program `judge` prints.
impl fmt::Display for Answer<Verdict> {
    fn fmt(&self, f: &mut fmt::Formatter<'_>) -> fmt::Result {
        match self {
            Answer::Result(verdict) => verdict.fmt(f),
            Answer::Unsettled => write!(f, "unsettled 0"),
        }
    }
}

/// An answer as the library gives it: its kind in the upper half of the number, and in the lower
/// half its own number.
#[derive(Clone, Copy, PartialEq, Eq, Debug)]
pub(crate) enum Coded {
    Result(usize),
    Refused(Refusal),
    Unsettled,
    Verdict(Verdict),
    None,
}

impl<T> Answer<T> {
    /// The result, unless a limit was passed.
    #[must_use]
    pub fn result(self) -> Option<T> {
        match self {
            Answer::Result(result) => Some(result),
            Answer::Unsettled => None,
        }
    }

    /// The answer with another result.
    pub fn map<U>(self, of: impl FnOnce(T) -> U) -> Answer<U> {
        match self {
            Answer::Result(result) => Answer::Result(of(result)),
            Answer::Unsettled => Answer::Unsettled,
        }
    }
}

impl Coded {
    /// The answer of this number, if it is one.
    fn read(code: u64) -> Option<Coded> {
        let number = code as u32 as usize;
        match code >> 32 {
            0 => Some(Coded::Result(number)),
            1 => Refusal::of_rule(number as u64).map(Coded::Refused),
            2 if number == 0 => Some(Coded::Unsettled),
            3 => Some(Coded::Verdict(Verdict::Same(number))),
            4 => Some(Coded::Verdict(Verdict::Different(number))),
            5 if number == 0 => Some(Coded::None),
            _ => None,
        }
    }

    /// The answer of this number, as far as an operation may give it.
    ///
    /// # Panics
    /// If the operation answers no such thing: what is linked is then another library.
    pub(crate) fn answered<T>(
        code: u64,
        may_give: impl Fn(Coded) -> Option<T>,
    ) -> Result<T, Refusal> {
        match Coded::read(code) {
            Some(Coded::Refused(refusal)) => Err(refusal),
            coded => Ok(coded
                .and_then(may_give)
                .unwrap_or_else(|| panic!("libexchange.a gave {code:#x}, which is no answer"))),
        }
    }
}

#[cfg(test)]
mod tests {
    use super::*;
    use std::string::ToString;

    #[test]
    fn numbers_and_answers() {
        let kind = |kind: u64, number: u64| Coded::read((kind << 32) + number);
        assert_eq!(kind(0, 7), Some(Coded::Result(7)));
        for &refusal in Refusal::ALL {
            assert_eq!(kind(1, refusal.rule().into()), Some(Coded::Refused(refusal)));
        }
        assert_eq!(kind(2, 0), Some(Coded::Unsettled));
        assert_eq!(kind(3, 4096), Some(Coded::Verdict(Verdict::Same(4096))));
        assert_eq!(kind(4, 1), Some(Coded::Verdict(Verdict::Different(1))));
        assert_eq!(kind(5, 0), Some(Coded::None));
        for no_answer in [(1, 0), (1, 19), (2, 1), (5, 1), (6, 0), (u32::MAX.into(), 1)] {
            assert_eq!(kind(no_answer.0, no_answer.1), None);
        }
    }

    #[test]
    fn the_line_of_a_verdict() {
        let line = |answer: Answer<Verdict>| answer.to_string();
        assert_eq!(line(Answer::Result(Verdict::Same(2))), "same 2");
        assert_eq!(line(Answer::Result(Verdict::Different(14))), "different 14");
        assert_eq!(line(Answer::Unsettled), "unsettled 0");
    }

    #[test]
    #[should_panic = "0x200000000, which is no answer"]
    fn an_answer_that_the_operation_does_not_give() {
        let _ = Coded::answered(2 << 32, |coded| match coded {
            Coded::Result(number) => Some(number),
            _ => None,
        });
    }
}
