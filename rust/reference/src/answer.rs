//! Answers of the operations and the numbers of the checks.

use std::fmt;

/// What an operation answers.
#[derive(Clone, Copy, PartialEq, Eq, Hash, Debug)]
pub enum Answer {
    /// Turned back by the check of this number.
    Refused(u8),
    /// Beyond a limit of the listing or of the field.
    Unsettled,
    /// The number that check, listing, merge and beside answer.
    Result(u64),
    /// The two parts are related; the number is the size of the field.
    Same(u64),
    /// The two parts are not related; the number is the size of the field.
    Different(u64),
    /// No choice of pairs makes the parts the same.
    None,
}

impl Answer {
    /// The answer as one number: its kind times 2^32, plus its number.
    pub fn code(self) -> u64 {
        let (kind, number) = match self {
            Answer::Result(number) => (0, number),
            Answer::Refused(check) => (1, u64::from(check)),
            Answer::Unsettled => (2, 0),
            Answer::Same(size) => (3, size),
            Answer::Different(size) => (4, size),
            Answer::None => (5, 0),
        };
        (kind << 32) + number
    }
}

impl From<Answer> for u64 {
    fn from(answer: Answer) -> u64 {
        answer.code()
    }
}

impl From<Check> for Answer {
    fn from(check: Check) -> Answer {
        Answer::Refused(check as u8)
    }
}

/// The line that the program `judge` prints, without its line feed.
impl fmt::Display for Answer {
    fn fmt(&self, f: &mut fmt::Formatter<'_>) -> fmt::Result {
        match self {
            Answer::Refused(check) => write!(f, "refused {check}"),
            Answer::Unsettled => write!(f, "unsettled 0"),
            Answer::Result(number) => write!(f, "result {number}"),
            Answer::Same(size) => write!(f, "same {size}"),
            Answer::Different(size) => write!(f, "different {size}"),
            Answer::None => write!(f, "none 0"),
        }
    }
}

/// The checks of "Turned back, in checking order", each with its number there.
#[derive(Clone, Copy, PartialEq, Eq, Hash, Debug)]
#[repr(u8)]
pub enum Check {
    /// The capacity is not 1 to 4,096.
    Capacity = 1,
    /// The work area is shorter than 256 × capacity bytes.
    WorkArea = 2,
    /// The question is empty or of no edition, or of the edition that a converter writes.
    Version = 3,
    /// The question is too long, ends too early or has bytes left over.
    Frame = 4,
    /// More than 16 definitions, or an arity above 8.
    Definitions = 5,
    /// A body or part has length 0 or above 112.
    Length = 6,
    /// No term begins here, the part ends inside its term, or bytes follow it.
    Term = 7,
    /// A call numbers a definition that is not there.
    Call = 8,
    /// A name byte is no name, reaches past its binders, or is free in a body.
    Name = 9,
    /// Parallel where it may not stand.
    Parallel = 10,
    /// A call in a body that is not beneath a prefix.
    Unprefixed = 11,
    /// The apart list is ill formed.
    Apart = 12,
    /// The side or the new name given for listing.
    Listing = 13,
    /// The names given for merging.
    Merging = 14,
    /// The lent result area is too short.
    ResultArea = 15,
    /// The number of names written in a call is not the arity.
    Count = 16,
    /// A body or part is above 112 bytes once converted.
    Converted = 17,
    /// More than four names, one above 15, or a repeat.
    Names = 18,
}
