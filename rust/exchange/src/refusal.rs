//! Why an operation turns its arguments back.

use core::error::Error;
use core::fmt;

/// A refusal: the first check of documents 01 and 02, in their order, that turns the arguments
/// back.
///
/// A refused operation has changed no lent byte. Further operations bring further rules.
///
/// ```
/// use exchange::Refusal;
///
/// let refusal = exchange::check(&[]).unwrap_err();
/// assert_eq!(refusal, Refusal::Version);
/// assert_eq!(refusal.rule(), 3);
/// assert_eq!(
///     refusal.to_string(),
///     "refused by rule 3: the question is empty or its first byte is neither 01 nor 02; for a \
///      converter, it is of the edition to be written"
/// );
/// ```
#[must_use]
#[non_exhaustive]
#[derive(Clone, Copy, PartialEq, Eq, PartialOrd, Ord, Hash, Debug)]
#[repr(u8)]
pub enum Refusal {
    /// Rule 1: the capacity.
    Capacity = 1,
    /// Rule 2: the length of the work area.
    WorkArea = 2,
    /// Rule 3: the version byte.
    Version = 3,
    /// Rule 4: the length of the question.
    Frame = 4,
    /// Rule 5: the number of definitions and their arities.
    Definitions = 5,
    /// Rule 6: the length of a body or part.
    Length = 6,
    /// Rule 7: the bytes of a term.
    Term = 7,
    /// Rule 8: the definition that a call numbers.
    Call = 8,
    /// Rule 9: the byte of a name.
    Name = 9,
    /// Rule 10: the place of a parallel.
    Parallel = 10,
    /// Rule 11: a call in a body that no prefix guards.
    Unprefixed = 11,
    /// Rule 12: the apart list.
    Apart = 12,
    /// Rule 13: the side or the new name given for listing.
    Listing = 13,
    /// Rule 14: the names given for merging.
    Merging = 14,
    /// Rule 15: the length of the result area.
    ResultArea = 15,
    /// Rule 16: the number of names that is written in a call of edition two.
    Count = 16,
    /// Rule 17: the length of a body or part once it is converted.
    Converted = 17,
    /// Rule 18: the names given for the fewest pairs.
    Names = 18,
}

impl Refusal {
    /// All refusals in the order of their rules.
    pub const ALL: &'static [Refusal] = &[
        Refusal::Capacity,
        Refusal::WorkArea,
        Refusal::Version,
        Refusal::Frame,
        Refusal::Definitions,
        Refusal::Length,
        Refusal::Term,
        Refusal::Call,
        Refusal::Name,
        Refusal::Parallel,
        Refusal::Unprefixed,
        Refusal::Apart,
        Refusal::Listing,
        Refusal::Merging,
        Refusal::ResultArea,
        Refusal::Count,
        Refusal::Converted,
        Refusal::Names,
    ];

    /// The refusal by the rule of this number, if there is such a rule.
    #[must_use]
    pub fn of_rule(rule: u64) -> Option<Refusal> {
        Refusal::ALL.iter().copied().find(|refusal| u64::from(refusal.rule()) == rule)
    }

    /// The number of the rule, from 1.
    #[must_use]
    pub fn rule(self) -> u8 {
        self as u8
    }

    /// What the rule turns back, in the words of documents 01 and 02.
    #[must_use]
    pub fn text(self) -> &'static str {
        match self {
            Refusal::Capacity => "the capacity is not 1 to 4,096",
            Refusal::WorkArea => "the work area is shorter than 256 × capacity bytes",
            Refusal::Version => {
                "the question is empty or its first byte is neither 01 nor 02; for a converter, it \
                 is of the edition to be written"
            }
            Refusal::Frame => {
                "the question is longer than 4,096 bytes, ends before its last field does, or has \
                 bytes left over"
            }
            Refusal::Definitions => "there are more than 16 definitions, or an arity is above 8",
            Refusal::Length => "a body or part has length 0 or above 112",
            Refusal::Term => {
                "a byte where a term begins is above 09, or the part ends inside its term, or \
                 bytes follow it"
            }
            Refusal::Call => "a call numbers a definition that is not there",
            Refusal::Name => {
                "a name byte is neither 00 to 0F nor 80 and above, reaches past its binders, or \
                 is free in a body"
            }
            Refusal::Parallel => {
                "parallel occurs in a body, or in a part beneath anything but parallels and \
                 restrictions"
            }
            Refusal::Unprefixed => "in a body a call is not beneath a prefix",
            Refusal::Apart => {
                "the apart list has odd length, is longer than 240 bytes, holds a byte above 0F, \
                 or pairs a name with itself"
            }
            Refusal::Listing => {
                "the side is not 1 or 2, or the new name given is above 15 or free in that side"
            }
            Refusal::Merging => "a name is above 15 or the apart list holds the two apart",
            Refusal::ResultArea => "the lent result area is too short",
            Refusal::Count => "the number of names written in a call is not the arity",
            Refusal::Converted => "a body or part is above 112 bytes once converted",
            Refusal::Names => "there are more than four names, one is above 15, or one is repeated",
        }
    }
}

impl fmt::Display for Refusal {
    fn fmt(&self, f: &mut fmt::Formatter<'_>) -> fmt::Result {
        write!(f, "refused by rule {}: {}", self.rule(), self.text())
    }
}

impl Error for Refusal {}

#[cfg(test)]
mod tests {
    use super::*;

    #[test]
    fn each_rule_has_its_number_and_a_text_of_its_own() {
        for &refusal in Refusal::ALL {
            assert_eq!(Refusal::of_rule(refusal.rule().into()), Some(refusal));
            let alike = Refusal::ALL.iter().filter(|other| other.text() == refusal.text());
            assert_eq!(alike.count(), 1);
        }
        let numbers: std::vec::Vec<u8> =
            Refusal::ALL.iter().map(|refusal| refusal.rule()).collect();
        assert!(numbers.windows(2).all(|two| two[0] < two[1]));
        for no_rule in [0, 19, 256 + 3, u64::MAX] {
            assert_eq!(Refusal::of_rule(no_rule), None);
        }
    }
}
