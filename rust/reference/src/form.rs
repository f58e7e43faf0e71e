//! The form in which results stand, and the parts of a start.

use crate::term::Term;

/// The form of results and of the parts of a start.
#[derive(Clone, Copy, PartialEq, Eq, Debug)]
pub enum Form {
    /// As they are.
    AsItIs,
    /// Without the restrictions whose name is not free beneath them: request 2026-04.
    Tidied,
}

impl Form {
    /// The term in this form.
    pub fn of(self, term: &Term) -> Term {
        match self {
            Form::AsItIs => term.clone(),
            Form::Tidied => term.tidied(),
        }
    }
}
