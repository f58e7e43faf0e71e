//! The names that a place in the source can see.

use crate::fault::{Fault, Span};
use crate::term::{Name, PART_BYTES};
use exchange::Refusal;

/// The free names in order of their bytes, the binders around the place, and how many bytes the
/// body or part has so far.
#[derive(Default)]
pub(super) struct Scope<'a> {
    free: Vec<&'a str>,
    binders: Vec<&'a str>,
    bytes: usize,
}

impl<'a> Scope<'a> {
    /// Begins a body with these parameters, or a part.
    pub fn enter(&mut self, parameters: &[&'a str]) {
        self.binders = parameters.to_vec();
        self.bytes = 0;
    }

    /// The free names so far.
    pub fn free(&self) -> &[&'a str] {
        &self.free
    }

    /// The free names, for good.
    pub fn into_free(self) -> Vec<String> {
        self.free.into_iter().map(str::to_string).collect()
    }

    /// Goes beneath a binder.
    pub fn bind(&mut self, word: &'a str) {
        self.binders.push(word);
    }

    /// Comes back from beneath it.
    pub fn unbind(&mut self) {
        self.binders.pop();
    }

    /// The name of a word: the innermost binder of that word, or else a free name.
    pub fn name(&mut self, word: &'a str, span: Span) -> Result<Name, Fault> {
        match self.binders.iter().rev().position(|&binder| binder == word) {
            Some(k) => Ok(Name::Bound(k)),
            None => self.free_name(word, span).map(Name::Free),
        }
    }

    /// The byte of a free name, which may be new.
    pub fn free_name(&mut self, word: &'a str, span: Span) -> Result<u8, Fault> {
        if let Some(byte) = self.free.iter().position(|&free| free == word) {
            return Ok(byte as u8);
        }
        if self.free.len() == exchange::Name::COUNT {
            let message = format!("more than {} names are free", exchange::Name::COUNT);
            return Err(Fault::new(span, message, "one name too many").rule(Refusal::Name));
        }
        self.free.push(word);
        Ok(self.free.len() as u8 - 1)
    }

    /// Counts the bytes of a head. A body or part that grows too long is told at once, so that no
    /// tree is deeper than its bytes.
    pub fn spend(&mut self, bytes: usize, span: Span) -> Result<(), Fault> {
        self.bytes += bytes;
        if self.bytes <= PART_BYTES {
            return Ok(());
        }
        let message = format!("this part passes {PART_BYTES} bytes");
        Err(Fault::new(span, message, "it is full here")
            .rule(Refusal::Length)
            .help("move a piece of it into a definition"))
    }
}
