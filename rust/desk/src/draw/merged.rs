//! An exchange with names merged.

use crate::model::Exchange;
use exchange::{Name, Question, Refusal, QUESTION_BYTES};

/// A name that cannot be merged.
#[derive(Clone, PartialEq, Eq, Debug)]
pub enum Unmerged {
    /// The exchange has no such free name.
    Unknown(String),
    /// The library refuses to merge the two.
    Refused(String, String, Refusal),
}

/// An exchange with names merged, and what each free name stands for.
pub struct Merged {
    exchange: Exchange,
    stands_for: Vec<Vec<String>>,
}

impl Merged {
    /// The exchange as it is.
    pub fn nothing(exchange: &Exchange) -> Merged {
        let stands_for = exchange.names.iter().map(|name| vec![name.clone()]).collect();
        Merged { exchange: exchange.clone(), stands_for }
    }

    /// The exchange with pairs of names merged by the library, one pair after the other.
    ///
    /// # Errors
    /// The first pair that cannot be merged.
    pub fn new(exchange: &Exchange, pairs: &[(String, String)]) -> Result<Merged, Unmerged> {
        let mut merged = Merged::nothing(exchange);
        for (a, b) in pairs {
            merged.merge(a, b)?;
        }
        Ok(merged)
    }

    fn merge(&mut self, a: &str, b: &str) -> Result<(), Unmerged> {
        let refused = |refusal| Unmerged::Refused(a.to_string(), b.to_string(), refusal);
        let (first, second) = (self.name(a)?, self.name(b)?);
        let bytes = self.exchange.bytes();
        let mut area = vec![0; QUESTION_BYTES];
        let question = Question::new(&bytes).map_err(refused)?;
        let question = question.merge(first, second, &mut area).map_err(refused)?;
        let Exchange { parts: [one, other], apart, .. } = Exchange::of(question);
        let [like_one, like_other] = &self.exchange.parts;
        self.exchange.parts = [one.worded(like_one), other.worded(like_other)];
        self.exchange.apart = apart;
        if first != second {
            let (kept, gone) = (first.min(second), first.max(second));
            let words = std::mem::take(&mut self.stands_for[gone.place()]);
            self.stands_for[kept.place()].extend(words);
        }
        Ok(())
    }

    /// The name that stands for this word.
    fn name(&self, word: &str) -> Result<Name, Unmerged> {
        let stands = |words: &Vec<String>| words.iter().any(|other| other == word);
        let place = self.stands_for.iter().position(stands);
        let name = place.and_then(|place| Name::new(place as u8));
        name.ok_or_else(|| Unmerged::Unknown(word.to_string()))
    }

    /// What a free name stands for, in words.
    pub fn label(&self, byte: u8) -> String {
        self.stands_for[usize::from(byte)].join(" = ")
    }

    /// The exchange, with one name for those that were merged.
    pub fn exchange(&self) -> &Exchange {
        &self.exchange
    }
}
