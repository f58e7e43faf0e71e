//! Why two parts are the same, different or unsettled.

mod apart;
mod limits;
mod told;
mod unsettled;

use crate::model::Exchange;
use crate::play::{Field, Play};
use crate::position::Table;
use crate::telling::Block;
use crate::words::{counted, Speaker};
use exchange::{Answer, Capacity, Judge, Verdict};

/// An explanation.
pub struct Explanation {
    /// What the library says of the exchange, at the capacity given.
    pub answer: Answer<Verdict>,
    /// Why.
    pub blocks: Vec<Block>,
    /// The play, if the parts are different and one was found.
    pub play: Option<Play>,
}

/// Explains what the library says of an exchange at this capacity.
pub fn explain(exchange: &Exchange, capacity: Capacity) -> Explanation {
    let mut judge = Judge::new(capacity);
    let teller = Teller { exchange, speaker: Speaker::new(exchange), capacity };
    let table = Table::new(exchange);
    let start = table.start(exchange);
    let answer = table.judged(&start, &mut judge).unwrap_or(Answer::Unsettled);
    match answer {
        Answer::Result(Verdict::Same(size)) => {
            let blocks = teller.same(&table, &start, size, &mut judge);
            Explanation { answer, blocks, play: None }
        }
        Answer::Result(Verdict::Different(size)) => {
            let (blocks, play) = teller.different(table, start, size, &mut judge);
            Explanation { answer, blocks, play }
        }
        Answer::Unsettled => {
            let blocks = teller.unsettled(table, start);
            Explanation { answer, blocks, play: None }
        }
    }
}

/// The play of an exchange, if its parts are different and one is found.
pub fn play(exchange: &Exchange, capacity: Capacity) -> Option<Play> {
    let table = Table::new(exchange);
    let start = table.start(exchange);
    let answer = table.judged(&start, &mut Judge::new(capacity)).ok()?;
    match answer {
        Answer::Result(Verdict::Different(size)) => Play::find(Field::new(table, start, size)).ok(),
        _ => None,
    }
}

/// Tells of one exchange.
struct Teller<'a> {
    exchange: &'a Exchange,
    speaker: Speaker<'a>,
    capacity: Capacity,
}

impl Teller<'_> {
    fn both(&self) -> String {
        format!("{} and {}", self.exchange.labels[0], self.exchange.labels[1])
    }

    fn verdict(&self, told: &str, size: usize) -> Block {
        let situations = counted(size, "situation");
        Block::Verdict(format!("{} {told}: {situations} looked at.", self.both()))
    }
}
