//! Exchanges as text.

mod parse;
mod print;
mod rules;
mod scope;
mod terms;
mod token;

pub use print::{bound_words, file, Printer, Words};

use crate::fault::Fault;
use crate::model::Exchange;

/// The exchange that a source says, if the library accepts its question.
pub fn read(source: &str) -> Result<Exchange, Fault> {
    let reading = parse::parse(source)?;
    match exchange::check(&reading.exchange.bytes()) {
        Ok(()) => Ok(reading.exchange),
        Err(refusal) => Err(rules::broken(refusal, &reading, source)),
    }
}
