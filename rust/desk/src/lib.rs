//! Exchanges for people: reads them as text, judges, explains and draws them. All that is said
//! about their behaviour is asked of the proved library.

#![deny(missing_docs)]
#![forbid(unsafe_code)]

pub mod draw;
pub mod explain;
pub mod fault;
mod fewest;
pub mod input;
pub mod judging;
mod markup;
pub mod model;
pub mod play;
pub mod position;
pub mod report;
pub mod telling;
pub mod term;
pub mod text;
pub mod usage;
pub mod words;
