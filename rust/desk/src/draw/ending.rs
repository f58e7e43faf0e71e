//! Where a play ends.

use crate::model::Exchange;
use crate::play::Play;
use crate::words::Speaker;

/// The last position of a play, as an exchange with the names that its moves brought.
pub struct Ending {
    /// The position as an exchange.
    pub exchange: Exchange,
    /// Its number in the play.
    pub position: usize,
    /// How many moves lead to it.
    pub moves: usize,
}

impl Ending {
    /// The position in which a move has no answer, after the longest answers; none if that is the
    /// start.
    pub fn of(exchange: &Exchange, play: &Play) -> Option<Ending> {
        let speaker = Speaker::new(exchange);
        let table = play.field.table();
        let (mut names, mut position, mut moves) = (speaker.names(), 0, 0);
        while let Some(next) = play.longest_answer(position) {
            let (side, step) = play.best_step(position)?;
            let here = &play.field.positions[position];
            names = speaker.names_after(&names, here, side, step, table);
            (position, moves) = (next, moves + 1);
        }
        let last = &play.field.positions[position];
        let exchange = Exchange {
            parts: last.parts.each_ref().map(|part| table.term(part)),
            apart: last.apart.clone(),
            names,
            ..exchange.clone()
        };
        (moves > 0).then_some(Ending { exchange, position, moves })
    }
}
