//! Which limit left a question unsettled, where, and what to try.

use super::limits::listing;
use super::Teller;
use crate::model::place;
use crate::play::{Field, Stopped};
use crate::position::{Limit, Position, Table};
use crate::telling::{shortened, Block};
use crate::words::{counted, Naming};
use exchange::{Capacity, Judge, Side, Verdict};

/// The most moves to a limit that are told.
const MOVES: usize = 8;

impl Teller<'_> {
    pub(super) fn unsettled(&self, table: Table, start: Position) -> Vec<Block> {
        let situations = self.capacity.situations();
        let mut blocks = vec![Block::Verdict(format!(
            "{} are unsettled at capacity {situations}.",
            self.both()
        ))];
        if let Some((capacity, verdict)) = self.larger(&table, &start) {
            blocks.push(Block::Text(format!(
                "More than {situations} situations had to be looked at. At capacity {capacity} the \
                 library answers: {verdict}. Try `--capacity {capacity}`."
            )));
            return blocks;
        }
        let greatest = Capacity::MAX.situations() as usize;
        let mut field = Field::new(table, start, greatest);
        let stopped = loop {
            match field.look(1) {
                Ok(()) if field.first_limit().is_none() && !field.is_whole() => {}
                looked => break looked.err(),
            }
        };
        match (field.first_limit(), stopped) {
            (Some((number, limit)), _) => blocks.extend(self.limit(&field, number, limit)),
            (None, stopped) => blocks.push(Block::Text(self.too_many(stopped, greatest))),
        }
        blocks
    }

    /// The smallest of 256, 512 and so on up to 4,096 that settles the question, if one does.
    fn larger(&self, table: &Table, start: &Position) -> Option<(Capacity, Verdict)> {
        let settled = |capacity| table.judged(start, &mut Judge::new(capacity)).ok()?.result();
        let (Verdict::Same(size) | Verdict::Different(size)) = settled(Capacity::MAX)?;
        let enough = Capacity::new(size.next_power_of_two().max(256) as u64)?;
        Some((enough, settled(enough)?))
    }

    fn too_many(&self, stopped: Option<Stopped>, greatest: usize) -> String {
        let found = match stopped {
            Some(Stopped::Work(work)) => {
                format!("the search for the place was given up after {work} moves and answers")
            }
            _ => format!("there are more than {greatest} situations"),
        };
        format!(
            "A larger capacity does not help: up to {greatest}, the greatest, the library answers \
             unsettled, and {found}. Try fewer parts beside each other, or judge them piece by \
             piece: what is the same stays the same beside a third part."
        )
    }

    /// Which limit, where, and what to try.
    fn limit(&self, field: &Field, number: usize, limit: Limit) -> Vec<Block> {
        let position = &field.positions[number];
        let (side, which, advice) = self.limit_words(field, position, limit);
        let part = field.table().term(&position.parts[place(side)]);
        let (names, moves) = self.way_to(field, number);
        let label = self.exchange.label(side);
        let mut blocks = Vec::new();
        if !moves.is_empty() && moves.len() <= MOVES {
            blocks.push(Block::Text("Answered moves that lead to a limit:".to_string()));
            blocks.extend(moves.iter().cloned().map(Block::Item));
        }
        let after = match moves.len() {
            0 => "At the start".to_string(),
            moves => format!("After {}", counted(moves, "answered move")),
        };
        let term = shortened(&self.speaker.term(&part, &names));
        blocks.push(Block::Text(format!("{after}, {label} is past a limit: {which}. It is then")));
        blocks.push(Block::Term(label.to_string(), term));
        blocks.push(Block::Text(format!("A larger capacity does not help. {advice}")));
        blocks
    }

    fn limit_words(
        &self,
        field: &Field,
        position: &Position,
        limit: Limit,
    ) -> (Side, String, &'static str) {
        let count = exchange::Name::COUNT;
        match limit {
            Limit::Listing(side) => {
                let term = field.table().term(&position.parts[place(side)]);
                let (which, advice) = listing(&term, self.exchange);
                (side, which, advice)
            }
            Limit::Unlistable(side) => (
                side,
                format!("all {count} names are in use, so that its steps cannot be listed"),
                "Try fewer names.",
            ),
            Limit::Names(side) => (
                side,
                format!("all {count} names are in use, and a new one is needed"),
                "Try a definition that passes on fewer names, or names that are one from the start.",
            ),
        }
    }

    /// What the names of a position are called, and the moves to it in words. Names that came with
    /// the moves have new words.
    fn way_to(&self, field: &Field, number: usize) -> (Naming, Vec<String>) {
        let mut names = self.speaker.names();
        let mut moves = Vec::new();
        for origin in field.path(number) {
            let Some(step) = field.step(origin) else { continue };
            let (here, table) = (&field.positions[origin.position], field.table());
            let after = self.speaker.names_after(&names, here, origin.side, step, table);
            let told = self.speaker.action(step.action(), &after);
            let label = self.exchange.label(origin.side);
            moves.push(match self.speaker.condition(step, &names) {
                Some(condition) => format!("if {condition}, {label} {told}"),
                None => format!("{label} {told}"),
            });
            names = after;
        }
        (names, moves)
    }
}
