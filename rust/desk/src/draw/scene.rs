//! What a drawing shows.

use super::cause::{movers, Mover};
use super::components::{Component, Known, Pieces, Use};
use super::labels::Labels;
use super::merged::Merged;
use crate::model::{place, Exchange};
use crate::play::Play;
use crate::position::{ordered, Table};
use crate::telling::wrapped_term;
use crate::words::{all_names, Speaker};
use exchange::Side;

/// The width of a component's text in letters.
const LETTERS: usize = 26;

/// A box.
pub struct Drawn {
    /// The lines of its text.
    pub lines: Vec<String>,
    /// Whether it makes the move that is shown.
    pub moves: bool,
}

/// A name.
pub struct Node {
    /// What it is called, with the names that it was merged with.
    pub label: String,
    /// Whether it is private to the part.
    pub private: bool,
    /// Whether the move that is shown uses it.
    pub moves: bool,
}

/// A line between a box and a name.
pub struct Link {
    /// The box.
    pub from: usize,
    /// The name.
    pub to: usize,
    /// How the box uses the name.
    pub used: Use,
    /// Whether the move that is shown uses it.
    pub moves: bool,
}

/// One of the two parts.
pub struct Panel {
    /// What it is called.
    pub label: String,
    /// Its components.
    pub boxes: Vec<Drawn>,
    /// The names that they use.
    pub nodes: Vec<Node>,
    /// Which uses which.
    pub links: Vec<Link>,
    /// The names held apart.
    pub apart: Vec<(usize, usize)>,
}

/// A drawing of an exchange.
pub struct Scene {
    /// The two parts.
    pub panels: [Panel; 2],
    /// The names held apart, in words.
    pub apart: Vec<String>,
    /// The move that is shown, in words.
    pub told: Option<String>,
}

impl Scene {
    /// What is to be drawn of an exchange, with the move of a play in one of its positions. The words
    /// for bound names are those of the exchange that a person wrote.
    pub fn new(merged: &Merged, words: &Exchange, at: Option<(&Play, usize)>) -> Scene {
        let exchange = merged.exchange();
        let speaker = Speaker::new(words);
        let shown = at.and_then(|(play, position)| Shown::of(exchange, &speaker, play, position));
        let panels = Side::BOTH.map(|side| {
            let part = &exchange.parts[place(side)];
            let pieces = Pieces::of(part, exchange);
            let moving = shown.as_ref().filter(|shown| shown.side == side);
            let moving = moving.map_or(Vec::new(), |shown| shown.movers(&pieces, exchange));
            let labels = Labels::new(merged, &pieces, &speaker);
            let known = labels.in_order(&pieces);
            let label = exchange.label(side).to_string();
            Builder { labels, pieces, moving, known }.panel(label, &exchange.apart)
        });
        let pairs = ordered(exchange.apart.iter().copied());
        let word = |byte| merged.label(byte);
        let apart = pairs.iter().map(|&(a, b)| format!("{} and {}", word(a), word(b))).collect();
        Scene { panels, apart, told: shown.map(|shown| shown.told) }
    }
}

/// What a panel is made from.
struct Builder<'a> {
    labels: Labels<'a>,
    pieces: Pieces<'a>,
    moving: Vec<Mover>,
    /// The names in the order in which they are drawn.
    known: Vec<Known>,
}

impl Builder<'_> {
    fn panel(&self, label: String, apart: &[(u8, u8)]) -> Panel {
        let links = self.links();
        let node = |(number, &name): (usize, &Known)| Node {
            label: self.labels.label(name),
            private: matches!(name, Known::Private(_)),
            moves: links.iter().any(|link| link.moves && link.to == number),
        };
        let nodes = self.known.iter().enumerate().map(node).collect();
        let both_here = |(a, b)| Some((self.node(Known::Free(a))?, self.node(Known::Free(b))?));
        let apart = ordered(apart.iter().copied()).into_iter().filter_map(both_here).collect();
        let boxes = self.pieces.components.iter().enumerate().map(|drawn| self.drawn(drawn));
        Panel { label, boxes: boxes.collect(), nodes, links, apart }
    }

    /// The number of a name among those drawn.
    fn node(&self, name: Known) -> Option<usize> {
        self.known.iter().position(|&other| other == name)
    }

    fn drawn(&self, (number, component): (usize, &Component<'_>)) -> Drawn {
        Drawn {
            lines: wrapped_term(&self.labels.term(component), LETTERS),
            moves: self.moving.iter().any(|&(mover, _)| mover == number),
        }
    }

    fn links(&self) -> Vec<Link> {
        let mut links = Vec::new();
        for (from, component) in self.pieces.components.iter().enumerate() {
            for &(name, used) in &component.uses {
                let moves = self.moving.contains(&(from, Some(name)));
                links.extend(self.node(name).map(|to| Link { from, to, used, moves }));
            }
        }
        links
    }
}

/// A move of the play.
struct Shown {
    side: Side,
    step: Vec<u8>,
    told: String,
}

impl Shown {
    /// The components that make it.
    fn movers(&self, pieces: &Pieces<'_>, exchange: &Exchange) -> Vec<Mover> {
        let part = &exchange.parts[place(self.side)];
        let step = exchange::Step::new(&self.step);
        step.map_or(Vec::new(), |step| movers(pieces, part, step, &mut Table::new(exchange)))
    }

    fn of(
        exchange: &Exchange,
        speaker: &Speaker<'_>,
        play: &Play,
        position: usize,
    ) -> Option<Shown> {
        let (side, step) = play.best_step(position)?;
        let names = all_names(&exchange.names);
        let here = &play.field.positions[position];
        let after = speaker.names_after(&names, here, side, step, play.field.table());
        let action = speaker.action(step.action(), &after);
        let (label, other) = (exchange.label(side), exchange.label(side.other()));
        let condition = speaker.condition(step, &names);
        let condition = condition.map_or(String::new(), |condition| format!("If {condition}: "));
        let fails = match play.longest_answer(position) {
            None => format!("{other} has no answer"),
            Some(_) => format!("no answer of {other} keeps up"),
        };
        let told = format!("{condition}{label} {action}, and {fails}.");
        Some(Shown { side, step: step.bytes().to_vec(), told })
    }
}
