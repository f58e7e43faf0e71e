//! Drawings of exchanges: components as boxes, names as nodes, lines between those and what they
//! use.

mod cause;
mod components;
mod ending;
mod labels;
mod merged;
mod scene;
mod svg;

pub use ending::Ending;
pub use merged::{Merged, Unmerged};
pub use scene::Scene;
pub use svg::{file, panels, LEGEND, STYLE};

use crate::model::Exchange;
use crate::play::Play;
use crate::words::counted;

/// The drawing of an exchange with names merged, and, if its play has more than one move, of the
/// position in which it ends. Each has a heading, which may be empty.
pub fn scenes(merged: &Merged, words: &Exchange, play: Option<&Play>) -> Vec<(String, Scene)> {
    let start = Scene::new(merged, words, play.map(|play| (play, 0)));
    let ending = play.and_then(|play| {
        let ending = Ending::of(merged.exchange(), play)?;
        let last = Merged::nothing(&ending.exchange);
        let scene = Scene::new(&last, words, Some((play, ending.position)));
        Some((format!("After {}", counted(ending.moves, "answered move")), scene))
    });
    std::iter::once((String::new(), start)).chain(ending).collect()
}
