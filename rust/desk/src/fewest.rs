//! The fewest pairs of names that must be held apart.

use crate::position::{ordered, Pairs, Position, Table};
use exchange::{Answer, Judge, Verdict};

/// How many situations a search may have looked at, and how many a judging counts for at least.
const SITUATIONS: usize = 100_000;
const LEAST: usize = 50;

/// What a search for the fewest pairs found.
#[derive(Clone, PartialEq, Eq, Debug)]
pub enum Fewest {
    /// These pairs are enough, and no fewer are.
    Pairs(Pairs),
    /// These pairs are enough; whether fewer are was not found.
    Enough(Pairs),
    /// Not even all of them are enough.
    None,
    /// A limit was passed.
    Unknown,
}

/// The fewest of the candidates which, held apart beside those that are so anyway, make the parts
/// of the position the same. More pairs never make "same" a "different".
pub fn fewest(
    table: &Table,
    start: &Position,
    anyway: &[(u8, u8)],
    candidates: &[(u8, u8)],
    judge: &mut Judge,
) -> Fewest {
    let mut search = Search { table, start, anyway, judge, spent: 0, unsure: false };
    if !search.is_same(candidates) {
        return if search.unsure { Fewest::Unknown } else { Fewest::None };
    }
    let enough = search.irredundant(candidates);
    let (needed, others): (Pairs, Pairs) = candidates.iter().partition(|&&pair| {
        let without: Pairs = candidates.iter().copied().filter(|&other| other != pair).collect();
        enough.contains(&pair) && !search.is_same(&without)
    });
    for more in 0..enough.len().saturating_sub(needed.len()) {
        match search.with(&needed, &others, more) {
            Some(Some(pairs)) if search.unsure => return Fewest::Enough(ordered(pairs)),
            Some(Some(pairs)) => return Fewest::Pairs(ordered(pairs)),
            Some(None) => {}
            None => return Fewest::Enough(enough),
        }
    }
    match search.unsure {
        true => Fewest::Enough(enough),
        false => Fewest::Pairs(enough),
    }
}

struct Search<'a> {
    table: &'a Table,
    start: &'a Position,
    anyway: &'a [(u8, u8)],
    judge: &'a mut Judge,
    /// How many situations were looked at.
    spent: usize,
    /// Whether a judging was unsettled or one too many, so that "not the same" is not sure.
    unsure: bool,
}

impl Search<'_> {
    /// Whether the library says "same" with these pairs.
    fn is_same(&mut self, pairs: &[(u8, u8)]) -> bool {
        if self.spent >= SITUATIONS {
            self.unsure = true;
            return false;
        }
        let pairs = self.anyway.iter().chain(pairs).copied();
        let position = self.table.position(self.start.parts.clone(), pairs);
        let judged = self.table.judged(&position, self.judge).unwrap_or(Answer::Unsettled);
        let (same, size) = match judged {
            Answer::Result(Verdict::Same(size)) => (true, size),
            Answer::Result(Verdict::Different(size)) => (false, size),
            Answer::Unsettled => {
                self.unsure = true;
                (false, self.judge.capacity().situations() as usize)
            }
        };
        self.spent += size.max(LEAST);
        same
    }

    /// The pairs without each that can be left out when it is its turn.
    fn irredundant(&mut self, pairs: &[(u8, u8)]) -> Pairs {
        let mut left = pairs.to_vec();
        for pair in pairs {
            let without: Pairs = left.iter().copied().filter(|other| other != pair).collect();
            if self.is_same(&without) {
                left = without;
            }
        }
        left
    }

    /// The needed pairs with this many of the others, if these are enough; nothing at all if the
    /// search has looked at too many situations.
    fn with(&mut self, needed: &Pairs, others: &Pairs, more: usize) -> Option<Option<Pairs>> {
        let mut places: Vec<usize> = (0..more).collect();
        loop {
            if self.spent >= SITUATIONS {
                return None;
            }
            let chosen = places.iter().map(|&place| others[place]);
            let pairs: Pairs = needed.iter().copied().chain(chosen).collect();
            if self.is_same(&pairs) {
                return Some(Some(pairs));
            }
            if !next_choice(&mut places, others.len()) {
                return Some(None);
            }
        }
    }
}

/// Moves on to the next ascending choice of places below the bound, if there is one.
fn next_choice(places: &mut [usize], bound: usize) -> bool {
    let count = places.len();
    let movable = (0..count).rev().find(|&at| places[at] + count - at < bound);
    let Some(at) = movable else { return false };
    let first = places[at] + 1;
    for (distance, place) in places[at..].iter_mut().enumerate() {
        *place = first + distance;
    }
    true
}

#[cfg(test)]
mod tests {
    use super::*;

    #[test]
    fn every_choice_comes_once() {
        let mut places = vec![0, 1, 2];
        let mut choices = vec![places.clone()];
        while next_choice(&mut places, 6) {
            choices.push(places.clone());
        }
        assert_eq!(choices.len(), 20);
        choices.dedup();
        assert_eq!(choices.len(), 20);
        assert!(!next_choice(&mut [], 6));
    }
}
