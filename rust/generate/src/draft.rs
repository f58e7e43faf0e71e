//! Questions as trees, before they are coded.

use crate::fields::Fields;
use crate::grow::{Place, Style};
use crate::random::Random;
use crate::rearrange::rearranged;
use crate::rewrite::rewritten;
use crate::term::Term;

/// The greatest length of a body or part.
pub const PART_BYTES: usize = 112;

/// A question as a tree. Drafts are accepted as they are made.
#[derive(Clone, Debug)]
pub struct Draft {
    /// The arity and body of each definition.
    pub definitions: Vec<(u8, Term)>,
    /// The first part.
    pub first: Term,
    /// The second part.
    pub second: Term,
    /// The apart list.
    pub apart: Vec<(u8, u8)>,
    /// How many free names are in use.
    pub names: usize,
}

impl Draft {
    /// The fields of the question, coded.
    pub fn fields(&self) -> Fields {
        let definitions = self.definitions.iter().map(|(arity, body)| (*arity, body.bytes()));
        Fields {
            definitions: definitions.collect(),
            first: self.first.bytes(),
            second: self.second.bytes(),
            apart: self.apart.iter().flat_map(|&(a, b)| [a, b]).collect(),
        }
    }

    /// The bytes of the question.
    pub fn bytes(&self) -> Vec<u8> {
        self.fields().bytes()
    }

    /// The style with which further terms of this question are grown.
    pub(crate) fn style(&self) -> Style {
        let arities = self.definitions.iter().map(|definition| definition.0).collect();
        Style { names: self.names, arities }
    }

    /// Two parts that have nothing to do with each other.
    pub fn unrelated(random: &mut Random) -> Draft {
        let mut draft = Draft::with_first(random);
        let budget = part_budget(random);
        draft.second = draft.style().part(random, Place::PART, budget);
        draft
    }

    /// A part and a rewritten copy of it.
    pub fn near_miss(random: &mut Random) -> Draft {
        let rewritings = random.between(1, 4);
        Draft::with_first(random).copied(random, rewritings)
    }

    /// Calls of definitions that go round, side by side, and a rewritten copy.
    pub fn busy(random: &mut Random) -> Draft {
        let names = random.between(1, 4);
        let arities = (0..random.between(1, 3)).map(|_| random.below(3) as u8).collect();
        let style = Style { names, arities };
        let definitions = style.arities.iter().map(|&arity| (arity, style.round(random, arity)));
        let definitions = definitions.collect();
        let first = style.calls(random);
        let apart = apart_list(random, names);
        let draft = Draft { definitions, first, second: Term::Nil, apart, names };
        let rewritings = random.below(3);
        draft.copied(random, rewritings)
    }

    /// A part and a copy with its pieces in another order (request 2026-07).
    pub fn reordered(random: &mut Random) -> Draft {
        let mut draft = match random.chance(70) {
            true => Draft::with_first(random),
            false => Draft::busy(random),
        };
        draft.second = draft.first.clone();
        for _ in 0..random.between(1, 8) {
            let moved = rearranged(random, &draft.second);
            if moved.size() <= PART_BYTES {
                draft.second = moved;
            }
        }
        draft
    }

    /// The draft with a copy of its first part, rewritten this many times, as the second.
    pub(crate) fn copied(mut self, random: &mut Random, rewritings: usize) -> Draft {
        self.second = self.first.clone();
        for _ in 0..rewritings {
            let changed = rewritten(random, &self, &self.second);
            if changed.size() <= PART_BYTES {
                self.second = changed;
            }
        }
        if random.chance(50) {
            std::mem::swap(&mut self.first, &mut self.second);
        }
        self
    }

    /// The same with at least two names and a short first part without parallel.
    pub(crate) fn sequential(random: &mut Random) -> Draft {
        let mut draft = Draft::with_first(random);
        draft.names = draft.names.max(2);
        draft.first = draft.style().sequential(random, Place::PART, 12);
        draft
    }

    /// Definitions, a first part and an apart list; the second part is inaction.
    fn with_first(random: &mut Random) -> Draft {
        let style = Style::random(random);
        let body = |random: &mut Random, arity| {
            let budget = if random.chance(5) { PART_BYTES } else { random.between(2, 24) };
            style.body(random, arity, budget)
        };
        let definitions = style.arities.iter().map(|&arity| (arity, body(random, arity)));
        let definitions = definitions.collect();
        let budget = part_budget(random);
        let first = style.part(random, Place::PART, budget);
        let apart = apart_list(random, style.names);
        Draft { definitions, first, second: Term::Nil, apart, names: style.names }
    }
}

fn part_budget(random: &mut Random) -> usize {
    match random.below(10) {
        0..=5 => random.between(1, 24),
        6..=8 => random.between(20, 50),
        _ => random.between(50, PART_BYTES),
    }
}

/// A list of apart pairs among the first names: none, a few, or as many as fit.
pub fn apart_list(random: &mut Random, names: usize) -> Vec<(u8, u8)> {
    let pairs = match random.below(20) {
        0..=9 => 0,
        10..=17 => random.between(1, 3),
        18 => random.between(4, 30),
        _ => random.between(100, 120),
    };
    let names = if names < 2 { 16 } else { names };
    (0..pairs).map(|_| apart_pair(random, names)).collect()
}

/// Two different names of the first ones, which are at least two.
pub fn apart_pair(random: &mut Random, names: usize) -> (u8, u8) {
    let a = random.below(names);
    let b = (a + random.between(1, names - 1)) % names;
    (a as u8, b as u8)
}
