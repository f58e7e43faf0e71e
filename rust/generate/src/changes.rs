//! Entries for "A list of changes".

use crate::draft::{apart_pair, Draft};
use crate::grow::Place;
use crate::random::Random;
use crate::term::Term;

/// An entry of a list of changes.
#[derive(Clone, PartialEq, Eq, Debug)]
pub enum Entry {
    /// A merge of two names.
    Merge(u64, u64),
    /// A declaration that two names are apart.
    Apart(u8, u8),
    /// A beside with its third part.
    Beside(Vec<u8>),
    /// A judging with its capacity.
    Judge(u64),
}

/// Random entries for the question. Some of them are refused.
pub fn entries(random: &mut Random, draft: &Draft, count: usize) -> Vec<Entry> {
    (0..count).map(|_| entry(random, draft)).collect()
}

fn entry(random: &mut Random, draft: &Draft) -> Entry {
    let names = draft.names.max(2);
    match random.below(10) {
        0..=1 if random.chance(10) => Entry::Merge(random.number() % 20, random.number()),
        0..=1 => Entry::Merge(random.below(names) as u64, random.below(names) as u64),
        2..=3 if random.chance(10) => Entry::Apart(random.byte() % 20, random.byte() % 20),
        2..=3 => {
            let (a, b) = apart_pair(random, names);
            Entry::Apart(a, b)
        }
        4..=5 => Entry::Beside(third_part(random, draft)),
        _ => Entry::Judge(capacity(random)),
    }
}

/// A third part for the question. Some are damaged or too long.
pub fn third_part(random: &mut Random, draft: &Draft) -> Vec<u8> {
    let budget = if random.chance(10) { random.between(30, 112) } else { random.between(1, 16) };
    let third = draft.style().part(random, Place::PART, budget);
    let mut third = match random.chance(3) {
        true => Term::Silent(Term::Parallel(third.into(), Term::Nil.into()).into()).bytes(),
        false => third.bytes(),
    };
    if random.chance(5) {
        let place = random.below(third.len());
        third[place] = random.byte();
    }
    if random.chance(2) {
        third.clear();
    }
    third
}

fn capacity(random: &mut Random) -> u64 {
    let capacity = match random.below(20) {
        0 => *random.pick(&[0, 4097, 1 << 40]),
        1..=5 => random.between(1, 8),
        6..=18 => 256,
        _ => 4096,
    };
    capacity as u64
}
