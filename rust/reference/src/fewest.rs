//! The fewest pairs of names to hold apart, by trying every set of pairs: request 2026-06.

use crate::answer::{Answer, Check};
use crate::condition::NAMES;
use crate::field::Kind;
use crate::form::Form;
use crate::judge::{used, verdict};
use crate::question::{Question, APART_BYTES};
use std::collections::BTreeSet;

type Pairs = BTreeSet<(u8, u8)>;

/// Checks 1 to 12, 18 and 15, then the search.
pub fn apart(
    question: &[u8],
    form: Form,
    capacity: u64,
    names: &[u8],
    work: &mut [u8],
    area: &mut [u8],
) -> Result<Answer, Check> {
    let used = used(capacity, work)?;
    let question = Question::read(question)?;
    let given: BTreeSet<u8> = names.iter().copied().collect();
    if names.len() > 4
        || given.len() < names.len()
        || given.iter().any(|&n| usize::from(n) >= NAMES)
    {
        return Err(Check::Names);
    }
    if area.len() < APART_BYTES {
        return Err(Check::ResultArea);
    }
    let answer = search(&question, form, capacity, &given, area);
    work[..used].fill(0);
    Ok(answer)
}

fn search(
    question: &Question,
    form: Form,
    capacity: u64,
    given: &BTreeSet<u8>,
    area: &mut [u8],
) -> Answer {
    let held: Pairs = question.apart.iter().map(|&(a, b)| (a.min(b), a.max(b))).collect();
    let mut best: Option<(Vec<(u8, u8)>, Pairs)> = None;
    for choice in choices(given, &held) {
        let list: Pairs = held.iter().chain(&choice).copied().collect();
        let enlarged = Question { apart: list.iter().copied().collect(), ..question.clone() };
        match verdict(&enlarged, Kind::Open, form, capacity) {
            Answer::Unsettled => return Answer::Unsettled,
            Answer::Same(_) if best.as_ref().map_or(true, |(other, _)| before(&choice, other)) => {
                best = Some((choice, list));
            }
            _ => {}
        }
    }
    let Some((_, list)) = best else {
        return Answer::None;
    };
    let bytes: Vec<u8> = list.iter().flat_map(|&(a, b)| [a, b]).collect();
    area[..bytes.len()].copy_from_slice(&bytes);
    Answer::Result(bytes.len() as u64)
}

/// Every set of pairs of the given names that are not held apart, each in ascending order.
fn choices(given: &BTreeSet<u8>, held: &Pairs) -> Vec<Vec<(u8, u8)>> {
    let pairs = given.iter().flat_map(|&a| given.range(a + 1..).map(move |&b| (a, b)));
    let open: Vec<(u8, u8)> = pairs.filter(|pair| !held.contains(pair)).collect();
    let chosen = |set: u32| move |place: &usize| set >> place & 1 == 1;
    let places = 0..open.len();
    let choice = |set| places.clone().filter(chosen(set)).map(|place| open[place]).collect();
    (0..1 << open.len()).map(choice).collect()
}

/// Fewer pairs, or as many and first in byte order.
fn before(choice: &[(u8, u8)], other: &[(u8, u8)]) -> bool {
    (choice.len(), choice) < (other.len(), other)
}
