//! Which of the two limits of listing a part is past.

use crate::model::Exchange;
use crate::term::{Head, Term, PART_BYTES};
use crate::words::unguarded;

/// The limit in words, and what to try. The library says only that one of the two is passed; often
/// the size of the part leaves but one.
pub fn listing(part: &Term, exchange: &Exchange) -> (String, &'static str) {
    let steps = format!("it has more than {} steps", exchange::STEPS);
    let length = format!("what it becomes after some step is longer than {PART_BYTES} bytes");
    let fewer = "Try fewer parts beside each other, or fewer branches.";
    let shorter = "Try shorter definitions, or fewer parts beside each other.";
    match (may_be_long(part, exchange), may_have_many_steps(part, exchange)) {
        (true, false) => (length, shorter),
        (false, true) => (steps, fewer),
        _ => (format!("{steps}, or {length}"), fewer),
    }
}

/// A step opens at most two calls and adds at most one restriction; unused ones that go make it
/// shorter.
fn may_be_long(part: &Term, exchange: &Exchange) -> bool {
    let bodies = exchange.definitions.iter().map(|definition| definition.body.bytes().len());
    part.bytes().len() + 2 * bodies.max().unwrap_or(0) + 1 > PART_BYTES
}

/// Each step belongs to one prefix that nothing guards, or to two that communicate.
fn may_have_many_steps(part: &Term, exchange: &Exchange) -> bool {
    let mut count = 0;
    unguarded(part, &mut |term| match term.head {
        Head::Call(number) => {
            let definition = exchange.definitions.get(usize::from(number));
            let body = definition.map(|definition| &definition.body);
            body.into_iter().for_each(|body| unguarded(body, &mut |_| count += 1));
        }
        _ => count += 1,
    });
    count + count * count / 2 > exchange::STEPS
}
