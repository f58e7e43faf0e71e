//! Where in a source a rule of the library is broken.

use super::parse::Reading;
use crate::fault::{Fault, Span};
use crate::term::{Head, Name, Term};
use crate::words::alike;
use exchange::Refusal;

/// The fault for a refusal by the library.
pub fn broken(refusal: Refusal, reading: &Reading, source: &str) -> Fault {
    let found = match refusal {
        Refusal::Call => missing_definition(reading, source),
        Refusal::Name => free_in_body(reading, source),
        Refusal::Parallel => misplaced_parallel(reading),
        Refusal::Unprefixed => unprefixed_call(reading),
        Refusal::Apart => apart_from_itself(reading, source),
        _ => None,
    };
    let fault = found.unwrap_or_else(|| {
        Fault::new(Span::default(), "the library refuses this exchange", "somewhere in this file")
    });
    fault.rule(refusal)
}

/// All bodies, then the parts.
fn terms(reading: &Reading) -> impl Iterator<Item = &Term> {
    let bodies = reading.exchange.definitions.iter().map(|definition| &definition.body);
    bodies.chain(&reading.exchange.parts)
}

/// The first term, in file order of the terms, for which this holds.
fn first<'a>(
    terms: impl Iterator<Item = &'a Term>,
    holds: impl Fn(&Term, usize) -> bool,
) -> Option<&'a Term> {
    let mut found = None;
    for term in terms {
        term.walk(&mut |term, depth| {
            if found.is_none() && holds(term, depth) {
                found = Some(term);
            }
        });
    }
    found
}

fn missing_definition(reading: &Reading, source: &str) -> Option<Fault> {
    let count = reading.exchange.definitions.len();
    let missing =
        |term: &Term, _| matches!(term.head, Head::Call(number) if usize::from(number) >= count);
    let span = first(terms(reading), missing)?.span;
    let called = source[span.start..span.end].split('(').next()?.trim();
    let message = format!("there is no definition of `{called}`");
    let fault = Fault::new(span, message, "called here");
    let known = reading.exchange.definitions.iter().map(|definition| definition.name.as_str());
    Some(match alike(called, known) {
        Some(name) => fault.help(format!("did you mean `{name}`?")),
        None => fault.help(format!("add a line `{called}(…) = …`")),
    })
}

fn free_in_body(reading: &Reading, source: &str) -> Option<Fault> {
    let is_free = |name: &Name| matches!(name, Name::Free(_));
    for definition in &reading.exchange.definitions {
        let free = |term: &Term, _| term.names.iter().any(is_free);
        let Some(term) = first(std::iter::once(&definition.body), free) else { continue };
        let Some(Name::Free(byte)) = term.names.iter().copied().find(|name| is_free(name)) else {
            continue;
        };
        let word = reading.exchange.names.get(usize::from(byte))?;
        let message = format!("`{word}` is no parameter of `{}`", definition.name);
        let start = source[term.span.start..term.span.end].find(word.as_str());
        let start = term.span.start + start.unwrap_or(0);
        let span = Span { start, end: start + word.len() };
        return Some(
            Fault::new(span, message, "free in a definition")
                .help(format!("make `{word}` a parameter and give it in each call")),
        );
    }
    None
}

fn misplaced_parallel(reading: &Reading) -> Option<Fault> {
    let parallel = |term: &Term, _| term.head == Head::Parallel;
    let bodies = reading.exchange.definitions.iter().map(|definition| &definition.body);
    if let Some(term) = first(bodies, parallel) {
        let fault = Fault::new(term.span, "a definition has a parallel", "`|` in a definition");
        return Some(fault.help("set calls beside each other in a part instead"));
    }
    let span = reading.exchange.parts.iter().find_map(|part| covered_parallel(part, false))?;
    let fault = Fault::new(span, "a parallel stands beneath something else", "`|` stands here");
    Some(fault.help("only `|` and `(new x)` may stand above `|`; `+` binds tighter than `|`"))
}

/// The place of a parallel beneath anything but parallels and restrictions.
fn covered_parallel(term: &Term, covered: bool) -> Option<Span> {
    if covered && term.head == Head::Parallel {
        return Some(term.span);
    }
    let covered = covered || !matches!(term.head, Head::Parallel | Head::Restriction);
    term.beneath.iter().find_map(|term| covered_parallel(term, covered))
}

fn unprefixed_call(reading: &Reading) -> Option<Fault> {
    let mut bodies = reading.exchange.definitions.iter().map(|definition| &definition.body);
    let span = bodies.find_map(bare_call)?;
    let fault = Fault::new(span, "a call in a definition has no prefix", "called at once");
    Some(fault.help("put a prefix before it, such as `tau.`"))
}

/// The place of a call that is not beneath a prefix.
fn bare_call(term: &Term) -> Option<Span> {
    match term.head {
        Head::Call(_) => Some(term.span),
        head if head.is_prefix() => None,
        _ => term.beneath.iter().find_map(bare_call),
    }
}

fn apart_from_itself(reading: &Reading, source: &str) -> Option<Fault> {
    let place = reading.exchange.apart.iter().position(|(a, b)| a == b)?;
    let span = *reading.apart.get(place)?;
    let pair = &source[span.start..span.end];
    let word = pair.split_whitespace().next_back().unwrap_or(pair);
    let fault = Fault::new(span, format!("`{word}` is held apart from itself"), "one name twice");
    Some(fault.help("a name is always equal to itself; take one of the two away"))
}
