//! Pieces in another order: the laws of request 2026-07, either way and at any place of a part.

use crate::random::Random;
use crate::term::Term;

/// How often a place and a law are drawn before the part is given back unchanged.
const TRIES: usize = 40;

/// What a law makes of a term, if it applies; whether parallel may stand there is given.
type Law = fn(&Term, bool) -> Option<Term>;

/// The laws with their weights.
const LAWS: [(usize, Law); 7] = [
    (4, exchanged),
    (4, regrouped),
    (4, regrouped_back),
    (1, with_inaction),
    (1, beside_inaction),
    (1, doubled),
    (2, shortened),
];

/// The part with its pieces moved at one place, or the same part if nothing was found.
pub fn rearranged(random: &mut Random, part: &Term) -> Term {
    for _ in 0..TRIES {
        let law = random.weighted(&LAWS);
        let mut changed = part.clone();
        if at(&mut changed, random.below(part.count()), true, law) {
            return changed;
        }
    }
    part.clone()
}

/// Applies the law to the term of this number in a walk from the root; whether it applies.
fn at(term: &mut Term, mut number: usize, outermost: bool, law: Law) -> bool {
    if number == 0 {
        return law(term, outermost).map(|changed| *term = changed).is_some();
    }
    number -= 1;
    let outermost = outermost && matches!(term, Term::Parallel(..) | Term::Restriction(_));
    for inner in term.beneath_mut() {
        let count = inner.count();
        if number < count {
            return at(inner, number, outermost, law);
        }
        number -= count;
    }
    unreachable!("the number is below the count")
}

fn exchanged(term: &Term, _: bool) -> Option<Term> {
    match term.clone() {
        Term::Choice(p, q) => Some(Term::Choice(q, p)),
        Term::Parallel(p, q) => Some(Term::Parallel(q, p)),
        _ => None,
    }
}

fn regrouped(term: &Term, _: bool) -> Option<Term> {
    match term.clone() {
        Term::Choice(left, r) => match *left {
            Term::Choice(p, q) => Some(Term::Choice(p, Term::Choice(q, r).into())),
            _ => None,
        },
        Term::Parallel(left, r) => match *left {
            Term::Parallel(p, q) => Some(Term::Parallel(p, Term::Parallel(q, r).into())),
            _ => None,
        },
        _ => None,
    }
}

fn regrouped_back(term: &Term, _: bool) -> Option<Term> {
    match term.clone() {
        Term::Choice(p, right) => match *right {
            Term::Choice(q, r) => Some(Term::Choice(Term::Choice(p, q).into(), r)),
            _ => None,
        },
        Term::Parallel(p, right) => match *right {
            Term::Parallel(q, r) => Some(Term::Parallel(Term::Parallel(p, q).into(), r)),
            _ => None,
        },
        _ => None,
    }
}

fn with_inaction(term: &Term, _: bool) -> Option<Term> {
    (!term.has_parallel()).then(|| Term::Choice(term.clone().into(), Term::Nil.into()))
}

fn beside_inaction(term: &Term, outermost: bool) -> Option<Term> {
    outermost.then(|| Term::Parallel(term.clone().into(), Term::Nil.into()))
}

fn doubled(term: &Term, _: bool) -> Option<Term> {
    (!term.has_parallel()).then(|| Term::Choice(term.clone().into(), term.clone().into()))
}

/// Inaction or the second copy taken away.
fn shortened(term: &Term, _: bool) -> Option<Term> {
    match term {
        Term::Choice(p, q) if **q == Term::Nil || p == q => Some((**p).clone()),
        Term::Parallel(p, q) if **q == Term::Nil => Some((**p).clone()),
        _ => None,
    }
}
