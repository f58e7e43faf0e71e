//! Restrictions that bind nothing (request 2026-04): put anywhere into a question, gathered by
//! definitions that go round, or so many that a result passes 112 bytes before they go.

use crate::draft::{apart_list, Draft, PART_BYTES};
use crate::grow::Style;
use crate::random::Random;
use crate::term::{Name, Term};

impl Draft {
    /// A question with restrictions that bind nothing or only a name of a call, at any depth of its
    /// parts and bodies.
    pub fn untidy(random: &mut Random) -> Draft {
        let mut draft = match random.below(12) {
            0..=3 => Draft::near_miss(random),
            4..=5 => Draft::busy(random),
            6 => Draft::unrelated(random),
            7..=9 => Draft::gathering(random),
            _ => return Draft::long_untidied(random),
        };
        let bodies = draft.definitions.iter_mut().map(|definition| &mut definition.1);
        for term in bodies.chain([&mut draft.first, &mut draft.second]) {
            for _ in 0..random.weighted(&[(4, 0), (4, 1), (3, 2), (2, 4)]) {
                let count = random.weighted(&[(12, 1), (4, 2), (1, 30)]);
                restrict_somewhere(random, term, count);
            }
        }
        draft
    }

    /// Definitions that go round and restrict their calls, side by side, and a rewritten copy.
    fn gathering(random: &mut Random) -> Draft {
        let names = random.between(1, 4);
        let arities = (0..random.between(1, 3)).map(|_| random.below(4) as u8).collect();
        let style = Style { names, arities };
        let body = |random: &mut Random, arity| {
            let mut body = style.round(random, arity);
            restrict_calls(random, &mut body);
            body
        };
        let definitions = style.arities.iter().map(|&arity| (arity, body(random, arity)));
        let definitions = definitions.collect();
        let first = style.calls(random);
        let apart = apart_list(random, names);
        let draft = Draft { definitions, first, second: Term::Nil, apart, names };
        let rewritings = random.below(3);
        draft.copied(random, rewritings)
    }

    /// A call, or two that meet, whose bodies leave many unused restrictions, beside a part with
    /// which the tidied result has about 112 bytes or a few.
    fn long_untidied(random: &mut Random) -> Draft {
        let a = Name::Bound(0);
        let prefixes: [fn(Name, Term) -> Term; 2] =
            [|a, after| Term::Output(a, a, after.into()), |a, after| Term::Input(a, after.into())];
        let definitions = prefixes.map(|prefix| {
            let restrictions = random.between(20, 100);
            let after = Term::Output(a, a, Term::Nil.into());
            let after = if prefix(a, Term::Nil).binds() == 1 { after.shifted() } else { after };
            let after = (0..restrictions).fold(after, |after, _| restricted(after));
            (1, prefix(a, after))
        });
        let channel = Name::Free(0);
        let call = |k| Term::Call(k, vec![channel]);
        let calls = match random.chance(70) {
            true => Term::Parallel(call(0).into(), call(1).into()),
            false => call(random.below(2) as u8),
        };
        let restrictions = usize::from(random.chance(30));
        let room = PART_BYTES - restrictions - 1 - calls.size();
        let length = match random.chance(50) {
            true => random.between(1, 10),
            false => room - random.below(4),
        };
        let beside = (1..length).fold(Term::Nil, |after, _| Term::Silent(after.into()));
        let part = Term::Parallel(calls.into(), beside.into());
        let first = (0..restrictions).fold(part, |part, _| restricted(part));
        let second = if random.chance(70) { first.clone() } else { Term::Nil };
        let definitions = definitions.to_vec();
        Draft { definitions, first, second, apart: vec![], names: 1 }
    }
}

/// The term beneath a restriction that it does not use.
fn restricted(term: Term) -> Term {
    Term::Restriction(term.shifted().into())
}

/// Puts so many restrictions around some term within the term, if they fit. Now and then a call
/// beneath has the name of the nearest.
fn restrict_somewhere(random: &mut Random, term: &mut Term, count: usize) {
    if term.size() + count > PART_BYTES {
        return;
    }
    let target = random.below(term.count());
    let spot = term.nth_mut(target);
    *spot = (0..count).fold(spot.clone(), |term, _| restricted(term));
    if random.chance(30) {
        let nearest = (1..count).fold(spot, |term, _| term.beneath_mut().remove(0));
        name_in_call(random, nearest.beneath_mut().remove(0), 0);
    }
}

/// Restricts each call of the term once to three times. Now and then it has one of the names.
fn restrict_calls(random: &mut Random, term: &mut Term) {
    if let Term::Call(..) = term {
        for _ in 0..random.weighted(&[(1, 0), (5, 1), (2, 2), (1, 3)]) {
            *term = restricted(term.clone());
            if random.chance(30) {
                name_in_call(random, term.beneath_mut().remove(0), 0);
            }
        }
        return;
    }
    for beneath in term.beneath_mut() {
        restrict_calls(random, beneath);
    }
}

/// Puts the name bound this far outside of the term for one name of a call in it, if there is one.
fn name_in_call(random: &mut Random, term: &mut Term, outward: usize) -> bool {
    if let Term::Call(_, names) = term {
        if names.is_empty() {
            return false;
        }
        let place = random.below(names.len());
        names[place] = Name::Bound(outward);
        return true;
    }
    let outward = outward + term.binds();
    term.beneath_mut().into_iter().any(|beneath| name_in_call(random, beneath, outward))
}
