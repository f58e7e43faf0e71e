//! Questions at a limit, just below it or just above it.

use crate::draft::{apart_pair, Draft};
use crate::grow::{Place, Style};
use crate::random::Random;
use crate::term::{Name, Term};

/// A question near a limit. About half of them pass it and are turned back.
pub fn near_limit(random: &mut Random) -> Vec<u8> {
    let mut draft = match random.chance(50) {
        true => Draft::near_miss(random),
        false => Draft::unrelated(random),
    };
    match random.below(10) {
        0 => padded_part(random, &mut draft),
        1 => padded_body(random, &mut draft),
        2 => many_definitions(random, &mut draft),
        3 => high_arity(random, &mut draft),
        4 => long_apart_list(random, &mut draft),
        5 => all_names(random, &mut draft),
        6 => deep_binders(random, &mut draft),
        7 => long_result(random, &mut draft),
        8 => many_steps(random, &mut draft),
        _ => return long_question(random, &draft),
    }
    draft.bytes()
}

/// A term made this long by silent steps before it; one that is too long is replaced.
fn padded(term: &Term, length: usize) -> Term {
    let start = if term.size() <= length { term.clone() } else { Term::Nil };
    let missing = length - start.size();
    (0..missing).fold(start, |term, _| Term::Silent(term.into()))
}

/// The same for a part, where parallel must stay on top.
fn padded_beside(random: &mut Random, term: &Term, length: usize) -> Term {
    if !term.has_parallel() && random.chance(50) {
        return padded(term, length);
    }
    match length.checked_sub(term.size() + 1) {
        Some(rest) if rest > 0 => {
            Term::Parallel(term.clone().into(), padded(&Term::Nil, rest).into())
        }
        _ => padded(&Term::Nil, length),
    }
}

fn padded_part(random: &mut Random, draft: &mut Draft) {
    let length = random.between(110, 114);
    draft.first = padded_beside(random, &draft.first, length);
    if random.chance(50) {
        draft.second = draft.first.clone();
    } else {
        std::mem::swap(&mut draft.first, &mut draft.second);
    }
}

fn padded_body(random: &mut Random, draft: &mut Draft) {
    let length = random.between(110, 114);
    if let Some(last) = draft.definitions.last_mut() {
        last.1 = padded(&last.1, length);
    } else {
        draft.definitions.push((0, padded(&Term::Nil, length)));
    }
}

fn many_definitions(random: &mut Random, draft: &mut Draft) {
    let count = random.between(15, 18);
    while draft.definitions.len() < count {
        let arity = random.below(9) as u8;
        let style = draft.style();
        let body = style.body(random, arity, 12);
        draft.definitions.push((arity, body));
    }
    if count <= 16 {
        draft.first = draft.style().part(random, Place::PART, 60);
    }
}

fn high_arity(random: &mut Random, draft: &mut Draft) {
    let arity = random.between(7, 10) as u8;
    let style = Style { names: draft.names, arities: vec![arity] };
    let body = style.body(random, arity, 40);
    draft.definitions = vec![(arity, body)];
    let names = |random: &mut Random| Name::Free(random.below(draft.names) as u8);
    draft.first = Term::Call(0, (0..arity).map(|_| names(random)).collect());
    draft.second = match random.chance(50) {
        true => draft.definitions[0].1.clone().instance(&call_names(&draft.first)),
        false => Term::Call(0, (0..arity).map(|_| names(random)).collect()),
    };
}

fn call_names(term: &Term) -> Vec<Name> {
    term.names()
}

fn long_apart_list(random: &mut Random, draft: &mut Draft) {
    let pairs = random.between(118, 122);
    draft.apart = (0..pairs).map(|_| apart_pair(random, 16)).collect();
}

/// All 16 names, or one that is no name.
fn all_names(random: &mut Random, draft: &mut Draft) {
    let highest = random.between(14, 16) as u8;
    let outputs = (0..=highest).rev().fold(Term::Nil, |term, name| {
        Term::Output(Name::Free(name), Name::Free(name), term.into())
    });
    let third = match random.below(3) {
        0 => Term::Silent(outputs.into()),
        1 => outputs,
        _ => Term::NewOutput(Name::Free(0), outputs.into()),
    };
    let beside = |side: &Term| Term::Parallel(side.clone().into(), third.clone().into());
    if draft.first.size().max(draft.second.size()) + third.size() < 112 {
        draft.first = beside(&draft.first);
        draft.second = beside(&draft.second);
    }
    draft.names = 16;
}

/// Many binders, and a name that reaches the outermost, or just past it.
fn deep_binders(random: &mut Random, draft: &mut Draft) {
    let binders = random.between(40, 108);
    let reached = binders - random.below(3) + usize::from(random.chance(20));
    let last = Term::Output(Name::Bound(reached.max(1) - 1), Name::Bound(0), Term::Nil.into());
    draft.first = (0..binders).fold(last, |term, _| Term::Restriction(term.into()));
    draft.second = match random.chance(50) {
        true => Term::Nil,
        false => draft.first.clone(),
    };
}

/// A call whose body leaves a result of about 112 bytes.
fn long_result(random: &mut Random, draft: &mut Draft) {
    let body = random.between(60, 108);
    let beside = random.between(110, 114) - body;
    draft.definitions = vec![(0, padded(&Term::Nil, body))];
    let call = Term::Call(0, vec![]);
    draft.first = Term::Parallel(call.into(), padded(&Term::Nil, beside).into());
    draft.second = match random.chance(50) {
        true => Term::Nil,
        false => draft.first.clone(),
    };
}

/// About 256 distinct steps: 20 inputs beside 11 outputs, all of which can meet, and beside
/// some silent steps.
fn many_steps(random: &mut Random, draft: &mut Draft) {
    let a = Name::Bound(0);
    let inputs = branches(10, |after| Term::Input(a, after.into()));
    let outputs = branches(11, |after| Term::Output(a, a, after.into()));
    draft.definitions = vec![(1, inputs), (1, outputs)];
    let channel = Name::Free(random.below(draft.names) as u8);
    let call = |k| Box::new(Term::Call(k, vec![channel]));
    let silent = branches(random.between(3, 7), |after| Term::Silent(after.into()));
    let meeting = Term::Parallel(call(0), Term::Parallel(call(0), call(1)).into());
    draft.first = Term::Parallel(silent.into(), meeting.into());
    draft.second = Term::Nil;
    if random.chance(50) {
        std::mem::swap(&mut draft.first, &mut draft.second);
    }
}

/// A choice of this many prefixes, no two of which lead to the same.
fn branches(count: usize, prefix: impl Fn(Term) -> Term) -> Term {
    let branch = |silent: usize| prefix(padded(&Term::Nil, 1 + silent));
    let join = |choice: Term, branch: Term| Term::Choice(choice.into(), branch.into());
    (0..count).map(branch).reduce(join).unwrap_or(Term::Nil)
}

/// A question near 4,096 bytes, all of whose fields end where they should.
fn long_question(random: &mut Random, draft: &Draft) -> Vec<u8> {
    let mut fields = draft.fields();
    fields.apart.clear();
    let length = random.between(4094, 4099);
    fields.apart = vec![random.byte() & 0x0F; length - fields.bytes().len()];
    fields.bytes()
}
