//! Damaged questions.

use crate::draft::Draft;
use crate::random::Random;
use crate::term::{Name, Term};

/// An accepted question that was then damaged in one to three places, as a tree or in its bytes.
/// Some stay accepted.
pub fn damaged(random: &mut Random) -> Vec<u8> {
    let mut draft = match random.chance(50) {
        true => Draft::near_miss(random),
        false => Draft::unrelated(random),
    };
    let in_tree = random.chance(60);
    if in_tree {
        for _ in 0..random.between(1, 3) {
            fault(random, &mut draft);
        }
    }
    let mut bytes = draft.bytes();
    let in_bytes = if in_tree { random.below(2) } else { random.between(1, 3) };
    for _ in 0..in_bytes {
        damage(random, &mut bytes);
    }
    bytes
}

/// Puts one fault, such as the checks 5 to 12 look for, into the tree.
fn fault(random: &mut Random, draft: &mut Draft) {
    match random.below(7) {
        0 => {
            let name = random.byte() % 20;
            draft.apart.push((name, name.wrapping_add(random.byte() % 3)));
        }
        1 => unprefixed_call(random, draft),
        _ => fault_in_term(random, draft),
    }
}

/// Adds a call without a prefix to a body, as a branch of its own or beneath a match.
fn unprefixed_call(random: &mut Random, draft: &mut Draft) {
    if draft.definitions.is_empty() {
        return;
    }
    let k = random.below(draft.definitions.len());
    let arity = usize::from(draft.definitions[k].0);
    let body = draft.definitions[k].1.clone();
    let call = Term::Call(k as u8, (0..arity).map(Name::Bound).collect());
    let call = match arity > 1 && random.chance(50) {
        true => Term::Match(Name::Bound(0), Name::Bound(1), call.into()),
        false => call,
    };
    draft.definitions[k].1 = Term::Choice(body.into(), call.into());
}

fn fault_in_term(random: &mut Random, draft: &mut Draft) {
    let definitions = draft.definitions.len();
    let place = random.below(definitions + 2);
    let missing = (definitions + random.below(2)) as u8;
    let term = match place.checked_sub(definitions) {
        None => &mut draft.definitions[place].1,
        Some(0) => &mut draft.first,
        Some(_) => &mut draft.second,
    };
    let target = random.below(term.count());
    let spot = term.nth_mut(target);
    *spot = faulty(random, spot.clone(), missing);
}

/// The term with a fault before it, after it or in one of its names.
fn faulty(random: &mut Random, mut term: Term, missing: u8) -> Term {
    let names = term.names_mut().len();
    match random.below(9) {
        0 => Term::Parallel(term.into(), Term::Nil.into()),
        1 => Term::Silent(Term::Parallel(Term::Nil.into(), term.into()).into()),
        2 => Term::Call(missing, vec![]),
        3 => Term::Choice(term.into(), Term::Call(0, vec![]).into()),
        4 => Term::Choice(
            Term::Output(Name::Free(random.byte()), Name::Free(0), Term::Nil.into()).into(),
            term.into(),
        ),
        5 if names > 0 => {
            let place = random.below(names);
            *term.names_mut()[place] = Name::Bound(random.below(12));
            term
        }
        6 if names > 0 => {
            let place = random.below(names);
            *term.names_mut()[place] = Name::Free(random.between(13, 18) as u8);
            term
        }
        7 => (0..random.between(20, 110)).fold(term, |term, _| Term::Silent(term.into())),
        _ => Term::Nil,
    }
}

fn damage(random: &mut Random, bytes: &mut Vec<u8>) {
    if bytes.is_empty() {
        return;
    }
    let place = random.below(bytes.len());
    match random.below(12) {
        0 | 1 => bytes[place] ^= 1 << random.below(8),
        2 | 3 => bytes[place] = random.byte(),
        4 | 5 => {
            bytes[place] = *random.pick(&[0x00, 0x09, 0x0A, 0x0F, 0x10, 0x7F, 0x80, 0x81, 0xFF])
        }
        6 => {
            bytes.remove(place);
        }
        7 => bytes.insert(place, random.byte()),
        8 => bytes.truncate(place),
        9 => bytes.extend((0..random.between(1, 4)).map(|_| random.byte())),
        _ => lying_length(random, bytes),
    }
}

/// Changes the two-byte length of a body, part or apart list.
fn lying_length(random: &mut Random, bytes: &mut [u8]) {
    let places = length_places(bytes);
    if places.is_empty() {
        return;
    }
    let place = *random.pick(&places);
    let length = u16::from_be_bytes([bytes[place], bytes[place + 1]]);
    let lie = match random.below(5) {
        0 => length.wrapping_add(1),
        1 => length.wrapping_sub(1),
        2 => 0,
        3 => *random.pick(&[112, 113, 240, 241, 242, 0x0100, 0xFFFF]),
        _ => length.swap_bytes(),
    };
    bytes[place..place + 2].copy_from_slice(&lie.to_be_bytes());
}

/// Where the lengths stand, as far as the fields can be followed.
fn length_places(bytes: &[u8]) -> Vec<usize> {
    let mut places = Vec::new();
    let count = usize::from(bytes.get(1).copied().unwrap_or(0));
    let mut at = 2 + count;
    while places.len() < count + 3 && at + 2 <= bytes.len() {
        places.push(at);
        at += 2 + usize::from(u16::from_be_bytes([bytes[at], bytes[at + 1]]));
    }
    places
}
