//! Rewriting one place of a part. Most rewritings keep its behaviour, some change it a little.

use crate::draft::Draft;
use crate::grow::{Place, Style};
use crate::random::Random;
use crate::term::{Name, Term};

/// How often a place and a rewriting are drawn before the part is given back unchanged.
const TRIES: usize = 40;

/// What a rewriting makes of a term at its place, if it applies there.
type Rewriting<'a> = fn(&Site<'a>, &mut Random, &Term) -> Option<Term>;

/// The rewritings with their weights.
fn rewritings<'a>() -> [(usize, Rewriting<'a>); 16] {
    [
        (8, Site::commuted),
        (5, Site::regrouped),
        (5, Site::with_inaction),
        (5, Site::doubled),
        (9, Site::guarded_copy),
        (4, Site::guarded_other),
        (12, Site::unfolded),
        (2, Site::trivially_matched),
        (2, Site::idly_restricted),
        (9, Site::restriction_inward),
        (7, Site::restriction_outward),
        (6, Site::new_output_form),
        (9, Site::expanded),
        (7, Site::names_exchanged),
        (3, Site::name_replaced),
        (2, Site::cut),
    ]
}

/// The part with one place rewritten, or the same part if nothing was found.
pub fn rewritten(random: &mut Random, draft: &Draft, part: &Term) -> Term {
    for _ in 0..TRIES {
        let rewriting = random.weighted(&rewritings());
        let mut changed = part.clone();
        let target = random.below(part.count());
        let mut walk = Walk { random, draft, rewriting, left: target };
        if walk.rewrite(&mut changed, Place::PART) {
            return changed;
        }
    }
    part.clone()
}

/// The walk to the place to rewrite.
struct Walk<'a> {
    random: &'a mut Random,
    draft: &'a Draft,
    rewriting: Rewriting<'a>,
    left: usize,
}

impl Walk<'_> {
    /// Rewrites the term if it is the one; whether something was rewritten.
    fn rewrite(&mut self, term: &mut Term, place: Place) -> bool {
        if self.left == 0 {
            self.left = usize::MAX;
            let site = Site { draft: self.draft, style: self.draft.style(), place };
            let changed = (self.rewriting)(&site, self.random, term);
            return changed.map(|changed| *term = changed).is_some();
        }
        self.left -= 1;
        let place = Place { binders: place.binders + term.binds(), ..place };
        let mut done = false;
        for inner in term.beneath_mut() {
            done = done || self.left != usize::MAX && self.rewrite(inner, place);
        }
        done
    }
}

/// The place of a term within its question.
struct Site<'a> {
    draft: &'a Draft,
    style: Style,
    place: Place,
}

impl Site<'_> {
    fn commuted(&self, _: &mut Random, term: &Term) -> Option<Term> {
        match term.clone() {
            Term::Choice(p, q) => Some(Term::Choice(q, p)),
            Term::Parallel(p, q) => Some(Term::Parallel(q, p)),
            _ => None,
        }
    }

    fn regrouped(&self, _: &mut Random, term: &Term) -> Option<Term> {
        match term.clone() {
            Term::Choice(p, q) => match *p {
                Term::Choice(o, p) => Some(Term::Choice(o, Term::Choice(p, q).into())),
                _ => None,
            },
            Term::Parallel(p, q) => match *p {
                Term::Parallel(o, p) => Some(Term::Parallel(o, Term::Parallel(p, q).into())),
                _ => None,
            },
            _ => None,
        }
    }

    /// Beside or in choice with inaction.
    fn with_inaction(&self, random: &mut Random, term: &Term) -> Option<Term> {
        let term = Box::new(term.clone());
        match (term.has_parallel(), random.chance(50)) {
            (true, true) => Some(Term::Parallel(term, Term::Nil.into())),
            (true, false) => Some(Term::Parallel(Term::Nil.into(), term)),
            (false, true) => Some(Term::Choice(term, Term::Nil.into())),
            (false, false) => Some(Term::Choice(Term::Nil.into(), term)),
        }
    }

    fn doubled(&self, _: &mut Random, term: &Term) -> Option<Term> {
        let copy = || Box::new(term.clone());
        (!term.has_parallel()).then(|| Term::Choice(copy(), copy()))
    }

    /// An extra branch: the same term under a match.
    fn guarded_copy(&self, random: &mut Random, term: &Term) -> Option<Term> {
        let (a, b) = self.two_names(random)?;
        let guarded = Term::Match(a, b, term.clone().into());
        (!term.has_parallel()).then(|| Term::Choice(term.clone().into(), guarded.into()))
    }

    /// An extra branch: some other term under a match.
    fn guarded_other(&self, random: &mut Random, term: &Term) -> Option<Term> {
        let (a, b) = self.two_names(random)?;
        let other = self.style.sequential(random, self.place, 5);
        let guarded = Term::Match(a, b, other.into());
        (!term.has_parallel()).then(|| Term::Choice(term.clone().into(), guarded.into()))
    }

    fn unfolded(&self, _: &mut Random, term: &Term) -> Option<Term> {
        match term {
            Term::Call(k, names) => {
                let body = self.draft.definitions[usize::from(*k)].1.clone();
                Some(body.instance(names))
            }
            _ => None,
        }
    }

    fn trivially_matched(&self, random: &mut Random, term: &Term) -> Option<Term> {
        let a = self.style.name(random, self.place)?;
        (!term.has_parallel()).then(|| Term::Match(a, a, term.clone().into()))
    }

    fn idly_restricted(&self, _: &mut Random, term: &Term) -> Option<Term> {
        Some(Term::Restriction(term.clone().shifted().into()))
    }

    /// A restriction past a choice, a silent step or a parallel with one side that does not use it.
    fn restriction_inward(&self, _: &mut Random, term: &Term) -> Option<Term> {
        let Term::Restriction(inner) = term.clone() else { return None };
        let restricted = |term: Box<Term>| Box::new(Term::Restriction(term));
        match *inner {
            Term::Choice(p, q) => Some(Term::Choice(restricted(p), restricted(q))),
            Term::Silent(p) => Some(Term::Silent(restricted(p))),
            Term::Parallel(p, q) if !p.uses_binder() => {
                Some(Term::Parallel(p.opened(Name::Free(0)).into(), restricted(q)))
            }
            Term::Parallel(p, q) if !q.uses_binder() => {
                Some(Term::Parallel(restricted(p), q.opened(Name::Free(0)).into()))
            }
            _ => None,
        }
    }

    /// The other way, and over the whole of a choice.
    fn restriction_outward(&self, _: &mut Random, term: &Term) -> Option<Term> {
        let restricted = |term: Term| Some(Term::Restriction(term.into()));
        match term.clone() {
            Term::Parallel(p, q) => match (*p, *q) {
                (Term::Restriction(p), q) => restricted(Term::Parallel(p, q.shifted().into())),
                (p, Term::Restriction(q)) => restricted(Term::Parallel(p.shifted().into(), q)),
                _ => None,
            },
            Term::Choice(p, q) => match (*p, *q) {
                (Term::Restriction(p), q) => restricted(Term::Choice(p, q.shifted().into())),
                (p, Term::Restriction(q)) => restricted(Term::Choice(p.shifted().into(), q)),
                _ => None,
            },
            Term::Silent(p) => match *p {
                Term::Restriction(p) if !p.has_parallel() => restricted(Term::Silent(p)),
                _ => None,
            },
            _ => None,
        }
    }

    /// The two ways to write the output of a new name.
    fn new_output_form(&self, _: &mut Random, term: &Term) -> Option<Term> {
        match term.clone() {
            Term::NewOutput(a, p) => {
                let Term::Input(a, _) = Term::Input(a, Term::Nil.into()).shifted() else {
                    return None;
                };
                Some(Term::Restriction(Term::Output(a, Name::Bound(0), p).into()))
            }
            Term::Restriction(inner) => match *inner {
                Term::Output(Name::Free(a), Name::Bound(0), p) => {
                    Some(Term::NewOutput(Name::Free(a), p))
                }
                Term::Output(Name::Bound(k), Name::Bound(0), p) if k > 0 => {
                    Some(Term::NewOutput(Name::Bound(k - 1), p))
                }
                _ => None,
            },
            _ => None,
        }
    }

    /// A parallel of two terms as a choice of what they can do first. Now and then their
    /// meetings are forgotten.
    fn expanded(&self, random: &mut Random, term: &Term) -> Option<Term> {
        let Term::Parallel(p, q) = term else { return None };
        let mut fuel = 24;
        let meetings = random.chance(80);
        expansion(p, q, meetings, &mut fuel)
    }

    /// The two names of an output or match change places.
    fn names_exchanged(&self, _: &mut Random, term: &Term) -> Option<Term> {
        match term.clone() {
            Term::Output(a, b, p) if a != b => Some(Term::Output(b, a, p)),
            Term::Match(a, b, p) if a != b => Some(Term::Match(b, a, p)),
            Term::Call(k, mut names) if names.len() > 1 => {
                names.rotate_left(1);
                Some(Term::Call(k, names))
            }
            _ => None,
        }
    }

    fn name_replaced(&self, random: &mut Random, term: &Term) -> Option<Term> {
        let name = self.style.name(random, self.place)?;
        let mut changed = term.clone();
        let mut names = changed.names_mut();
        if names.is_empty() {
            return None;
        }
        let place = random.below(names.len());
        *names[place] = name;
        Some(changed)
    }

    fn cut(&self, _: &mut Random, term: &Term) -> Option<Term> {
        match term {
            Term::Choice(p, _) => Some((**p).clone()),
            Term::Nil => None,
            _ => Some(Term::Nil),
        }
    }

    fn two_names(&self, random: &mut Random) -> Option<(Name, Name)> {
        Some((self.style.name(random, self.place)?, self.style.name(random, self.place)?))
    }
}

/// A way to begin a term: the matches above a prefix, and the prefix with what follows.
struct Start {
    matches: Vec<(Name, Name)>,
    prefix: Term,
}

/// The ways to begin a term, if it is made of inaction, prefixes, matches and choices.
fn starts(term: &Term) -> Option<Vec<Start>> {
    match term {
        Term::Nil => Some(vec![]),
        Term::Match(a, b, p) => {
            let mut inner = starts(p)?;
            inner.iter_mut().for_each(|start| start.matches.push((*a, *b)));
            Some(inner)
        }
        Term::Choice(p, q) => {
            let mut both = starts(p)?;
            both.extend(starts(q)?);
            Some(both)
        }
        Term::Silent(_) | Term::Input(..) | Term::Output(..) | Term::NewOutput(..) => {
            Some(vec![Start { matches: vec![], prefix: term.clone() }])
        }
        Term::Parallel(..) | Term::Restriction(_) | Term::Call(..) => None,
    }
}

/// The parallel of two terms without parallel, as a choice of all they can do first.
fn expansion(p: &Term, q: &Term, meetings: bool, fuel: &mut usize) -> Option<Term> {
    *fuel = fuel.checked_sub(1)?;
    let (left, right) = (starts(p)?, starts(q)?);
    let mut branches = Vec::new();
    for start in &left {
        branches.push(moved(start, |p, binds| expansion(p, &beneath(q, binds), meetings, fuel))?);
    }
    for start in &right {
        branches.push(moved(start, |q, binds| expansion(&beneath(p, binds), q, meetings, fuel))?);
    }
    for (start, other) in left.iter().flat_map(|l| right.iter().map(move |r| (l, r))) {
        if meetings {
            branches.extend(met(start, other, false, fuel)?);
            branches.extend(met(other, start, true, fuel)?);
        }
    }
    let join = |q: Term, p: Term| Term::Choice(p.into(), q.into());
    Some(branches.into_iter().rev().reduce(join).unwrap_or(Term::Nil))
}

fn beneath(term: &Term, binds: bool) -> Term {
    if binds {
        term.clone().shifted()
    } else {
        term.clone()
    }
}

/// One side's prefix, and then what the function makes of what follows it.
fn moved(start: &Start, mut then: impl FnMut(&Term, bool) -> Option<Term>) -> Option<Term> {
    let after = match &start.prefix {
        Term::Silent(p) => Term::Silent(then(p, false)?.into()),
        Term::Input(a, p) => Term::Input(*a, then(p, true)?.into()),
        Term::Output(a, b, p) => Term::Output(*a, *b, then(p, false)?.into()),
        Term::NewOutput(a, p) => Term::NewOutput(*a, then(p, true)?.into()),
        _ => return None,
    };
    Some(guarded(&start.matches, after))
}

/// The meeting of an output with an input, if they are that; the output's side is the right one
/// if they are swapped. The outer nothing is a lack of fuel.
fn met(output: &Start, input: &Start, swapped: bool, fuel: &mut usize) -> Option<Option<Term>> {
    let Term::Input(to, q) = &input.prefix else { return Some(None) };
    let mut together = |p: &Term, q: &Term| match swapped {
        false => expansion(p, q, true, fuel),
        true => expansion(q, p, true, fuel),
    };
    let (from, after) = match &output.prefix {
        Term::Output(from, object, p) => (from, together(p, &q.as_ref().clone().opened(*object))?),
        Term::NewOutput(from, p) => (from, Term::Restriction(together(p, q)?.into())),
        _ => return Some(None),
    };
    let mut matches = [output.matches.clone(), input.matches.clone()].concat();
    if from != to {
        matches.push((*from, *to));
    }
    Some(Some(guarded(&matches, Term::Silent(after.into()))))
}

fn guarded(matches: &[(Name, Name)], term: Term) -> Term {
    matches.iter().fold(term, |term, &(a, b)| Term::Match(a, b, term.into()))
}
