//! Growing random terms that the checks accept.

use crate::random::Random;
use crate::term::{Name, Term};

/// What a question's terms are grown from.
#[derive(Clone, Debug)]
pub struct Style {
    /// How many free names are used, 1 to 16.
    pub names: usize,
    /// The arities of the definitions.
    pub arities: Vec<u8>,
}

/// Where a sequential term stands.
#[derive(Clone, Copy, Debug)]
pub struct Place {
    /// The binders around it.
    pub binders: usize,
    /// Whether it is in a body, where no name is free.
    pub in_body: bool,
    /// Whether a prefix stands above it.
    pub prefixed: bool,
}

impl Place {
    /// The root of a part.
    pub const PART: Place = Place { binders: 0, in_body: false, prefixed: false };

    fn beneath_prefix(self, binders: usize) -> Place {
        Place { binders: self.binders + binders, prefixed: true, ..self }
    }

    fn beneath_binder(self) -> Place {
        Place { binders: self.binders + 1, ..self }
    }
}

#[derive(Clone, Copy)]
enum Kind {
    Silent,
    Input,
    Output,
    NewOutput,
    Match,
    Choice,
    Restriction,
    Call,
    Nil,
}

impl Style {
    /// A style with few or many names and definitions.
    pub fn random(random: &mut Random) -> Style {
        let names = match random.below(8) {
            0..=5 => random.between(1, 4),
            6 => random.between(4, 8),
            _ => random.between(9, 16),
        };
        let definitions = match random.below(10) {
            0..=2 => 0,
            3..=8 => random.between(1, 3),
            _ => random.between(4, 16),
        };
        let arity = |random: &mut Random| match random.below(10) {
            0..=8 => random.below(4) as u8,
            _ => random.below(9) as u8,
        };
        Style { names, arities: (0..definitions).map(|_| arity(random)).collect() }
    }

    /// A name that may stand here, if there is one.
    pub fn name(&self, random: &mut Random, place: Place) -> Option<Name> {
        let bound = place.binders > 0 && (place.in_body || random.chance(45));
        if bound {
            let nearest = random.below(place.binders).min(random.below(place.binders));
            return Some(Name::Bound(nearest));
        }
        (!place.in_body).then(|| Name::Free(random.below(self.names) as u8))
    }

    /// A body of this arity, at most this long.
    pub fn body(&self, random: &mut Random, arity: u8, budget: usize) -> Term {
        let binders = usize::from(arity);
        self.sequential(random, Place { binders, in_body: true, prefixed: false }, budget)
    }

    /// A body that goes round: one or two chains of prefixes that each end in a call.
    pub fn round(&self, random: &mut Random, arity: u8) -> Term {
        let binders = usize::from(arity);
        let place = Place { binders, in_body: true, prefixed: false };
        let length = random.between(1, 3);
        let chain = self.chain(random, place, length);
        match random.chance(25) {
            true => Term::Choice(chain.into(), self.chain(random, place, 1).into()),
            false => chain,
        }
    }

    fn chain(&self, random: &mut Random, place: Place, length: usize) -> Term {
        if length == 0 {
            return self.call(random, place, usize::MAX).unwrap_or(Term::Nil);
        }
        let kinds = [(6, Kind::Silent), (6, Kind::Input), (9, Kind::Output), (3, Kind::NewOutput)];
        let kind = random.weighted(&kinds);
        let names = self.name(random, place).zip(self.name(random, place));
        let mut beneath = |binders| {
            let after = self.chain(random, place.beneath_prefix(binders), length - 1);
            Box::new(after)
        };
        match (kind, names) {
            (Kind::Input, Some((a, _))) => Term::Input(a, beneath(1)),
            (Kind::NewOutput, Some((a, _))) => Term::NewOutput(a, beneath(1)),
            (Kind::Output, Some((a, b))) => Term::Output(a, b, beneath(0)),
            _ => Term::Silent(beneath(0)),
        }
    }

    /// A part of two to four calls side by side, now and then beneath restrictions.
    pub fn calls(&self, random: &mut Random) -> Term {
        let restrictions = if random.chance(30) { random.between(1, 2) } else { 0 };
        let place = Place { binders: restrictions, ..Place::PART };
        let mut part = self.call(random, place, usize::MAX).unwrap_or(Term::Nil);
        for _ in 0..random.weighted(&[(4, 1), (4, 2), (2, 3)]) {
            let call = self.call(random, place, usize::MAX).unwrap_or(Term::Nil);
            part = Term::Parallel(part.into(), call.into());
        }
        (0..restrictions).fold(part, |part, _| Term::Restriction(part.into()))
    }

    /// A part at most this long.
    pub fn part(&self, random: &mut Random, place: Place, budget: usize) -> Term {
        match random.below(100) {
            0..=39 if budget >= 7 => {
                let left = random.between(3, budget - 4);
                let first = self.part(random, place, left);
                let second = self.part(random, place, budget - 1 - first.size());
                Term::Parallel(first.into(), second.into())
            }
            40..=49 if budget >= 5 => {
                Term::Restriction(self.part(random, place.beneath_binder(), budget - 1).into())
            }
            _ => self.sequential(random, place, budget),
        }
    }

    /// A term without parallel, at most this long.
    pub fn sequential(&self, random: &mut Random, place: Place, budget: usize) -> Term {
        match self.kind(random, place, budget) {
            Kind::Nil => Term::Nil,
            Kind::Call => self.call(random, place, budget).unwrap_or(Term::Nil),
            Kind::Silent => {
                Term::Silent(self.sequential(random, place.beneath_prefix(0), budget - 1).into())
            }
            Kind::Choice => {
                let left = random.between(1, budget - 2);
                let first = self.sequential(random, place, left);
                let second = self.sequential(random, place, budget - 1 - first.size());
                Term::Choice(first.into(), second.into())
            }
            Kind::Restriction => {
                let inner = self.sequential(random, place.beneath_binder(), budget - 1);
                Term::Restriction(inner.into())
            }
            kind => self.named(random, kind, place, budget).unwrap_or(Term::Nil),
        }
    }

    /// The kinds that begin with names.
    fn named(&self, random: &mut Random, kind: Kind, place: Place, budget: usize) -> Option<Term> {
        let a = self.name(random, place)?;
        let b = self.name(random, place)?;
        let mut beneath = |place, budget| Box::new(self.sequential(random, place, budget));
        Some(match kind {
            Kind::Input => Term::Input(a, beneath(place.beneath_prefix(1), budget - 2)),
            Kind::NewOutput => Term::NewOutput(a, beneath(place.beneath_prefix(1), budget - 2)),
            Kind::Output => Term::Output(a, b, beneath(place.beneath_prefix(0), budget - 3)),
            _ => Term::Match(a, b, beneath(place, budget - 3)),
        })
    }

    fn call(&self, random: &mut Random, place: Place, budget: usize) -> Option<Term> {
        let fitting = |k: &usize| 2 + usize::from(self.arities[*k]) <= budget;
        let fitting: Vec<usize> = (0..self.arities.len()).filter(fitting).collect();
        if fitting.is_empty() || place.in_body && !place.prefixed {
            return None;
        }
        let k = *random.pick(&fitting);
        let names = (0..self.arities[k]).map(|_| self.name(random, place));
        Some(Term::Call(k as u8, names.collect::<Option<_>>()?))
    }

    fn kind(&self, random: &mut Random, place: Place, budget: usize) -> Kind {
        let if_room = |room: usize, weight: usize| if budget >= room { weight } else { 0 };
        let no_calls = self.arities.is_empty() || place.in_body && !place.prefixed;
        let named = usize::from(!place.in_body || place.binders > 0);
        random.weighted(&[
            (if_room(2, 9), Kind::Silent),
            (if_room(3, 13) * named, Kind::Input),
            (if_room(4, 20) * named, Kind::Output),
            (if_room(3, 8) * named, Kind::NewOutput),
            (if_room(4, 9) * named, Kind::Match),
            (if_room(5, 14), Kind::Choice),
            (if_room(3, 5), Kind::Restriction),
            (if no_calls { 0 } else { if_room(2, 18) }, Kind::Call),
            (if budget < 4 { 20 } else { 3 }, Kind::Nil),
        ])
    }
}
