//! A pair of parts inside a larger exchange: the operators of request 2026-13 around both parts,
//! with what becomes of the apart list.

use crate::draft::{apart_pair, Draft};
use crate::grow::Place;
use crate::random::Random;
use crate::term::{Name, Term};

impl Draft {
    /// A part and the same with a branch under a match of two names that are held apart.
    pub fn held_apart(random: &mut Random) -> Draft {
        let mut draft = Draft::sequential(random);
        let (a, b) = apart_pair(random, draft.names);
        let other = draft.style().sequential(random, Place::PART, 6);
        let branch = Term::Match(Name::Free(a), Name::Free(b), other.into());
        draft.second = Term::Choice(draft.first.clone().into(), branch.into());
        draft.apart.truncate(100);
        draft.apart.push((b, a));
        draft
    }

    /// The question about both parts beneath one more operator, or with one more pair apart. It is
    /// accepted where the grammar and the limits allow the larger parts.
    pub fn embedded(&self, random: &mut Random) -> Draft {
        let style = self.style();
        let free = |random: &mut Random| random.below(self.names) as u8;
        let (a, b, x) = (Name::Free(free(random)), Name::Free(free(random)), free(random));
        let common = style.sequential(random, Place::PART, 6);
        let received = |&(c, d): &(u8, u8)| c == x || d == x;
        match random.below(11) {
            0 => self.both(|p| Term::Silent(p.into())),
            1 => self.both(|p| Term::Output(a, b, p.into())),
            2 => self.both(|p| Term::Match(a, b, p.into())),
            3 => self.both(|p| Term::Choice(p.into(), common.clone().into())),
            4 => self.both(|p| Term::Choice(common.clone().into(), p.into())),
            5 => self.both(|p| Term::Parallel(p.into(), common.clone().into())),
            6 => self.both(|p| Term::Parallel(common.clone().into(), p.into())),
            7 => self.both(|p| Term::Restriction(p.closed(x).into())).without(x),
            8 => self.both(|p| Term::NewOutput(a, p.closed(x).into())).without(x),
            9 if !self.apart.iter().any(received) => {
                self.both(|p| Term::Input(a, p.closed(x).into()))
            }
            _ => self.with_further_pair(random),
        }
    }

    fn both(&self, operator: impl Fn(Term) -> Term) -> Draft {
        let (first, second) = (operator(self.first.clone()), operator(self.second.clone()));
        Draft { first, second, ..self.clone() }
    }

    fn with_further_pair(&self, random: &mut Random) -> Draft {
        let mut draft = self.clone();
        if self.names > 1 && self.apart.len() < 120 {
            draft.apart.push(apart_pair(random, self.names));
        }
        draft
    }

    /// The pairs of the name are dropped.
    fn without(mut self, x: u8) -> Draft {
        self.apart.retain(|&(a, b)| a != x && b != x);
        self
    }
}
