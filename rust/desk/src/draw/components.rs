//! What stands beside each other in a part, and which names each component uses how.

use crate::model::Exchange;
use crate::term::{Head, Name, Term};

/// How a name is used.
#[derive(Clone, Copy, PartialEq, Eq, Debug, Default)]
pub struct Use {
    /// Something is received on it.
    pub receives: bool,
    /// Something is sent on it.
    pub sends: bool,
}

impl Use {
    fn joined(self, other: Use) -> Use {
        Use { receives: self.receives || other.receives, sends: self.sends || other.sends }
    }
}

/// A name as a part's components see it: a free one, or one that a restriction above them binds,
/// by its number in the part.
#[derive(Clone, Copy, PartialEq, Eq, PartialOrd, Ord, Hash, Debug)]
pub enum Known {
    /// A free name.
    Free(u8),
    /// A private name.
    Private(usize),
}

/// A component of a part.
pub struct Component<'a> {
    /// Its term.
    pub term: &'a Term,
    /// The private names around it, the innermost last.
    pub around: Vec<usize>,
    /// The names that it uses, each once, in order.
    pub uses: Vec<(Known, Use)>,
}

impl Component<'_> {
    /// The name that is bound this far outside of the component.
    fn private(&self, outward: usize) -> Option<usize> {
        self.around.len().checked_sub(outward + 1).map(|place| self.around[place])
    }

    /// The component alone, with free names for its private ones.
    pub fn alone(&self, free: impl Fn(usize) -> Option<u8>) -> Term {
        self.term.opened(&|outward| self.private(outward).and_then(&free))
    }
}

/// A part as its components.
#[derive(Default)]
pub struct Pieces<'a> {
    /// The components from left to right.
    pub components: Vec<Component<'a>>,
    /// The restrictions above components, which bind the private names.
    pub restrictions: Vec<(&'a Term, Vec<usize>)>,
}

impl<'a> Pieces<'a> {
    /// The pieces of a part of the exchange.
    pub fn of(part: &'a Term, exchange: &Exchange) -> Pieces<'a> {
        let mut pieces = Pieces::default();
        pieces.gather(part, &[]);
        let uses = parameter_uses(exchange);
        for component in &mut pieces.components {
            component.uses = component_uses(component, &uses);
        }
        pieces
    }

    fn gather(&mut self, term: &'a Term, around: &[usize]) {
        match term.head {
            Head::Parallel => term.beneath.iter().for_each(|term| self.gather(term, around)),
            Head::Restriction => {
                let number = self.restrictions.len();
                self.restrictions.push((term, around.to_vec()));
                self.gather(&term.beneath[0], &[around, &[number]].concat());
            }
            _ => {
                let around = around.to_vec();
                self.components.push(Component { term, around, uses: Vec::new() });
            }
        }
    }
}

/// How each definition uses its parameters. What it calls uses them too, so this is worked out
/// again until nothing is added.
fn parameter_uses(exchange: &Exchange) -> Vec<Vec<Use>> {
    let definitions = &exchange.definitions;
    let mut uses: Vec<Vec<Use>> = definitions
        .iter()
        .map(|definition| vec![Use::default(); definition.parameters.len()])
        .collect();
    loop {
        let mut next = uses.clone();
        for (definition, own) in definitions.iter().zip(&mut next) {
            each_use(&definition.body, &uses, &mut |name, depth, used| {
                let Name::Bound(k) = name else { return };
                let place = k.checked_sub(depth).and_then(|k| own.len().checked_sub(k + 1));
                if let Some(place) = place {
                    own[place] = own[place].joined(used);
                }
            });
        }
        if next == uses {
            return uses;
        }
        uses = next;
    }
}

fn component_uses(component: &Component<'_>, parameters: &[Vec<Use>]) -> Vec<(Known, Use)> {
    let mut uses: Vec<(Known, Use)> = Vec::new();
    each_use(component.term, parameters, &mut |name, depth, used| {
        let known = match name {
            Name::Free(byte) => Some(Known::Free(byte)),
            Name::Bound(k) => {
                let private = k.checked_sub(depth).and_then(|outward| component.private(outward));
                private.map(Known::Private)
            }
        };
        let Some(known) = known else { return };
        match uses.iter_mut().find(|(other, _)| *other == known) {
            Some((_, so_far)) => *so_far = so_far.joined(used),
            None => uses.push((known, used)),
        }
    });
    uses.sort_by_key(|&(known, _)| known);
    uses
}

/// Each name of a term with the number of binders above it and how it is used there.
fn each_use(term: &Term, parameters: &[Vec<Use>], see: &mut impl FnMut(Name, usize, Use)) {
    term.walk(&mut |term, depth| {
        for (place, &name) in term.names.iter().enumerate() {
            let used = match term.head {
                Head::Input => Use { receives: true, sends: false },
                Head::Output | Head::NewOutput if place == 0 => {
                    Use { receives: false, sends: true }
                }
                Head::Call(number) => {
                    let uses = parameters.get(usize::from(number));
                    uses.and_then(|uses| uses.get(place)).copied().unwrap_or_default()
                }
                _ => Use::default(),
            };
            see(name, depth, used);
        }
    });
}
