//! Terms as shared trees, with the facts about each subtree that every operation asks for.

use crate::condition::{Condition, Names};
use std::hash::{Hash, Hasher};
use std::rc::Rc;

/// The edition of a coded question: they differ in the version byte and in calls alone.
#[derive(Clone, Copy, PartialEq, Eq, Hash, Debug)]
pub enum Edition {
    /// A call is 09, the definition, the names.
    One,
    /// A call is 09, the definition, the number of the names, the names.
    Two,
}

impl Edition {
    /// Both editions.
    pub const ALL: [Edition; 2] = [Edition::One, Edition::Two];

    /// The version byte.
    pub fn version(self) -> u8 {
        match self {
            Edition::One => 0x01,
            Edition::Two => 0x02,
        }
    }

    /// The other edition.
    pub fn other(self) -> Edition {
        match self {
            Edition::One => Edition::Two,
            Edition::Two => Edition::One,
        }
    }
}

/// A name where it occurs in a term.
#[derive(Clone, Copy, PartialEq, Eq, Hash, Debug)]
pub enum Name {
    /// A free name, 00 to 0F.
    Free(u8),
    /// The name of the k-th binder outward, the innermost being 0. Binders that the term does
    /// not hold itself count on: they are the parameters of a body, or enclosing restrictions.
    Bound(u16),
    /// The received or extruded name of a step, before it is known which free name that is.
    New,
}

impl Name {
    /// The same name seen from beneath this many further binders.
    fn beneath(self, depth: u16) -> Name {
        match self {
            Name::Bound(k) => Name::Bound(k + depth),
            name => name,
        }
    }

    /// The byte of the name in a coded part, the given name standing for the placeholder.
    fn byte(self, new: u8) -> u8 {
        match self {
            Name::Free(name) => name,
            Name::Bound(k) => 0x80 + k as u8,
            Name::New => new,
        }
    }

    fn facts(self) -> (Names, Outward) {
        match self {
            Name::Free(name) => (Names::one(name), Outward::NONE),
            Name::Bound(k) => (Names::NONE, Outward::one(k)),
            Name::New => (Names::PLACEHOLDER, Outward::NONE),
        }
    }

    fn digest(self) -> u64 {
        match self {
            Name::Free(name) => u64::from(name),
            Name::Bound(k) => 0x80 + u64::from(k),
            Name::New => 0x40,
        }
    }
}

/// The outermost constructor of a term, as in the table of bytes.
#[derive(PartialEq, Eq, Debug)]
pub enum Shape {
    /// 00: inaction.
    Inaction,
    /// 01: a silent step, then the term.
    Silent(Term),
    /// 02: input on the name, binding one name.
    Input(Name, Term),
    /// 03: output on the first name of the second.
    Output(Name, Name, Term),
    /// 04: output on the name of a new name, which it binds.
    NewOutput(Name, Term),
    /// 05: the term if the two names are equal.
    Match(Name, Name, Term),
    /// 06: choice.
    Choice(Term, Term),
    /// 07: parallel.
    Parallel(Term, Term),
    /// 08: restriction, binding one name.
    Restriction(Term),
    /// 09: call of a definition with its names.
    Call(u8, Box<[Name]>),
}

/// A term. Copies share the tree.
#[derive(Clone, Debug)]
pub struct Term(Rc<Node>);

#[derive(Debug)]
struct Node {
    shape: Shape,
    facts: Facts,
}

/// What is known of a subtree without walking it.
#[derive(Clone, Copy, PartialEq, Eq, Debug)]
struct Facts {
    /// A digest of the whole tree; equal trees have equal digests.
    digest: u64,
    /// The number of bytes of the coded term.
    size: u32,
    /// The binders outside the term whose names occur, calls included.
    outward: Outward,
    /// The free names that occur, calls included.
    names: Names,
    /// Whether a restriction has no name beneath it that it binds.
    untidy: bool,
}

/// A set of binders outside a term, the nearest being 0. A part of 112 bytes, a body of 112 bytes
/// opened in it and a restriction for an extruded name have fewer than 256 binders one within the
/// other.
#[derive(Clone, Copy, PartialEq, Eq, Debug)]
struct Outward {
    near: u128,
    far: u128,
}

impl Outward {
    const NONE: Outward = Outward { near: 0, far: 0 };

    fn one(k: u16) -> Outward {
        match k.checked_sub(128) {
            None => Outward { near: 1 << k, far: 0 },
            Some(k) => Outward { near: 0, far: 1 << k },
        }
    }

    fn with(self, other: Outward) -> Outward {
        Outward { near: self.near | other.near, far: self.far | other.far }
    }

    /// Whether the nearest binder is in the set.
    fn has_nearest(self) -> bool {
        self.near & 1 == 1
    }

    /// The binders as they are seen from outside the nearest.
    fn beyond_nearest(self) -> Outward {
        Outward { near: self.near >> 1 | self.far << 127, far: self.far >> 1 }
    }

    /// Whether there is a binder beyond this many.
    fn reaches_beyond(self, depth: u16) -> bool {
        match depth.checked_sub(128) {
            None => self.near >> depth != 0 || self.far != 0,
            Some(depth) => self.far >> depth != 0,
        }
    }
}

impl Term {
    /// The term of this shape.
    pub fn new(shape: Shape) -> Term {
        let facts = Facts::of(&shape);
        Term(Rc::new(Node { shape, facts }))
    }

    /// The outermost constructor.
    pub fn shape(&self) -> &Shape {
        &self.0.shape
    }

    /// The number of bytes of the coded term in edition one.
    pub fn size(&self) -> usize {
        self.0.facts.size as usize
    }

    /// The free names that occur in the term.
    pub fn names(&self) -> Names {
        self.0.facts.names
    }

    /// The number of bytes of the coded term in an edition.
    pub fn size_in(&self, edition: Edition) -> usize {
        match edition {
            Edition::One => self.size(),
            Edition::Two => {
                let mut bytes = Vec::new();
                self.write(0, edition, &mut bytes);
                bytes.len()
            }
        }
    }

    /// Adds the coded term to the bytes, the given name standing for the placeholder.
    pub fn write(&self, new: u8, edition: Edition, bytes: &mut Vec<u8>) {
        match self.shape() {
            Shape::Inaction => bytes.push(0x00),
            Shape::Silent(p) => write(0x01, &[], &[p], new, edition, bytes),
            Shape::Input(a, p) => write(0x02, &[*a], &[p], new, edition, bytes),
            Shape::Output(a, b, p) => write(0x03, &[*a, *b], &[p], new, edition, bytes),
            Shape::NewOutput(a, p) => write(0x04, &[*a], &[p], new, edition, bytes),
            Shape::Match(a, b, p) => write(0x05, &[*a, *b], &[p], new, edition, bytes),
            Shape::Choice(p, q) => write(0x06, &[], &[p, q], new, edition, bytes),
            Shape::Parallel(p, q) => write(0x07, &[], &[p, q], new, edition, bytes),
            Shape::Restriction(p) => write(0x08, &[], &[p], new, edition, bytes),
            Shape::Call(k, names) => {
                bytes.extend([0x09, *k]);
                if edition == Edition::Two {
                    bytes.push(names.len() as u8);
                }
                bytes.extend(names.iter().map(|name| name.byte(new)));
            }
        }
    }

    /// A body with the names of a call in place of its parameters, the last one innermost.
    pub fn with_parameters(&self, names: &[Name]) -> Term {
        self.renamed(&Parameters(names), 0)
    }

    /// What stands beneath a binder, the placeholder taking the place of the bound name.
    pub fn opened(&self) -> Term {
        self.renamed(&Opened, 0)
    }

    /// A restriction of the placeholder, which becomes a bound name.
    pub fn closed(&self) -> Term {
        Term::new(Shape::Restriction(self.renamed(&Closed, 0)))
    }

    /// The term with the name in place of the placeholder.
    pub fn received(&self, name: Name) -> Term {
        self.renamed(&Received(name), 0)
    }

    /// The term rewritten by the condition.
    pub fn rewritten(&self, condition: &Condition) -> Term {
        if condition.is_empty() {
            return self.clone();
        }
        let changed = condition.rewritten();
        self.renamed(&Rewritten { condition, changed }, 0)
    }

    /// Whether the name of the nearest binder outside occurs.
    fn uses_binder(&self) -> bool {
        self.0.facts.outward.has_nearest()
    }

    /// The term without the restrictions, however deep, whose name is not free beneath them. One
    /// walk is enough: what goes takes no name with it.
    pub fn tidied(&self) -> Term {
        if !self.0.facts.untidy {
            return self.clone();
        }
        Term::new(match self.shape() {
            Shape::Restriction(p) => match p.tidied() {
                // there is no name to put the placeholder for
                p if !p.uses_binder() => return p.opened(),
                p => Shape::Restriction(p),
            },
            Shape::Silent(p) => Shape::Silent(p.tidied()),
            Shape::Input(a, p) => Shape::Input(*a, p.tidied()),
            Shape::Output(a, b, p) => Shape::Output(*a, *b, p.tidied()),
            Shape::NewOutput(a, p) => Shape::NewOutput(*a, p.tidied()),
            Shape::Match(a, b, p) => Shape::Match(*a, *b, p.tidied()),
            Shape::Choice(p, q) => Shape::Choice(p.tidied(), q.tidied()),
            Shape::Parallel(p, q) => Shape::Parallel(p.tidied(), q.tidied()),
            Shape::Inaction | Shape::Call(..) => return self.clone(),
        })
    }

    /// The term with each name that is not bound inside it renamed. Subtrees that no renaming
    /// touches are shared with the old term.
    fn renamed<R: Renaming>(&self, renaming: &R, depth: u16) -> Term {
        let facts = &self.0.facts;
        if !renaming.touches(facts.names, facts.outward.reaches_beyond(depth)) {
            return self.clone();
        }
        let name = |name: Name| rename(renaming, name, depth);
        let here = |term: &Term| term.renamed(renaming, depth);
        let bound = |term: &Term| term.renamed(renaming, depth + 1);
        Term::new(match self.shape() {
            Shape::Inaction => Shape::Inaction,
            Shape::Silent(p) => Shape::Silent(here(p)),
            Shape::Input(a, p) => Shape::Input(name(*a), bound(p)),
            Shape::Output(a, b, p) => Shape::Output(name(*a), name(*b), here(p)),
            Shape::NewOutput(a, p) => Shape::NewOutput(name(*a), bound(p)),
            Shape::Match(a, b, p) => Shape::Match(name(*a), name(*b), here(p)),
            Shape::Choice(p, q) => Shape::Choice(here(p), here(q)),
            Shape::Parallel(p, q) => Shape::Parallel(here(p), here(q)),
            Shape::Restriction(p) => Shape::Restriction(bound(p)),
            Shape::Call(k, names) => Shape::Call(*k, names.iter().copied().map(name).collect()),
        })
    }
}

impl PartialEq for Term {
    fn eq(&self, other: &Term) -> bool {
        Rc::ptr_eq(&self.0, &other.0)
            || self.0.facts == other.0.facts && self.0.shape == other.0.shape
    }
}

impl Eq for Term {}

impl Hash for Term {
    fn hash<H: Hasher>(&self, state: &mut H) {
        state.write_u64(self.0.facts.digest);
    }
}

fn write(tag: u8, names: &[Name], terms: &[&Term], new: u8, edition: Edition, bytes: &mut Vec<u8>) {
    bytes.push(tag);
    bytes.extend(names.iter().map(|name| name.byte(new)));
    for term in terms {
        term.write(new, edition, bytes);
    }
}

impl Facts {
    fn of(shape: &Shape) -> Facts {
        match shape {
            Shape::Inaction => Facts::start(0),
            Shape::Silent(p) => Facts::start(1).and(p, 0),
            Shape::Input(a, p) => Facts::start(2).name(*a).and(p, 1),
            Shape::Output(a, b, p) => Facts::start(3).name(*a).name(*b).and(p, 0),
            Shape::NewOutput(a, p) => Facts::start(4).name(*a).and(p, 1),
            Shape::Match(a, b, p) => Facts::start(5).name(*a).name(*b).and(p, 0),
            Shape::Choice(p, q) => Facts::start(6).and(p, 0).and(q, 0),
            Shape::Parallel(p, q) => Facts::start(7).and(p, 0).and(q, 0),
            Shape::Restriction(p) => {
                let facts = Facts::start(8).and(p, 1);
                Facts { untidy: facts.untidy || !p.uses_binder(), ..facts }
            }
            Shape::Call(k, names) => {
                let call = Facts::start(9).mixed(u64::from(*k), 1);
                names.iter().fold(call, |facts, name| facts.name(*name))
            }
        }
    }

    fn start(tag: u64) -> Facts {
        let (outward, names) = (Outward::NONE, Names::NONE);
        let facts = Facts { digest: 0, size: 0, outward, names, untidy: false };
        facts.mixed(tag + 1, 1)
    }

    /// With this many further bytes, of this content.
    fn mixed(self, content: u64, size: u32) -> Facts {
        let digest = (self.digest.rotate_left(23) ^ content).wrapping_mul(0x9E37_79B9_7F4A_7C15);
        Facts { digest: digest ^ digest >> 29, size: self.size + size, ..self }
    }

    fn name(self, name: Name) -> Facts {
        let (names, outward) = name.facts();
        let facts = self.mixed(name.digest(), 1);
        Facts { names: self.names.with(names), outward: self.outward.with(outward), ..facts }
    }

    /// With a term beneath, and a binder between or none.
    fn and(self, term: &Term, binders: u16) -> Facts {
        let inner = term.0.facts;
        let seen = match binders {
            0 => inner.outward,
            _ => inner.outward.beyond_nearest(),
        };
        Facts {
            names: self.names.with(inner.names),
            outward: self.outward.with(seen),
            untidy: self.untidy || inner.untidy,
            ..self.mixed(inner.digest, inner.size)
        }
    }
}

/// A renaming of the names that are not bound inside a term. It sees and gives them as they are
/// at the root of the term.
trait Renaming {
    /// Whether a subtree with these free names, reaching binders outside the term or not, may
    /// be changed.
    fn touches(&self, names: Names, outward: bool) -> bool;

    /// The new name for a name.
    fn of(&self, name: Name) -> Name;
}

/// The renaming of a name that occurs beneath this many binders of the term.
fn rename<R: Renaming>(renaming: &R, name: Name, depth: u16) -> Name {
    match name {
        Name::Bound(k) if k < depth => name,
        Name::Bound(k) => renaming.of(Name::Bound(k - depth)).beneath(depth),
        name => renaming.of(name).beneath(depth),
    }
}

struct Parameters<'a>(&'a [Name]);

impl Renaming for Parameters<'_> {
    fn touches(&self, _: Names, outward: bool) -> bool {
        outward
    }

    fn of(&self, name: Name) -> Name {
        match name {
            Name::Bound(k) => self.0[self.0.len() - 1 - usize::from(k)],
            name => name,
        }
    }
}

struct Opened;

impl Renaming for Opened {
    fn touches(&self, _: Names, outward: bool) -> bool {
        outward
    }

    fn of(&self, name: Name) -> Name {
        match name {
            Name::Bound(0) => Name::New,
            Name::Bound(k) => Name::Bound(k - 1),
            name => name,
        }
    }
}

struct Closed;

impl Renaming for Closed {
    fn touches(&self, names: Names, outward: bool) -> bool {
        outward || names.meets(Names::PLACEHOLDER)
    }

    fn of(&self, name: Name) -> Name {
        match name {
            Name::New => Name::Bound(0),
            name => name.beneath(1),
        }
    }
}

struct Received(Name);

impl Renaming for Received {
    fn touches(&self, names: Names, _: bool) -> bool {
        names.meets(Names::PLACEHOLDER)
    }

    fn of(&self, name: Name) -> Name {
        match name {
            Name::New => self.0,
            name => name,
        }
    }
}

struct Rewritten<'a> {
    condition: &'a Condition,
    changed: Names,
}

impl Renaming for Rewritten<'_> {
    fn touches(&self, names: Names, _: bool) -> bool {
        names.meets(self.changed)
    }

    fn of(&self, name: Name) -> Name {
        match name {
            Name::Free(name) => Name::Free(self.condition.class(name)),
            name => name,
        }
    }
}
