//! Terms as plain trees, with what growing and rewriting them needs.

/// A name where it occurs.
#[derive(Clone, Copy, PartialEq, Eq, Debug)]
pub enum Name {
    /// A free name.
    Free(u8),
    /// The name of the k-th binder outward, the innermost being 0.
    Bound(usize),
}

/// A term.
#[derive(Clone, PartialEq, Eq, Debug)]
pub enum Term {
    /// Inaction.
    Nil,
    /// Silent step.
    Silent(Box<Term>),
    /// Input, binding one name.
    Input(Name, Box<Term>),
    /// Output of the second name on the first.
    Output(Name, Name, Box<Term>),
    /// Output of a new name, which it binds.
    NewOutput(Name, Box<Term>),
    /// The term if the names are equal.
    Match(Name, Name, Box<Term>),
    /// Choice.
    Choice(Box<Term>, Box<Term>),
    /// Parallel.
    Parallel(Box<Term>, Box<Term>),
    /// Restriction, binding one name.
    Restriction(Box<Term>),
    /// Call of a definition.
    Call(u8, Vec<Name>),
}

impl Term {
    /// The coded term.
    pub fn bytes(&self) -> Vec<u8> {
        let mut bytes = Vec::new();
        self.write(&mut bytes);
        bytes
    }

    /// The number of its bytes.
    pub fn size(&self) -> usize {
        let names = self.names().len() + usize::from(matches!(self, Term::Call(..)));
        1 + names + self.beneath().iter().map(|term| term.size()).sum::<usize>()
    }

    fn write(&self, bytes: &mut Vec<u8>) {
        bytes.push(self.tag());
        if let Term::Call(k, _) = self {
            bytes.push(*k);
        }
        bytes.extend(self.names().iter().map(|name| match name {
            Name::Free(name) => *name,
            Name::Bound(k) => 0x80 + *k as u8,
        }));
        for term in self.beneath() {
            term.write(bytes);
        }
    }

    fn tag(&self) -> u8 {
        match self {
            Term::Nil => 0,
            Term::Silent(_) => 1,
            Term::Input(..) => 2,
            Term::Output(..) => 3,
            Term::NewOutput(..) => 4,
            Term::Match(..) => 5,
            Term::Choice(..) => 6,
            Term::Parallel(..) => 7,
            Term::Restriction(_) => 8,
            Term::Call(..) => 9,
        }
    }

    /// The names written directly after the first byte.
    pub fn names(&self) -> Vec<Name> {
        match self {
            Term::Input(a, _) | Term::NewOutput(a, _) => vec![*a],
            Term::Output(a, b, _) | Term::Match(a, b, _) => vec![*a, *b],
            Term::Call(_, names) => names.clone(),
            _ => vec![],
        }
    }

    /// The same names, to be changed.
    pub fn names_mut(&mut self) -> Vec<&mut Name> {
        match self {
            Term::Input(a, _) | Term::NewOutput(a, _) => vec![a],
            Term::Output(a, b, _) | Term::Match(a, b, _) => vec![a, b],
            Term::Call(_, names) => names.iter_mut().collect(),
            _ => vec![],
        }
    }

    /// The terms directly beneath.
    pub fn beneath(&self) -> Vec<&Term> {
        match self {
            Term::Nil | Term::Call(..) => vec![],
            Term::Silent(p) | Term::Input(_, p) | Term::Output(_, _, p) => vec![p],
            Term::NewOutput(_, p) | Term::Match(_, _, p) | Term::Restriction(p) => vec![p],
            Term::Choice(p, q) | Term::Parallel(p, q) => vec![p, q],
        }
    }

    /// The same terms, to be changed.
    pub fn beneath_mut(&mut self) -> Vec<&mut Term> {
        match self {
            Term::Nil | Term::Call(..) => vec![],
            Term::Silent(p) | Term::Input(_, p) | Term::Output(_, _, p) => vec![p],
            Term::NewOutput(_, p) | Term::Match(_, _, p) | Term::Restriction(p) => vec![p],
            Term::Choice(p, q) | Term::Parallel(p, q) => vec![p, q],
        }
    }

    /// How many names the term's first byte binds beneath it: 0 or 1.
    pub fn binds(&self) -> usize {
        usize::from(matches!(self, Term::Input(..) | Term::NewOutput(..) | Term::Restriction(_)))
    }

    /// Whether parallel occurs.
    pub fn has_parallel(&self) -> bool {
        matches!(self, Term::Parallel(..)) || self.beneath().iter().any(|term| term.has_parallel())
    }

    /// The number of terms in the term, itself included.
    pub fn count(&self) -> usize {
        1 + self.beneath().iter().map(|term| term.count()).sum::<usize>()
    }

    /// The term of this number, below the number of terms, in a walk from the root.
    pub fn nth_mut(&mut self, mut number: usize) -> &mut Term {
        if number == 0 {
            return self;
        }
        number -= 1;
        for inner in self.beneath_mut() {
            let count = inner.count();
            if number < count {
                return inner.nth_mut(number);
            }
            number -= count;
        }
        unreachable!("the number is below the count")
    }

    /// Changes each name that is not bound inside the term. The function sees and gives names as
    /// they are at its root.
    pub fn rename(&mut self, of: &dyn Fn(Name) -> Name) {
        self.rename_beneath(0, of);
    }

    fn rename_beneath(&mut self, depth: usize, of: &dyn Fn(Name) -> Name) {
        for name in self.names_mut() {
            *name = match *name {
                Name::Bound(k) if k < depth => Name::Bound(k),
                Name::Bound(k) => deeper(of(Name::Bound(k - depth)), depth),
                free => deeper(of(free), depth),
            };
        }
        let depth = depth + self.binds();
        for term in self.beneath_mut() {
            term.rename_beneath(depth, of);
        }
    }

    /// The term beneath one more binder, which it does not use.
    pub fn shifted(mut self) -> Term {
        self.rename(&|name| deeper(name, 1));
        self
    }

    /// What stands beneath a binder that binds the given free name.
    pub fn closed(mut self, x: u8) -> Term {
        self.rename(&|name| match name {
            Name::Free(free) if free == x => Name::Bound(0),
            name => deeper(name, 1),
        });
        self
    }

    /// What stands beneath a binder, with the given name for the bound one.
    pub fn opened(mut self, by: Name) -> Term {
        self.rename(&|name| match name {
            Name::Bound(0) => by,
            Name::Bound(k) => Name::Bound(k - 1),
            free => free,
        });
        self
    }

    /// A body with the names of a call for its parameters.
    pub fn instance(mut self, names: &[Name]) -> Term {
        self.rename(&|name| match name {
            Name::Bound(k) => names[names.len() - 1 - k],
            free => free,
        });
        self
    }

    /// Whether the name of the innermost binder outside the term occurs.
    pub fn uses_binder(&self) -> bool {
        let used = std::cell::Cell::new(false);
        let see = |name| {
            used.set(used.get() || name == Name::Bound(0));
            name
        };
        self.clone().rename(&see);
        used.get()
    }
}

fn deeper(name: Name, depth: usize) -> Name {
    match name {
        Name::Bound(k) => Name::Bound(k + depth),
        free => free,
    }
}
