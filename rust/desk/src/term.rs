//! Terms as trees, and their bytes.

use crate::fault::Span;

/// The greatest length of a body or part.
pub const PART_BYTES: usize = 112;

/// A name where it occurs.
#[derive(Clone, Copy, PartialEq, Eq, Hash, Debug)]
pub enum Name {
    /// A free name.
    Free(u8),
    /// The name of the k-th binder outward, the innermost being 0.
    Bound(usize),
}

/// What a term begins with.
#[derive(Clone, Copy, PartialEq, Eq, Hash, Debug)]
pub enum Head {
    /// Inaction.
    Nil,
    /// Silent step.
    Silent,
    /// Input, binding one name.
    Input,
    /// Output of the second name on the first.
    Output,
    /// Output of a new name, which it binds.
    NewOutput,
    /// The term beneath if the names are equal.
    Match,
    /// Choice.
    Choice,
    /// Parallel.
    Parallel,
    /// Restriction, binding one name.
    Restriction,
    /// Call of the definition of this number.
    Call(u8),
}

impl Head {
    /// The head of this byte; a call's number follows it.
    fn of(byte: u8) -> Option<Head> {
        let heads = [
            Head::Nil,
            Head::Silent,
            Head::Input,
            Head::Output,
            Head::NewOutput,
            Head::Match,
            Head::Choice,
            Head::Parallel,
            Head::Restriction,
            Head::Call(0),
        ];
        heads.get(usize::from(byte)).copied()
    }

    /// Its byte.
    fn byte(self) -> u8 {
        match self {
            Head::Nil => 0,
            Head::Silent => 1,
            Head::Input => 2,
            Head::Output => 3,
            Head::NewOutput => 4,
            Head::Match => 5,
            Head::Choice => 6,
            Head::Parallel => 7,
            Head::Restriction => 8,
            Head::Call(_) => 9,
        }
    }

    /// Whether it binds a name in the term beneath.
    pub fn binds(self) -> bool {
        matches!(self, Head::Input | Head::NewOutput | Head::Restriction)
    }

    /// Whether it is a prefix: what stands beneath waits for it.
    pub fn is_prefix(self) -> bool {
        matches!(self, Head::Silent | Head::Input | Head::Output | Head::NewOutput)
    }

    /// How many names follow it, given the arities of the definitions.
    fn names(self, arities: &[u8]) -> Option<usize> {
        match self {
            Head::Input | Head::NewOutput => Some(1),
            Head::Output | Head::Match => Some(2),
            Head::Call(number) => arities.get(usize::from(number)).map(|&arity| arity.into()),
            _ => Some(0),
        }
    }

    /// How many terms stand beneath.
    fn beneath(self) -> usize {
        match self {
            Head::Nil | Head::Call(_) => 0,
            Head::Choice | Head::Parallel => 2,
            _ => 1,
        }
    }
}

/// A term.
#[derive(Clone, Debug)]
pub struct Term {
    /// What it begins with.
    pub head: Head,
    /// The names that follow.
    pub names: Vec<Name>,
    /// The terms beneath.
    pub beneath: Vec<Term>,
    /// What the person calls the name that the head binds, where a person wrote the term.
    pub word: Option<String>,
    /// Where the head stands in the source, where there is one.
    pub span: Span,
}

impl Term {
    /// A term that no person wrote.
    pub fn new(head: Head, names: Vec<Name>, beneath: Vec<Term>) -> Term {
        Term { head, names, beneath, word: None, span: Span::default() }
    }

    /// Inaction.
    pub fn nil() -> Term {
        Term::new(Head::Nil, vec![], vec![])
    }

    /// The term of these bytes, unless they are no term of at most 112 bytes.
    pub fn read(bytes: &[u8], arities: &[u8]) -> Option<Term> {
        let mut rest = bytes.get(..bytes.len().min(PART_BYTES + 1))?;
        let term = Term::read_next(&mut rest, arities)?;
        (rest.is_empty() && bytes.len() <= PART_BYTES).then_some(term)
    }

    fn read_next(rest: &mut &[u8], arities: &[u8]) -> Option<Term> {
        let mut head = Head::of(next(rest)?)?;
        if let Head::Call(number) = &mut head {
            *number = next(rest)?;
        }
        let names =
            (0..head.names(arities)?).map(|_| next(rest).map(name)).collect::<Option<_>>()?;
        let beneath = (0..head.beneath()).map(|_| Term::read_next(rest, arities));
        let beneath = beneath.collect::<Option<_>>()?;
        Some(Term::new(head, names, beneath))
    }

    /// The coded term.
    pub fn bytes(&self) -> Vec<u8> {
        let mut bytes = Vec::new();
        self.write(&mut bytes);
        bytes
    }

    fn write(&self, bytes: &mut Vec<u8>) {
        bytes.extend(self.head_bytes());
        bytes.extend(self.names.iter().map(|name| match *name {
            Name::Free(byte) => byte,
            Name::Bound(k) => 0x80 | k.min(0x7F) as u8,
        }));
        for term in &self.beneath {
            term.write(bytes);
        }
    }

    /// The term and all terms beneath it, each with the number of binders above it.
    pub fn walk<'a>(&'a self, see: &mut impl FnMut(&'a Term, usize)) {
        self.walk_beneath(0, see);
    }

    fn walk_beneath<'a>(&'a self, depth: usize, see: &mut impl FnMut(&'a Term, usize)) {
        see(self, depth);
        for term in &self.beneath {
            term.walk_beneath(depth + usize::from(self.head.binds()), see);
        }
    }

    /// Its free names in ascending order.
    pub fn free_names(&self) -> Vec<u8> {
        let mut names = Vec::new();
        self.walk(&mut |term, _| {
            names.extend(term.names.iter().filter_map(|name| match name {
                Name::Free(byte) => Some(*byte),
                Name::Bound(_) => None,
            }));
        });
        names.sort_unstable();
        names.dedup();
        names
    }

    /// Its bytes without its names.
    pub fn outline(&self) -> Vec<u8> {
        let mut outline = Vec::new();
        self.walk(&mut |term, _| outline.extend(term.head_bytes()));
        outline
    }

    /// Its bytes without its names and restrictions.
    pub fn bare_outline(&self) -> Vec<u8> {
        let mut outline = Vec::new();
        self.walk(&mut |term, _| match term.head {
            Head::Restriction => {}
            _ => outline.extend(term.head_bytes()),
        });
        outline
    }

    /// The term without the restrictions, however deep, whose name is not free beneath them: so the
    /// library has every result of a step.
    pub fn tidied(&self) -> Term {
        let mut beneath: Vec<Term> = self.beneath.iter().map(Term::tidied).collect();
        let mut used = self.head != Head::Restriction;
        for term in &beneath {
            term.walk(&mut |term, depth| used |= term.names.contains(&Name::Bound(depth)));
        }
        match used {
            true => Term { beneath, ..self.clone() },
            false => beneath.remove(0).outside(0),
        }
    }

    /// The term outside a binder whose name it does not use.
    fn outside(mut self, depth: usize) -> Term {
        for name in &mut self.names {
            if let Name::Bound(k) = name {
                *k -= usize::from(*k > depth);
            }
        }
        let depth = depth + usize::from(self.head.binds());
        self.beneath = self.beneath.into_iter().map(|term| term.outside(depth)).collect();
        self
    }

    /// What stays of it when names are put for others: its outline, and which of its names are
    /// bound where in it. Two terms of one shape were most likely written at one place.
    pub fn shape(&self) -> Vec<u8> {
        let mut shape = Vec::new();
        self.walk(&mut |term, depth| {
            shape.extend(term.head_bytes());
            shape.extend(term.names.iter().map(|name| match *name {
                Name::Bound(k) if k < depth => 0x80 | k as u8,
                _ => 0,
            }));
        });
        shape
    }

    /// The byte of its head, and the number of a call.
    fn head_bytes(&self) -> impl Iterator<Item = u8> {
        let number = match self.head {
            Head::Call(number) => Some(number),
            _ => None,
        };
        std::iter::once(self.head.byte()).chain(number)
    }

    /// The term with the words of one that has the same outline.
    pub fn worded(mut self, like: &Term) -> Term {
        self.word.clone_from(&like.word);
        let beneath = self.beneath.into_iter().zip(&like.beneath);
        self.beneath = beneath.map(|(term, like)| term.worded(like)).collect();
        self
    }

    /// The term with another for each name that is bound outside of it. The function sees names
    /// as they are at the root, and must give free ones or leave them.
    pub fn opened(&self, of: &impl Fn(usize) -> Option<u8>) -> Term {
        self.opened_beneath(0, of)
    }

    fn opened_beneath(&self, depth: usize, of: &impl Fn(usize) -> Option<u8>) -> Term {
        let name = |name: &Name| match *name {
            Name::Bound(k) if k >= depth => of(k - depth).map_or(*name, Name::Free),
            name => name,
        };
        let deeper = depth + usize::from(self.head.binds());
        Term {
            head: self.head,
            names: self.names.iter().map(name).collect(),
            beneath: self.beneath.iter().map(|term| term.opened_beneath(deeper, of)).collect(),
            word: self.word.clone(),
            span: self.span,
        }
    }
}

fn next(rest: &mut &[u8]) -> Option<u8> {
    let (&first, after) = rest.split_first()?;
    *rest = after;
    Some(first)
}

fn name(byte: u8) -> Name {
    match byte.checked_sub(0x80) {
        None => Name::Free(byte),
        Some(k) => Name::Bound(k.into()),
    }
}

#[cfg(test)]
mod tests {
    use super::*;

    #[test]
    fn bytes_and_terms() {
        let terms: [&[u8]; 4] =
            [&[0], &[7, 2, 0, 0, 3, 1, 2, 0], &[8, 4, 128, 9, 0, 128, 129], &[6, 1, 0, 5, 0, 1, 0]];
        for bytes in terms {
            assert_eq!(Term::read(bytes, &[2]).expect("a term").bytes(), bytes);
        }
        let no_terms: [&[u8]; 5] = [&[], &[1], &[0, 0], &[10], &[9, 1, 0, 0]];
        assert!(no_terms.iter().all(|bytes| Term::read(bytes, &[2]).is_none()));
        assert!(Term::read(&[[1; 111].as_slice(), &[0]].concat(), &[]).is_some());
        assert!(Term::read(&[[1; 112].as_slice(), &[0]].concat(), &[]).is_none());
        assert!(Term::read(&[1; 1 << 20], &[]).is_none());
    }

    #[test]
    fn free_names_and_shapes() {
        let term = Term::read(&[7, 2, 5, 3, 128, 1, 0, 3, 1, 2, 0], &[]).expect("a term");
        assert_eq!(term.free_names(), [1, 2, 5]);
        let renamed = Term::read(&[7, 2, 6, 3, 128, 2, 0, 3, 7, 2, 0], &[]).expect("a term");
        assert_eq!(term.shape(), renamed.shape());
        let unused = Term::read(&[7, 2, 6, 3, 2, 2, 0, 3, 7, 2, 0], &[]).expect("a term");
        assert_ne!(term.shape(), unused.shape());
        assert_eq!(term.outline(), unused.outline());
    }

    #[test]
    fn unused_restrictions_go() {
        let tidied = |bytes: &[u8]| Term::read(bytes, &[2]).expect("a term").tidied().bytes();
        assert_eq!(tidied(&[8, 8, 0]), [0]);
        assert_eq!(tidied(&[8, 3, 0, 128, 8, 0]), [8, 3, 0, 128, 0]);
        assert_eq!(tidied(&[2, 0, 8, 3, 129, 0, 0]), [2, 0, 3, 128, 0, 0]);
        assert_eq!(tidied(&[8, 2, 0, 8, 3, 130, 129, 0]), [8, 2, 0, 3, 129, 128, 0]);
        assert_eq!(tidied(&[8, 8, 9, 0, 129, 0]), [8, 9, 0, 128, 0]);
        assert_eq!(tidied(&[7, 8, 1, 0, 8, 4, 128, 0]), [7, 1, 0, 8, 4, 128, 0]);
    }
}
