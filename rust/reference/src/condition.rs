//! Free names, sets of them, conditions and apart pairs.

/// The number of free names, 00 to 0F.
pub const NAMES: usize = 16;

/// A set of free names, and perhaps the placeholder for a name not yet chosen.
#[derive(Clone, Copy, PartialEq, Eq, Hash, Debug, Default)]
pub struct Names(u32);

impl Names {
    /// The set with nothing in it.
    pub const NONE: Names = Names(0);
    /// The set of the placeholder alone.
    pub const PLACEHOLDER: Names = Names(1 << NAMES);

    /// The set of one free name.
    pub fn one(name: u8) -> Names {
        Names(1 << name)
    }

    /// Everything that is in either set.
    pub fn with(self, other: Names) -> Names {
        Names(self.0 | other.0)
    }

    /// Whether the two sets share a member.
    pub fn meets(self, other: Names) -> bool {
        self.0 & other.0 != 0
    }

    /// Whether the free name is in the set.
    pub fn has(self, name: u8) -> bool {
        self.meets(Names::one(name))
    }

    /// The smallest free name that is not in the set, if there is one.
    pub fn smallest_missing(self) -> Option<u8> {
        (0..NAMES as u8).find(|&name| !self.has(name))
    }

    /// The free names of the set as a row of an apart table.
    fn row(self) -> u16 {
        self.0 as u16
    }
}

/// Each name as a class of its own.
const fn own_classes() -> [u8; NAMES] {
    let mut classes = [0; NAMES];
    let mut name = 0;
    while name < NAMES {
        classes[name] = name as u8;
        name += 1;
    }
    classes
}

/// A condition: an equivalence on names, each class written by its smallest name.
#[derive(Clone, Copy, PartialEq, Eq, Hash, PartialOrd, Ord, Debug)]
pub struct Condition([u8; NAMES]);

impl Condition {
    /// The trivially true condition: every name is a class of its own.
    pub const EMPTY: Condition = Condition(own_classes());

    /// Whether this is the trivially true condition, as it is for most steps.
    pub fn is_empty(&self) -> bool {
        *self == Condition::EMPTY
    }

    /// The name of the class of a name.
    pub fn class(&self, name: u8) -> u8 {
        self.0[usize::from(name)]
    }

    /// The class name of each name, in the order of the names.
    pub fn classes(&self) -> &[u8; NAMES] {
        &self.0
    }

    /// The least condition that implies this one and makes the two names equal.
    pub fn merged(mut self, a: u8, b: u8) -> Condition {
        let (a, b) = (self.class(a), self.class(b));
        let (smaller, larger) = (a.min(b), a.max(b));
        for class in &mut self.0 {
            if *class == larger {
                *class = smaller;
            }
        }
        self
    }

    /// The least condition that implies both.
    pub fn joined(self, other: &Condition) -> Condition {
        if other.is_empty() {
            return self;
        }
        let pairs = other.0.iter().enumerate();
        pairs.fold(self, |joined, (name, &class)| match name as u8 == class {
            true => joined,
            false => joined.merged(name as u8, class),
        })
    }

    /// Whether every match of the other condition follows from this one.
    pub fn implies(&self, other: &Condition) -> bool {
        let mut pairs = self.0.iter().zip(&other.0);
        other.is_empty() || pairs.all(|(&here, &there)| here == self.class(there))
    }

    /// The names that are rewritten: those that are not their own class name.
    pub fn rewritten(&self) -> Names {
        let names = self.0.iter().enumerate();
        let names = names.filter(|&(name, &class)| name as u8 != class);
        names.fold(Names::NONE, |names, (name, _)| names.with(Names::one(name as u8)))
    }
}

/// A set of apart pairs: row a has bit b exactly if a and b are apart. It is symmetric.
#[derive(Clone, Copy, PartialEq, Eq, Hash, Debug, Default)]
pub struct Apart([u16; NAMES]);

impl Apart {
    /// The set of the given pairs.
    pub fn of(pairs: &[(u8, u8)]) -> Apart {
        let mut apart = Apart::default();
        for &(a, b) in pairs {
            apart.insert(a, b);
        }
        apart
    }

    /// Whether the two names are held apart.
    pub fn has(&self, a: u8, b: u8) -> bool {
        self.0[usize::from(a)] >> b & 1 == 1
    }

    fn insert(&mut self, a: u8, b: u8) {
        self.0[usize::from(a)] |= 1 << b;
        self.0[usize::from(b)] |= 1 << a;
    }

    /// Whether the condition respects the pairs: it makes no two names equal that are apart.
    pub fn respected_by(&self, condition: &Condition) -> bool {
        if condition.is_empty() {
            return true;
        }
        let mut members = [0u16; NAMES];
        for (name, &class) in condition.classes().iter().enumerate() {
            members[usize::from(class)] |= 1 << name;
        }
        let mut rows = self.0.iter().zip(condition.classes());
        rows.all(|(row, &class)| row & members[usize::from(class)] == 0)
    }

    /// Definition 15: the extruded name, if any, is apart from all the free names, and then
    /// all pairs are rewritten by the condition.
    pub fn updated(&self, extruded: Option<u8>, free: Names, condition: &Condition) -> Apart {
        let mut rows = *self;
        if let Some(new) = extruded {
            for name in (0..NAMES as u8).filter(|&name| free.has(name)) {
                rows.insert(new, name);
            }
        }
        if condition.is_empty() {
            return rows;
        }
        let mut updated = Apart::default();
        for (name, &class) in condition.classes().iter().enumerate() {
            updated.0[usize::from(class)] |= rewritten_row(rows.0[name], condition);
        }
        updated
    }

    /// The pairs of which each name is in the set.
    pub fn within(mut self, names: Names) -> Apart {
        for (name, row) in self.0.iter_mut().enumerate() {
            *row &= if names.has(name as u8) { names.row() } else { 0 };
        }
        self
    }
}

/// The class names of the names of a row.
fn rewritten_row(mut row: u16, condition: &Condition) -> u16 {
    let mut classes = 0;
    while row != 0 {
        classes |= 1 << condition.class(row.trailing_zeros() as u8);
        row &= row - 1;
    }
    classes
}
