//! The numbers that operations take, each with a type that admits only those that no rule turns
//! back.

use crate::{CAPACITY, SITUATION_BYTES};
use core::fmt;

/// One of the two parts of a question.
#[derive(Clone, Copy, PartialEq, Eq, PartialOrd, Ord, Hash, Debug)]
pub enum Side {
    /// The first part.
    First,
    /// The second part.
    Second,
}

impl Side {
    /// Both, in order.
    pub const BOTH: [Side; 2] = [Side::First, Side::Second];

    /// The number by which [`steps`](crate::steps) knows it: 1 or 2.
    #[must_use]
    pub const fn number(self) -> u64 {
        match self {
            Side::First => 1,
            Side::Second => 2,
        }
    }

    /// The other side.
    #[must_use]
    pub const fn other(self) -> Side {
        match self {
            Side::First => Side::Second,
            Side::Second => Side::First,
        }
    }
}

/// A free name.
///
/// ```
/// use exchange::Name;
///
/// assert_eq!(Name::new(15).map(Name::byte), Some(15));
/// assert_eq!(Name::new(16), None);
/// assert_eq!(Name::all().count(), Name::COUNT);
/// ```
#[derive(Clone, Copy, PartialEq, Eq, PartialOrd, Ord, Hash, Debug)]
pub struct Name(u8);

impl Name {
    /// How many there are.
    pub const COUNT: usize = 16;

    /// The name of this byte, if it is one.
    #[must_use]
    pub const fn new(byte: u8) -> Option<Name> {
        if (byte as usize) < Name::COUNT {
            Some(Name(byte))
        } else {
            None
        }
    }

    /// All names in ascending order.
    pub fn all() -> impl DoubleEndedIterator<Item = Name> + ExactSizeIterator {
        (0..Name::COUNT as u8).map(Name)
    }

    /// Its byte.
    #[must_use]
    pub const fn byte(self) -> u8 {
        self.0
    }

    /// Its byte as a place in a table of all names.
    #[must_use]
    pub const fn place(self) -> usize {
        self.0 as usize
    }
}

/// How many situations a judging may look at: 1 to 4,096.
///
/// ```
/// use exchange::Capacity;
///
/// assert_eq!(Capacity::default().situations(), 256);
/// assert_eq!(Capacity::new(4097), None);
///
/// // a work area without a heap
/// const CAPACITY: Capacity = Capacity::MIN;
/// let work = [0_u8; CAPACITY.work_bytes()];
/// assert_eq!(work.len(), 256);
/// assert_eq!(Capacity::MAX.work_bytes(), 4096 * 256);
/// ```
#[derive(Clone, Copy, PartialEq, Eq, PartialOrd, Ord, Hash, Debug)]
pub struct Capacity(u16);

impl Capacity {
    /// The smallest.
    pub const MIN: Capacity = Capacity(1);
    /// The greatest.
    pub const MAX: Capacity = Capacity(CAPACITY as u16);

    /// The capacity of this many situations, if it is one.
    #[must_use]
    pub const fn new(situations: u64) -> Option<Capacity> {
        match situations {
            1..=CAPACITY => Some(Capacity(situations as u16)),
            _ => None,
        }
    }

    /// The number of situations.
    #[must_use]
    pub const fn situations(self) -> u64 {
        self.0 as u64
    }

    /// The length of the work area that it needs.
    #[must_use]
    pub const fn work_bytes(self) -> usize {
        self.0 as usize * SITUATION_BYTES
    }
}

/// The capacity that the program `judge` uses.
impl Default for Capacity {
    fn default() -> Capacity {
        Capacity(256)
    }
}

impl fmt::Display for Capacity {
    fn fmt(&self, f: &mut fmt::Formatter<'_>) -> fmt::Result {
        self.0.fmt(f)
    }
}
