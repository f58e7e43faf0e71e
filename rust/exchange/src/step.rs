//! Listed steps.

use crate::{Name, STEP_BYTES};

/// Where the fields of a listed step begin.
const ACTION: usize = Name::COUNT;
const LENGTH: usize = ACTION + 3;
const RESULT: usize = LENGTH + 1;

/// What a step does.
#[derive(Clone, Copy, PartialEq, Eq, PartialOrd, Ord, Hash, Debug)]
pub enum Action {
    /// A silent step.
    Silent,
    /// An input of the second name on the first.
    Input(Name, Name),
    /// An output of the second name on the first.
    Output(Name, Name),
    /// An output on the first name of the second, which is new.
    NewOutput(Name, Name),
}

/// A listed step, as a view of its bytes.
///
/// ```
/// use exchange::{Action, Name, Question, Side, STEPS, STEP_BYTES};
///
/// // [a=b]a(x).0 and 0
/// let bytes = [1, 0, 0, 6, 5, 0, 1, 2, 0, 0, 0, 1, 0, 0, 0];
/// let question = Question::new(&bytes)?;
/// let mut area = vec![0; STEPS * STEP_BYTES];
/// let [a, b, x] = [0, 1, 2].map(|byte| Name::new(byte).unwrap());
/// let steps = question.steps(Side::First, x, &mut area)?.result().unwrap();
///
/// let step = steps.iter().next().unwrap();
/// assert_eq!(step.class(b), a); // only if b is a
/// assert_eq!(step.action(), Action::Input(a, x));
/// assert_eq!(step.result(), [0]);
/// # Ok::<(), exchange::Refusal>(())
/// ```
#[derive(Clone, Copy, PartialEq, Eq, PartialOrd, Ord, Hash, Debug)]
pub struct Step<'a>(&'a [u8]);

impl<'a> Step<'a> {
    /// The step of these bytes, if they are those of a listed one.
    #[must_use]
    pub fn new(bytes: &'a [u8]) -> Option<Step<'a>> {
        let names = bytes.get(..ACTION)?.iter().chain(bytes.get(ACTION + 1..LENGTH)?);
        let sound = bytes.len() == STEP_BYTES
            && names.into_iter().all(|&byte| Name::new(byte).is_some())
            && bytes[ACTION] <= 3
            && RESULT + usize::from(bytes[LENGTH]) <= STEP_BYTES;
        sound.then_some(Step(bytes))
    }

    /// The name by which the condition writes the class of a name: the smallest with which it is
    /// equal.
    #[must_use]
    pub fn class(self, name: Name) -> Name {
        self.name(name.place())
    }

    /// Whether every two names that the other step's condition makes equal are so by this one's.
    #[must_use]
    pub fn implies(self, other: Step<'_>) -> bool {
        Name::all().all(|name| self.class(name) == self.class(other.class(name)))
    }

    /// What the step does.
    #[must_use]
    pub fn action(self) -> Action {
        let (channel, object) = (self.name(ACTION + 1), self.name(ACTION + 2));
        match self.0[ACTION] {
            0 => Action::Silent,
            1 => Action::Input(channel, object),
            2 => Action::Output(channel, object),
            _ => Action::NewOutput(channel, object),
        }
    }

    /// What the part becomes, coded.
    #[must_use]
    pub fn result(self) -> &'a [u8] {
        &self.0[RESULT..RESULT + usize::from(self.0[LENGTH])]
    }

    /// The bytes of the step.
    #[must_use]
    pub fn bytes(self) -> &'a [u8] {
        self.0
    }

    fn name(self, place: usize) -> Name {
        Name::new(self.0[place]).expect("the names were read when the step was made")
    }
}

impl Action {
    /// The action with each name replaced.
    #[must_use]
    pub fn renamed(self, of: impl Fn(Name) -> Name) -> Action {
        match self {
            Action::Silent => Action::Silent,
            Action::Input(channel, object) => Action::Input(of(channel), of(object)),
            Action::Output(channel, object) => Action::Output(of(channel), of(object)),
            Action::NewOutput(channel, object) => Action::NewOutput(of(channel), of(object)),
        }
    }
}

/// The listed steps of a part, in ascending byte order.
#[must_use]
#[derive(Clone, Copy, PartialEq, Eq, Hash, Debug)]
pub struct Steps<'a>(&'a [u8]);

impl<'a> Steps<'a> {
    /// The first `count` steps of an area that [`steps`](crate::steps) has filled.
    pub(crate) fn listed(area: &'a [u8], count: usize) -> Steps<'a> {
        Steps(&area[..count * STEP_BYTES])
    }

    /// How many there are.
    #[must_use]
    pub fn len(self) -> usize {
        self.0.len() / STEP_BYTES
    }

    /// Whether there are none.
    #[must_use]
    pub fn is_empty(self) -> bool {
        self.0.is_empty()
    }

    /// The steps one by one.
    pub fn iter(self) -> impl ExactSizeIterator<Item = Step<'a>> {
        let step = |bytes| Step::new(bytes).expect("the library lists nothing but steps");
        self.0.chunks_exact(STEP_BYTES).map(step)
    }
}

#[cfg(test)]
mod tests {
    use super::*;

    fn step() -> [u8; STEP_BYTES] {
        let mut bytes = [0; STEP_BYTES];
        for name in Name::all() {
            bytes[name.place()] = name.byte();
        }
        bytes[LENGTH] = 1;
        bytes
    }

    #[test]
    fn bytes_that_are_no_step() {
        assert!(Step::new(&step()).is_some());
        assert!(Step::new(&step()[1..]).is_none());
        assert!(Step::new(&[]).is_none());
        for (place, byte) in [(0, 16), (15, 0x80), (16, 4), (17, 16), (18, 255), (19, 113)] {
            let mut bytes = step();
            bytes[place] = byte;
            assert!(Step::new(&bytes).is_none(), "{byte} at {place}");
        }
    }

    #[test]
    fn a_condition_implies_what_it_makes_equal() {
        let (plain, mut two, mut three) = (step(), step(), step());
        two[3] = 1;
        three[2] = 1;
        three[3] = 1;
        let [plain, two, three] = [&plain, &two, &three].map(|bytes| Step::new(bytes).unwrap());
        assert!(three.implies(two) && two.implies(plain) && two.implies(two));
        assert!(!two.implies(three) && !plain.implies(two));
    }
}
