//! Questions that have passed the check.

use crate::{Answer, Name, Refusal, Side, Steps};

/// The bytes of a question that the library has accepted.
///
/// ```
/// use exchange::{Name, Question, QUESTION_BYTES};
///
/// // [a=b]τ.0 and 0
/// let bytes = [1, 0, 0, 5, 5, 0, 1, 1, 0, 0, 1, 0, 0, 0];
/// let question = Question::new(&bytes)?;
/// assert_eq!(question.part(exchange::Side::First), [5, 0, 1, 1, 0]);
///
/// let [a, b] = [0, 1].map(|byte| Name::new(byte).unwrap());
/// let mut area = [0; QUESTION_BYTES];
/// let merged = question.merge(a, b, &mut area)?;
/// assert_eq!(merged.part(exchange::Side::First), [5, 0, 0, 1, 0]);
/// # Ok::<(), exchange::Refusal>(())
/// ```
#[must_use]
#[derive(Clone, Copy, PartialEq, Eq, Hash, Debug)]
pub struct Question<'a>(&'a [u8]);

impl<'a> Question<'a> {
    /// Checks the bytes.
    ///
    /// # Errors
    /// The first of the rules 3 to 12 that turns them back.
    pub fn new(bytes: &'a [u8]) -> Result<Question<'a>, Refusal> {
        crate::check(bytes).map(|()| Question(bytes))
    }

    /// The bytes.
    #[must_use]
    pub const fn bytes(self) -> &'a [u8] {
        self.0
    }

    /// The arity and body of each definition.
    pub fn definitions(self) -> impl ExactSizeIterator<Item = (u8, &'a [u8])> {
        (0..self.count()).map(move |k| (self.0[2 + k], self.field(k)))
    }

    /// One of the two parts, coded.
    #[must_use]
    pub fn part(self, side: Side) -> &'a [u8] {
        match side {
            Side::First => self.field(self.count()),
            Side::Second => self.field(self.count() + 1),
        }
    }

    /// The pairs of the apart list, as they stand there.
    pub fn apart(self) -> impl ExactSizeIterator<Item = (Name, Name)> + 'a {
        let name = |byte| Name::new(byte).expect("rule 12 admits only names");
        let list = self.field(self.count() + 2);
        list.chunks_exact(2).map(move |pair| (name(pair[0]), name(pair[1])))
    }

    /// Lists the steps of a side into the area, as [`steps`](crate::steps) does.
    ///
    /// # Errors
    /// Rule 13 if the new name is free in that side, then rule 15.
    pub fn steps<'b>(
        self,
        side: Side,
        new_name: Name,
        area: &'b mut [u8],
    ) -> Result<Answer<Steps<'b>>, Refusal> {
        let count = crate::steps(self.0, side.number(), new_name.byte().into(), area)?;
        Ok(count.map(|count| Steps::listed(area, count)))
    }

    /// Merges two names into the area, as [`merge`](crate::merge) does.
    ///
    /// # Errors
    /// Rule 14 if the two are held apart, then rule 15.
    pub fn merge(self, a: Name, b: Name, area: &mut [u8]) -> Result<Question<'_>, Refusal> {
        let length = crate::merge(self.0, a.byte().into(), b.byte().into(), area)?;
        Ok(Question(&area[..length]))
    }

    /// Sets a third part beside both sides into the area, as [`beside`](crate::beside) does.
    ///
    /// # Errors
    /// The first of the rules 6 to 10 that turns the third part back, then rule 15.
    pub fn beside<'b>(self, third: &[u8], area: &'b mut [u8]) -> Result<Question<'b>, Refusal> {
        let length = crate::beside(self.0, third, area)?;
        Ok(Question(&area[..length]))
    }

    /// The number of definitions.
    fn count(self) -> usize {
        self.0[1].into()
    }

    /// The field of this number behind the arities: bodies, first part, second part, apart list.
    fn field(self, number: usize) -> &'a [u8] {
        let mut rest = &self.0[2 + self.count()..];
        for _ in 0..number {
            rest = &rest[2 + length(rest)..];
        }
        &rest[2..2 + length(rest)]
    }
}

/// The check of [`Question::new`].
impl<'a> TryFrom<&'a [u8]> for Question<'a> {
    type Error = Refusal;

    fn try_from(bytes: &'a [u8]) -> Result<Question<'a>, Refusal> {
        Question::new(bytes)
    }
}

/// The length that a field begins with.
fn length(field: &[u8]) -> usize {
    u16::from_be_bytes([field[0], field[1]]).into()
}
