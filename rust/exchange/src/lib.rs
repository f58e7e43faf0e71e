//! The exchange judge: are two parts open bisimilar? The work is done by the proved library
//! `libexchange.a`; this crate links it and gives its ten operations as safe functions over byte
//! slices and numbers.
//!
//! - [`check`] says whether a question is accepted.
//! - [`steps`] lists the steps of one of its parts.
//! - [`merge`] makes two names of a question one.
//! - [`beside`] sets a third part beside both sides.
//! - [`convert_down`] and [`convert_up`] write a question in the other edition.
//! - [`judge`] says whether the two parts are the same.
//! - [`judge_late`] and [`judge_early`] say so for names that stay different.
//! - [`apart`] finds the fewest pairs of names that, held apart besides, make them the same.
//!
//! A question is of edition one, version byte 01, or of edition two, version byte 02, in which the
//! number of names stands before the names of every call. Every operation takes either, and what
//! it writes is of the same edition; the parts of listed steps are of edition one.
//!
//! The same with types: a [`Question`] is checked once, its methods take a [`Side`] and [`Name`]s,
//! a [`Step`] reads a listed step, and a [`Judge`] owns the work area of a [`Capacity`]. Without
//! the feature `alloc`, which is on by default, there is no `Judge` and nothing needs a heap; the
//! crate needs no standard library either way.
//!
//! An operation either refuses its arguments with a [`Refusal`], and has then changed no lent
//! byte, or gives what document 01 fixes for them, and nothing else: no argument makes it panic,
//! and no two runs differ. It allocates nothing and keeps nothing between calls, so any number of
//! threads may call at once, each with areas of its own. A call takes its working memory from the
//! stack of its thread; the 2 MiB that Rust gives a thread are ample.
//!
//! # A question
//!
//! `τ.0 + [a=b]τ.0` and `τ.0`, with no definitions and nothing held apart:
//!
//! ```
//! use exchange::{Answer, Verdict};
//!
//! let question = [
//!     0x01, // version
//!     0x00, // no definitions
//!     0x00, 0x08, 0x06, 0x01, 0x00, 0x05, 0x00, 0x01, 0x01, 0x00, // the first part, 8 bytes
//!     0x00, 0x02, 0x01, 0x00, // the second part, 2 bytes
//!     0x00, 0x00, // the apart list, 0 bytes
//! ];
//! let mut work = vec![0; 256 * exchange::SITUATION_BYTES];
//! let answer = exchange::judge(&question, 256, &mut work)?;
//! assert_eq!(answer, Answer::Result(Verdict::Same(2)));
//! # Ok::<(), exchange::Refusal>(())
//! ```

#![no_std]
#![deny(missing_docs)]
#![deny(unsafe_code)]

#[cfg(feature = "alloc")]
extern crate alloc;
#[cfg(test)]
extern crate std;

mod answer;
#[allow(unsafe_code)]
mod boundary;
mod numbers;
#[cfg(feature = "alloc")]
mod owned;
mod question;
mod refusal;
mod step;

pub use answer::{Answer, Verdict};
pub use numbers::{Capacity, Name, Side};
#[cfg(feature = "alloc")]
pub use owned::Judge;
pub use question::Question;
pub use refusal::Refusal;
pub use step::{Action, Step, Steps};

use answer::Coded;

/// The greatest length of a question. A result area of this length is long enough for every
/// [`merge`] and [`beside`].
pub const QUESTION_BYTES: usize = 4096;
/// The greatest number of steps that are listed.
pub const STEPS: usize = 256;
/// The bytes of a listed step: a class for each name, the action's three, the result behind its
/// length.
pub const STEP_BYTES: usize = Name::COUNT + 4 + 112;
/// The greatest capacity.
pub const CAPACITY: u64 = 4096;
/// The bytes of work area for each situation of the capacity.
pub const SITUATION_BYTES: usize = 256;
/// The greatest length of an apart list: every pair once. The result area of [`apart`] must have as
/// many bytes.
pub const APART_BYTES: usize = Name::COUNT * (Name::COUNT - 1);

/// Checks a question.
///
/// # Errors
/// The first of the rules 3 to 12 that turns it back.
///
/// ```
/// use exchange::Refusal;
///
/// let inaction_twice = [0x01, 0x00, 0x00, 0x01, 0x00, 0x00, 0x01, 0x00, 0x00, 0x00];
/// assert_eq!(exchange::check(&inaction_twice), Ok(()));
///
/// let cut = &inaction_twice[..9];
/// assert_eq!(exchange::check(cut), Err(Refusal::Frame));
/// ```
pub fn check(question: &[u8]) -> Result<(), Refusal> {
    Coded::answered(boundary::check(question), |coded| match coded {
        Coded::Result(0) => Some(()),
        _ => None,
    })
}

/// Lists the steps of side 1 or 2 of a question and gives their count. The new name stands for
/// the received or extruded one.
///
/// The area must hold [`STEPS`] steps of [`STEP_BYTES`] bytes. The steps stand at its front in
/// ascending byte order; later bytes are untouched. A step is: the class name of each of the 16
/// names; the action's kind (0 silent, 1 input, 2 free output, 3 new-name output), channel and
/// object; the result's length; the result, filled with 0 to 112 bytes. A result has lost every
/// restriction whose name is not free beneath it; length, order and number go by what is left. If
/// there are more than [`STEPS`] steps, or a result is longer than 112 bytes, the answer is
/// unsettled and the area untouched.
///
/// # Errors
/// The first of the rules 3 to 13 and 15 that turns the arguments back.
///
/// ```
/// use exchange::{Answer, STEPS, STEP_BYTES};
///
/// // a(x).0 and 0: the first part receives a name on a, which is name 0.
/// let question = [0x01, 0x00, 0x00, 0x03, 0x02, 0x00, 0x00, 0x00, 0x01, 0x00, 0x00, 0x00];
/// let mut area = vec![0xFF; STEPS * STEP_BYTES];
/// assert_eq!(exchange::steps(&question, 1, 5, &mut area)?, Answer::Result(1));
///
/// let step = &area[..STEP_BYTES];
/// assert_eq!(step[..16], [0, 1, 2, 3, 4, 5, 6, 7, 8, 9, 10, 11, 12, 13, 14, 15]);
/// assert_eq!(step[16..19], [1, 0, 5]); // input on name 0 of name 5
/// assert_eq!(step[19..21], [1, 0x00]); // one byte of result: inaction
///
/// assert_eq!(exchange::steps(&question, 2, 5, &mut area)?, Answer::Result(0));
/// # Ok::<(), exchange::Refusal>(())
/// ```
pub fn steps(
    question: &[u8],
    side: u64,
    new_name: u64,
    area: &mut [u8],
) -> Result<Answer<usize>, Refusal> {
    Coded::answered(boundary::steps(question, side, new_name, area), |coded| match coded {
        Coded::Result(count) => Some(Answer::Result(count)),
        Coded::Unsettled => Some(Answer::Unsettled),
        _ => None,
    })
}

/// Replaces the larger of two names by the smaller in both parts and in the apart list, writes
/// the question so made to the front of the area and gives its length. Later bytes of the area
/// are untouched.
///
/// # Errors
/// The first of the rules 3 to 12, 14 and 15 that turns the arguments back.
///
/// ```
/// use exchange::{Refusal, QUESTION_BYTES};
///
/// // [a=b]τ.0 and 0.
/// let question = [
///     0x01, 0x00, 0x00, 0x05, 0x05, 0x00, 0x01, 0x01, 0x00, 0x00, 0x01, 0x00, 0x00, 0x00,
/// ];
/// let mut area = [0; QUESTION_BYTES];
/// let length = exchange::merge(&question, 0, 1, &mut area)?;
///
/// // [a=a]τ.0 and 0.
/// assert_eq!(area[4..9], [0x05, 0x00, 0x00, 0x01, 0x00]);
/// assert_eq!(exchange::check(&area[..length]), Ok(()));
///
/// assert_eq!(exchange::merge(&question, 0, 16, &mut area), Err(Refusal::Merging));
/// # Ok::<(), exchange::Refusal>(())
/// ```
pub fn merge(question: &[u8], a: u64, b: u64, area: &mut [u8]) -> Result<usize, Refusal> {
    Coded::answered(boundary::merge(question, a, b, area), written)
}

/// Sets a third part beside both sides, writes the question so made to the front of the area and
/// gives its length. Later bytes of the area are untouched.
///
/// # Errors
/// The first of the rules 3 to 12 that turns the question back, then the first of 6 to 10 for the
/// third part, where 6 is broken too if a side would pass 112 bytes, then 15.
///
/// ```
/// use exchange::{Refusal, QUESTION_BYTES};
///
/// // 0 and τ.0, and beside them an output of b on a.
/// let question = [0x01, 0x00, 0x00, 0x01, 0x00, 0x00, 0x02, 0x01, 0x00, 0x00, 0x00];
/// let third = [0x03, 0x00, 0x01, 0x00];
/// let mut area = [0; QUESTION_BYTES];
/// let length = exchange::beside(&question, &third, &mut area)?;
///
/// assert_eq!(area[2..10], [0x00, 0x06, 0x07, 0x00, 0x03, 0x00, 0x01, 0x00]);
/// assert_eq!(area[10..19], [0x00, 0x07, 0x07, 0x01, 0x00, 0x03, 0x00, 0x01, 0x00]);
/// assert_eq!(area[19..length], [0x00, 0x00]);
///
/// assert_eq!(exchange::beside(&question, &[], &mut area), Err(Refusal::Length));
/// # Ok::<(), exchange::Refusal>(())
/// ```
pub fn beside(question: &[u8], third: &[u8], area: &mut [u8]) -> Result<usize, Refusal> {
    Coded::answered(boundary::beside(question, third, area), written)
}

fn written(coded: Coded) -> Option<usize> {
    match coded {
        Coded::Result(length) => Some(length),
        _ => None,
    }
}

/// Writes a question of edition two in edition one to the front of the area and gives its length.
/// Later bytes of the area are untouched.
///
/// # Errors
/// The first of the rules 3 to 12 with 16 that turns the question back, where 3 is broken by a
/// question of edition one too, then 15.
///
/// ```
/// use exchange::{Refusal, QUESTION_BYTES};
///
/// // K of arity 1 sends its name for ever; K⟨a⟩ and āa.K⟨a⟩.
/// let one = [
///     0x01, 0x01, 0x01, 0x00, 0x06, 0x03, 0x80, 0x80, 0x09, 0x00, 0x80, 0x00, 0x03, 0x09, 0x00,
///     0x00, 0x00, 0x06, 0x03, 0x00, 0x00, 0x09, 0x00, 0x00, 0x00, 0x00,
/// ];
/// let mut two = [0; QUESTION_BYTES];
/// let length = exchange::convert_up(&one, &mut two)?;
/// assert_eq!(length, 29);
/// assert_eq!(two[8..12], [0x09, 0x00, 0x01, 0x80]);
///
/// let mut back = [0; QUESTION_BYTES];
/// assert_eq!(exchange::convert_down(&two[..length], &mut back)?, one.len());
/// assert_eq!(back[..one.len()], one);
///
/// assert_eq!(exchange::convert_down(&one, &mut back), Err(Refusal::Version));
/// # Ok::<(), exchange::Refusal>(())
/// ```
pub fn convert_down(question: &[u8], area: &mut [u8]) -> Result<usize, Refusal> {
    Coded::answered(boundary::convert_down(question, area), written)
}

/// Writes a question of edition one in edition two to the front of the area and gives its length.
/// Later bytes of the area are untouched.
///
/// # Errors
/// The first of the rules 3 to 12 that turns the question back, where 3 is broken by a question of
/// edition two too, then 17, then 15.
pub fn convert_up(question: &[u8], area: &mut [u8]) -> Result<usize, Refusal> {
    Coded::answered(boundary::convert_up(question, area), written)
}

/// Judges a question: whether its parts are open bisimilar under its apart list. At most
/// `capacity` situations are looked at; parts that differ only in restrictions whose name is not
/// free beneath them are one part there.
///
/// The work area must have [`SITUATION_BYTES`] for each of them. After every verdict, and after
/// "unsettled", that many bytes at its front are 0, and later bytes are untouched.
///
/// # Errors
/// The first of the rules 1 to 12 that turns the arguments back.
///
/// ```
/// use exchange::{Answer, Refusal, Verdict, SITUATION_BYTES};
///
/// // K⟨a⟩ and āa.K⟨a⟩, where K has one parameter, x, and its body is x̄x.K⟨x⟩.
/// let question = [
///     0x01, // version
///     0x01, 0x01, // one definition, of arity 1
///     0x00, 0x06, 0x03, 0x80, 0x80, 0x09, 0x00, 0x80, // its body
///     0x00, 0x03, 0x09, 0x00, 0x00, // the first part
///     0x00, 0x06, 0x03, 0x00, 0x00, 0x09, 0x00, 0x00, // the second part
///     0x00, 0x00, // the apart list
/// ];
/// let mut work = [0; 2 * SITUATION_BYTES];
/// assert_eq!(exchange::judge(&question, 2, &mut work)?, Answer::Result(Verdict::Same(2)));
/// assert_eq!(exchange::judge(&question, 1, &mut work)?, Answer::Unsettled);
/// assert_eq!(exchange::judge(&question, 3, &mut work), Err(Refusal::WorkArea));
/// # Ok::<(), exchange::Refusal>(())
/// ```
pub fn judge(question: &[u8], capacity: u64, work: &mut [u8]) -> Result<Answer<Verdict>, Refusal> {
    Coded::answered(boundary::judge(question, capacity, work), judged)
}

fn judged(coded: Coded) -> Option<Answer<Verdict>> {
    match coded {
        Coded::Verdict(verdict) => Some(Answer::Result(verdict)),
        Coded::Unsettled => Some(Answer::Unsettled),
        _ => None,
    }
}

/// Judges whether the parts of a question are late bisimilar: names that differ stay different,
/// but any name may be received, and one answer to an input must do for all of them. The apart
/// list is checked and plays no other part. Otherwise as [`judge`].
///
/// Late and early judging look at the same situations: they have one number, and are unsettled
/// together.
///
/// # Errors
/// The first of the rules 1 to 12 that turns the arguments back.
///
/// ```
/// use exchange::{Answer, Verdict, SITUATION_BYTES};
///
/// // a(x).τ.0 + a(x).0, and that + a(x).[x=b]τ.0
/// let question = [
///     0x01, 0x00, // version, no definitions
///     0x00, 0x08, 0x06, 0x02, 0x00, 0x01, 0x00, 0x02, 0x00, 0x00, // the first part
///     0x00, 0x10, 0x06, 0x06, 0x02, 0x00, 0x01, 0x00, 0x02, 0x00, 0x00, // the second part
///     0x02, 0x00, 0x05, 0x80, 0x01, 0x01, 0x00, // its last branch
///     0x00, 0x00, // the apart list
/// ];
/// let mut work = [0; 11 * SITUATION_BYTES];
/// let late = exchange::judge_late(&question, 11, &mut work)?;
/// assert_eq!(late, Answer::Result(Verdict::Different(11)));
/// let early = exchange::judge_early(&question, 11, &mut work)?;
/// assert_eq!(early, Answer::Result(Verdict::Same(11)));
/// # Ok::<(), exchange::Refusal>(())
/// ```
pub fn judge_late(
    question: &[u8],
    capacity: u64,
    work: &mut [u8],
) -> Result<Answer<Verdict>, Refusal> {
    Coded::answered(boundary::judge_late(question, capacity, work), judged)
}

/// Judges whether the parts of a question are early bisimilar: as [`judge_late`], but each name
/// that is received may have an answer of its own.
///
/// # Errors
/// The first of the rules 1 to 12 that turns the arguments back.
pub fn judge_early(
    question: &[u8],
    capacity: u64,
    work: &mut [u8],
) -> Result<Answer<Verdict>, Refusal> {
    Coded::answered(boundary::judge_early(question, capacity, work), judged)
}

/// Finds the fewest pairs of the given names, at most four, that make the parts the same when they
/// are added to the apart list. Of equally many those win whose bytes come first, each pair with
/// its smaller name first and in ascending order.
///
/// The result is the length of the enlarged list, which stands at the front of the area in that
/// same order without repeats; later bytes are untouched. It is `None` if no choice of pairs makes
/// the parts the same, and the answer is unsettled if any choice is. The area must have
/// [`APART_BYTES`], and the work area is as for [`judge`].
///
/// # Errors
/// The first of the rules 1 to 12, 18 and 15, in this order, that turns the arguments back.
///
/// ```
/// use exchange::{Answer, Refusal, APART_BYTES, SITUATION_BYTES};
///
/// // [a=b]τ.0 and 0: the same if a and b are held apart.
/// let question = [
///     0x01, 0x00, 0x00, 0x05, 0x05, 0x00, 0x01, 0x01, 0x00, 0x00, 0x01, 0x00, 0x00, 0x00,
/// ];
/// let mut work = [0; 4 * SITUATION_BYTES];
/// let mut area = [0xFF; APART_BYTES];
/// let found = exchange::apart(&question, 4, &[0, 1, 2], &mut work, &mut area)?;
/// assert_eq!(found, Answer::Result(Some(2)));
/// assert_eq!(area[..3], [0, 1, 0xFF]);
///
/// assert_eq!(exchange::apart(&question, 4, &[0, 2], &mut work, &mut area)?, Answer::Result(None));
/// assert_eq!(
///     exchange::apart(&question, 4, &[0, 0], &mut work, &mut area),
///     Err(Refusal::Names)
/// );
/// # Ok::<(), exchange::Refusal>(())
/// ```
pub fn apart(
    question: &[u8],
    capacity: u64,
    names: &[u8],
    work: &mut [u8],
    area: &mut [u8],
) -> Result<Answer<Option<usize>>, Refusal> {
    let code = boundary::apart(question, capacity, names, work, area);
    Coded::answered(code, |coded| match coded {
        Coded::Result(length) => Some(Answer::Result(Some(length))),
        Coded::None => Some(Answer::Result(None)),
        Coded::Unsettled => Some(Answer::Unsettled),
        _ => None,
    })
}
