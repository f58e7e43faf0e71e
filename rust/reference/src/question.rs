//! Questions: their frame, the checks 3 to 12 with 16, and printing them back in either edition.

use crate::answer::Check;
use crate::condition::NAMES;
use crate::term::{Edition, Name, Shape, Term};

/// The greatest length of a question.
pub const QUESTION_BYTES: usize = 4096;
/// The greatest length of a body, part or result.
pub const PART_BYTES: usize = 112;
/// The greatest length of an apart list: every pair once.
pub const APART_BYTES: usize = NAMES * (NAMES - 1);
/// The greatest number of definitions.
pub const DEFINITIONS: usize = 16;
/// The greatest arity.
pub const ARITY: u8 = 8;

/// A definition: its arity, and its body, whose outermost binders are the parameters.
#[derive(Clone, Debug)]
pub struct Definition {
    /// The number of parameters.
    pub arity: u8,
    /// The body.
    pub body: Term,
}

/// An accepted question.
#[derive(Clone, Debug)]
pub struct Question {
    /// The edition in which it came, and is printed.
    pub edition: Edition,
    /// The definitions, from 0.
    pub definitions: Vec<Definition>,
    /// The first part.
    pub first: Term,
    /// The second part.
    pub second: Term,
    /// The apart list as it stands, with its order and repeats.
    pub apart: Vec<(u8, u8)>,
}

impl Question {
    /// The question of these bytes, or the first of the checks 3 to 12 that turns it back.
    pub fn read(bytes: &[u8]) -> Result<Question, Check> {
        let edition =
            Edition::ALL.into_iter().find(|&edition| bytes.first() == Some(&edition.version()));
        Question::read_in(bytes, edition.ok_or(Check::Version)?)
    }

    /// The same of a question that must be of this edition.
    pub fn read_in(bytes: &[u8], edition: Edition) -> Result<Question, Check> {
        let frame = Frame::of(bytes, edition)?;
        frame.check_counts()?;
        frame.check_lengths()?;
        let (bodies, parts) = frame.terms(edition)?;
        if bodies.iter().any(has_parallel) || parts.iter().any(misplaces_parallel) {
            return Err(Check::Parallel);
        }
        if bodies.iter().any(has_unprefixed_call) {
            return Err(Check::Unprefixed);
        }
        let apart = apart_pairs(frame.apart)?;
        let [first, second] = parts;
        let definitions = frame.arities.iter().zip(bodies);
        let definitions = definitions.map(|(&arity, body)| Definition { arity, body });
        Ok(Question { edition, definitions: definitions.collect(), first, second, apart })
    }

    /// The bytes of the question.
    pub fn bytes(&self) -> Vec<u8> {
        let mut bytes = vec![self.edition.version(), self.definitions.len() as u8];
        bytes.extend(self.definitions.iter().map(|definition| definition.arity));
        for term in self.terms() {
            push_length(term.size_in(self.edition), &mut bytes);
            term.write(0, self.edition, &mut bytes);
        }
        push_length(2 * self.apart.len(), &mut bytes);
        bytes.extend(self.apart.iter().flat_map(|&(a, b)| [a, b]));
        bytes
    }

    /// All bodies and both parts, in file order.
    fn terms(&self) -> impl Iterator<Item = &Term> {
        let bodies = self.definitions.iter().map(|definition| &definition.body);
        bodies.chain([&self.first, &self.second])
    }

    /// The same question in the other edition: check 17 where a body or part is too long there.
    pub fn converted(self) -> Result<Question, Check> {
        let question = Question { edition: self.edition.other(), ..self };
        let fits = question.terms().all(|term| term.size_in(question.edition) <= PART_BYTES);
        match fits {
            true => Ok(question),
            false => Err(Check::Converted),
        }
    }

    /// The third part of a beside, in the question's own edition: the checks 6 to 10, where 6
    /// fires too if a side would pass 112 bytes.
    pub fn third(&self, bytes: &[u8]) -> Result<Term, Check> {
        let side = |term: &Term| term.size_in(self.edition);
        let longer_side = side(&self.first).max(side(&self.second));
        if bytes.is_empty() || 1 + longer_side + bytes.len() > PART_BYTES {
            return Err(Check::Length);
        }
        let arities: Vec<u8> = self.definitions.iter().map(|definition| definition.arity).collect();
        let third = read_term(bytes, &arities, None, self.edition)?;
        match misplaces_parallel(&third) {
            true => Err(Check::Parallel),
            false => Ok(third),
        }
    }
}

fn push_length(length: usize, bytes: &mut Vec<u8>) {
    bytes.extend((length as u16).to_be_bytes());
}

/// The fields of a question, not yet looked into.
struct Frame<'a> {
    arities: &'a [u8],
    bodies: Vec<&'a [u8]>,
    parts: [&'a [u8]; 2],
    apart: &'a [u8],
}

impl<'a> Frame<'a> {
    /// Checks 3 and 4.
    fn of(bytes: &'a [u8], edition: Edition) -> Result<Frame<'a>, Check> {
        if bytes.first() != Some(&edition.version()) {
            return Err(Check::Version);
        }
        if bytes.len() > QUESTION_BYTES {
            return Err(Check::Frame);
        }
        Frame::split(&bytes[1..]).ok_or(Check::Frame)
    }

    /// The fields after the version byte, if they end exactly where the question does.
    fn split(bytes: &'a [u8]) -> Option<Frame<'a>> {
        let (&count, mut rest) = bytes.split_first()?;
        let arities = take(&mut rest, usize::from(count))?;
        let bodies = arities.iter().map(|_| take_counted(&mut rest)).collect::<Option<_>>()?;
        let parts = [take_counted(&mut rest)?, take_counted(&mut rest)?];
        let apart = take_counted(&mut rest)?;
        rest.is_empty().then_some(Frame { arities, bodies, parts, apart })
    }

    /// Check 5.
    fn check_counts(&self) -> Result<(), Check> {
        let too_many = self.arities.len() > DEFINITIONS;
        if too_many || self.arities.iter().any(|&arity| arity > ARITY) {
            return Err(Check::Definitions);
        }
        Ok(())
    }

    /// Check 6.
    fn check_lengths(&self) -> Result<(), Check> {
        let mut pieces = self.bodies.iter().chain(&self.parts);
        match pieces.all(|piece| (1..=PART_BYTES).contains(&piece.len())) {
            true => Ok(()),
            false => Err(Check::Length),
        }
    }

    /// The bodies and the parts as trees: the shared walk of checks 7, 8, 16 and 9, in file order.
    fn terms(&self, edition: Edition) -> Result<(Vec<Term>, [Term; 2]), Check> {
        let bodies = self.bodies.iter().zip(self.arities);
        let bodies =
            bodies.map(|(body, &arity)| read_term(body, self.arities, Some(arity), edition));
        let bodies = bodies.collect::<Result<_, _>>()?;
        let first = read_term(self.parts[0], self.arities, None, edition)?;
        let second = read_term(self.parts[1], self.arities, None, edition)?;
        Ok((bodies, [first, second]))
    }
}

fn take<'a>(rest: &mut &'a [u8], length: usize) -> Option<&'a [u8]> {
    let (piece, after) = rest.split_at_checked(length)?;
    *rest = after;
    Some(piece)
}

/// A field that begins with its two-byte big-endian length.
fn take_counted<'a>(rest: &mut &'a [u8]) -> Option<&'a [u8]> {
    let length = take(rest, 2)?;
    take(rest, usize::from(u16::from_be_bytes([length[0], length[1]])))
}

/// Reads a whole body, if an arity is given, or a whole part.
fn read_term(
    bytes: &[u8],
    arities: &[u8],
    arity: Option<u8>,
    edition: Edition,
) -> Result<Term, Check> {
    let mut reader = Reader { rest: bytes, arities, in_body: arity.is_some(), edition };
    let term = reader.term(u16::from(arity.unwrap_or(0)))?;
    match reader.rest {
        [] => Ok(term),
        _ => Err(Check::Term),
    }
}

/// The left-to-right walk of checks 7, 8, 16 and 9.
struct Reader<'a> {
    rest: &'a [u8],
    arities: &'a [u8],
    in_body: bool,
    edition: Edition,
}

impl Reader<'_> {
    /// The next byte; a missing one is check 7.
    fn byte(&mut self) -> Result<u8, Check> {
        let (&byte, rest) = self.rest.split_first().ok_or(Check::Term)?;
        self.rest = rest;
        Ok(byte)
    }

    /// A term beneath this many binders.
    fn term(&mut self, binders: u16) -> Result<Term, Check> {
        let shape = match self.byte()? {
            0x00 => Shape::Inaction,
            0x01 => Shape::Silent(self.term(binders)?),
            0x02 => Shape::Input(self.name(binders)?, self.term(binders + 1)?),
            0x03 => Shape::Output(self.name(binders)?, self.name(binders)?, self.term(binders)?),
            0x04 => Shape::NewOutput(self.name(binders)?, self.term(binders + 1)?),
            0x05 => Shape::Match(self.name(binders)?, self.name(binders)?, self.term(binders)?),
            0x06 => Shape::Choice(self.term(binders)?, self.term(binders)?),
            0x07 => Shape::Parallel(self.term(binders)?, self.term(binders)?),
            0x08 => Shape::Restriction(self.term(binders + 1)?),
            0x09 => self.call(binders)?,
            _ => return Err(Check::Term),
        };
        Ok(Term::new(shape))
    }

    fn call(&mut self, binders: u16) -> Result<Shape, Check> {
        let k = self.byte()?;
        let &arity = self.arities.get(usize::from(k)).ok_or(Check::Call)?;
        if self.edition == Edition::Two && self.byte()? != arity {
            return Err(Check::Count);
        }
        let names = (0..arity).map(|_| self.name(binders)).collect::<Result<_, _>>()?;
        Ok(Shape::Call(k, names))
    }

    /// Check 9: no name byte, a name past its binders, or a free name in a body.
    fn name(&mut self, binders: u16) -> Result<Name, Check> {
        match self.byte()? {
            byte @ 0x00..=0x0F if !self.in_body => Ok(Name::Free(byte)),
            byte @ 0x80.. if u16::from(byte - 0x80) < binders => {
                Ok(Name::Bound(u16::from(byte - 0x80)))
            }
            _ => Err(Check::Name),
        }
    }
}

/// The terms directly beneath the outermost constructor.
fn beneath(term: &Term) -> Vec<&Term> {
    match term.shape() {
        Shape::Inaction | Shape::Call(..) => vec![],
        Shape::Silent(p) | Shape::Input(_, p) | Shape::Output(_, _, p) => vec![p],
        Shape::NewOutput(_, p) | Shape::Match(_, _, p) | Shape::Restriction(p) => vec![p],
        Shape::Choice(p, q) | Shape::Parallel(p, q) => vec![p, q],
    }
}

/// Check 10 for a body: parallel occurs.
fn has_parallel(term: &Term) -> bool {
    matches!(term.shape(), Shape::Parallel(..)) || beneath(term).into_iter().any(has_parallel)
}

/// Check 10 for a part: parallel occurs beneath anything but parallels and restrictions.
fn misplaces_parallel(term: &Term) -> bool {
    match term.shape() {
        Shape::Parallel(p, q) => misplaces_parallel(p) || misplaces_parallel(q),
        Shape::Restriction(p) => misplaces_parallel(p),
        _ => has_parallel(term),
    }
}

/// Check 11: a call that is not beneath a prefix.
fn has_unprefixed_call(term: &Term) -> bool {
    match term.shape() {
        Shape::Call(..) => true,
        Shape::Silent(_) | Shape::Input(..) | Shape::Output(..) | Shape::NewOutput(..) => false,
        _ => beneath(term).into_iter().any(has_unprefixed_call),
    }
}

/// Check 12, and the pairs of the apart list.
fn apart_pairs(bytes: &[u8]) -> Result<Vec<(u8, u8)>, Check> {
    let (pairs, rest) = bytes.as_chunks::<2>();
    if !rest.is_empty() || bytes.len() > APART_BYTES {
        return Err(Check::Apart);
    }
    let pairs: Vec<(u8, u8)> = pairs.iter().map(|&[a, b]| (a, b)).collect();
    match pairs.iter().all(|&(a, b)| a <= 0x0F && b <= 0x0F && a != b) {
        true => Ok(pairs),
        false => Err(Check::Apart),
    }
}
