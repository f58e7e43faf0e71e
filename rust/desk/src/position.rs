//! Positions, their steps and what follows, as "The field and the verdict" of document 01 has
//! them. Steps, rewriting and verdicts are asked of the library.

use crate::model::{place, question, Exchange};
use crate::term::Term;
use exchange::{
    Action, Answer, Judge, Name, Question, Refusal, Side, Step, Verdict, QUESTION_BYTES, STEPS,
    STEP_BYTES,
};

/// Pairs of names held apart: the smaller first, in ascending order, each once.
pub type Pairs = Vec<(u8, u8)>;

/// Pairs in that order.
pub fn ordered(pairs: impl IntoIterator<Item = (u8, u8)>) -> Pairs {
    let mut pairs: Pairs = pairs.into_iter().map(|(a, b)| (a.min(b), a.max(b))).collect();
    pairs.sort_unstable();
    pairs.dedup();
    pairs
}

/// A situation: two coded parts and the apart pairs whose names are free in them.
#[derive(Clone, PartialEq, Eq, Hash, Debug)]
pub struct Position {
    /// The two parts.
    pub parts: [Vec<u8>; 2],
    /// The apart pairs.
    pub apart: Pairs,
}

/// A listed step with bytes of its own.
#[derive(Clone, PartialEq, Eq, Debug)]
pub struct Listed(Box<[u8]>);

impl Listed {
    /// The step.
    pub fn step(&self) -> Step<'_> {
        Step::new(&self.0).expect("it was a step when it was copied")
    }

    /// Whether it receives a name or sends a new one.
    fn brings_name(&self) -> bool {
        matches!(self.step().action(), Action::Input(..) | Action::NewOutput(..))
    }
}

/// Why the steps of a position are not known.
#[derive(Clone, Copy, PartialEq, Eq, Debug)]
pub enum Limit {
    /// This side has more than 256 steps or a result above 112 bytes.
    Listing(Side),
    /// All names are free in the two parts, and this side receives or sends a new one.
    Names(Side),
    /// All names are free in this side, so that the library has none to list its steps with.
    Unlistable(Side),
}

/// The definitions that all positions share, and areas for the library.
pub struct Table {
    book: Vec<(u8, Vec<u8>)>,
    arities: Vec<u8>,
    listing: Vec<u8>,
    merging: Vec<u8>,
}

impl Table {
    /// The table of an exchange.
    pub fn new(exchange: &Exchange) -> Table {
        Table {
            book: exchange.book(),
            arities: exchange.arities(),
            listing: vec![0; STEPS * STEP_BYTES],
            merging: vec![0; QUESTION_BYTES],
        }
    }

    /// The position that an exchange starts from.
    pub fn start(&self, exchange: &Exchange) -> Position {
        self.position(exchange.parts.each_ref().map(Term::bytes), exchange.apart.iter().copied())
    }

    /// A position of these parts.
    pub fn position(
        &self,
        parts: [Vec<u8>; 2],
        apart: impl IntoIterator<Item = (u8, u8)>,
    ) -> Position {
        let free = self.free(&parts);
        let both_free = |(a, b): &(u8, u8)| free.contains(a) && free.contains(b);
        let apart = ordered(apart.into_iter().filter(both_free));
        Position { parts, apart }
    }

    /// The position without the restrictions that bind nothing, as the library has every position
    /// that follows another, and the start too when it counts them.
    pub fn tidied(&self, position: &Position) -> Position {
        let parts = position.parts.each_ref().map(|part| self.term(part).tidied().bytes());
        Position { parts, apart: position.apart.clone() }
    }

    /// The term of a coded part.
    pub fn term(&self, part: &[u8]) -> Term {
        Term::read(part, &self.arities).unwrap_or_else(Term::nil)
    }

    /// The names that are free in at least one of two parts.
    pub fn free(&self, parts: &[Vec<u8>; 2]) -> Vec<u8> {
        let mut free: Vec<u8> =
            parts.iter().flat_map(|part| self.term(part).free_names()).collect();
        free.sort_unstable();
        free.dedup();
        free
    }

    /// The question of a position.
    pub fn question(&self, position: &Position) -> Vec<u8> {
        let apart: Vec<u8> = position.apart.iter().flat_map(|&(a, b)| [a, b]).collect();
        question(&self.book, &position.parts[0], &position.parts[1], &apart)
    }

    /// What the library says of a position.
    ///
    /// # Errors
    /// The refusal, if the position is no accepted question.
    pub fn judged(
        &self,
        position: &Position,
        judge: &mut Judge,
    ) -> Result<Answer<Verdict>, Refusal> {
        Ok(judge.judge(Question::new(&self.question(position))?))
    }

    /// The steps of both sides, with the smallest name free in neither for a new one.
    ///
    /// # Errors
    /// The limit that the position is past.
    pub fn steps(&mut self, position: &Position) -> Result<[Vec<Listed>; 2], Limit> {
        let free = self.free(&position.parts);
        let new = Name::all().find(|name| !free.contains(&name.byte()));
        let mut lists = [Vec::new(), Vec::new()];
        for side in Side::BOTH {
            let part = &position.parts[place(side)];
            let own = self.term(part).free_names();
            let unused = || Name::all().find(|name| !own.contains(&name.byte()));
            let Some(new_here) = new.or_else(unused) else {
                return Err(match self.brings_name_when_merged(part) {
                    true => Limit::Names(side),
                    false => Limit::Unlistable(side),
                });
            };
            let list = self.listed(position, side, new_here).ok_or(Limit::Listing(side))?;
            if new.is_none() && list.iter().any(Listed::brings_name) {
                return Err(Limit::Names(side));
            }
            lists[place(side)] = list;
        }
        Ok(lists)
    }

    /// Whether a part in which all names are free receives or sends a new one. The library lists its
    /// steps only with a name to spare, so two names are merged: that changes the conditions of
    /// steps and not their kinds.
    fn brings_name_when_merged(&mut self, part: &[u8]) -> bool {
        let mut names = Name::all().rev();
        let (Some(spare), Some(kept)) = (names.next(), names.next()) else { return false };
        let position = Position { parts: [part.to_vec(), Term::nil().bytes()], apart: Vec::new() };
        let bytes = self.question(&position);
        let merged = Question::new(&bytes)
            .and_then(|question| question.merge(kept, spare, &mut self.merging));
        let Ok(merged) = merged else { return false };
        let parts = Side::BOTH.map(|side| merged.part(side).to_vec());
        let merged = Position { parts, apart: Vec::new() };
        let list = self.listed(&merged, Side::First, spare);
        list.is_some_and(|list| list.iter().any(Listed::brings_name))
    }

    /// The steps of one side, unless the library answers that a limit is passed.
    pub fn listed(&mut self, position: &Position, side: Side, new: Name) -> Option<Vec<Listed>> {
        let bytes = self.question(position);
        let question = Question::new(&bytes).ok()?;
        let steps = question.steps(side, new, &mut self.listing).ok()?.result()?;
        Some(steps.iter().map(|step| Listed(step.bytes().into())).collect())
    }

    /// The position after a step of this side and its answer: both results rewritten by the
    /// step's condition, the apart pairs updated as in Definition 15.
    pub fn after(
        &mut self,
        position: &Position,
        side: Side,
        step: Step<'_>,
        answer: Step<'_>,
    ) -> Result<Position, Refusal> {
        let mut parts = [step.result().to_vec(), answer.result().to_vec()];
        if side == Side::Second {
            parts.swap(0, 1);
        }
        let mut apart = position.apart.clone();
        if let Action::NewOutput(_, new) = step.action() {
            apart.extend(self.free(&position.parts).into_iter().map(|name| (name, new.byte())));
        }
        let apart = ordered(apart);
        let bytes = self.question(&Position { parts, apart });
        self.rewritten(bytes, step)
    }

    /// The position of a question in which the names that the step's condition makes equal are
    /// merged, one after the other.
    fn rewritten(&mut self, mut bytes: Vec<u8>, step: Step<'_>) -> Result<Position, Refusal> {
        for name in Name::all().filter(|&name| step.class(name) != name) {
            let question = Question::new(&bytes)?;
            bytes = question.merge(step.class(name), name, &mut self.merging)?.bytes().to_vec();
        }
        let question = Question::new(&bytes)?;
        let parts = Side::BOTH.map(|side| question.part(side).to_vec());
        Ok(self.position(parts, question.apart().map(|(a, b)| (a.byte(), b.byte()))))
    }
}

/// Whether a step's condition respects the apart pairs.
pub fn permitted(step: Step<'_>, apart: &[(u8, u8)]) -> bool {
    let class = |byte| Name::new(byte).map(|name| step.class(name));
    apart.iter().all(|&(a, b)| class(a) != class(b))
}

/// Definition 13: the answer's condition is implied by the step's, and their actions are equal
/// under it.
pub fn answers(answer: Step<'_>, step: Step<'_>) -> bool {
    step.implies(answer) && action_under(answer, step) == step.action()
}

/// The action of an answer, rewritten by the step's condition.
pub fn action_under(answer: Step<'_>, step: Step<'_>) -> Action {
    answer.action().renamed(|name| step.class(name))
}
