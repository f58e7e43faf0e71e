//! The field of a question: its situations, and what each of them needs to stay related.

use crate::condition::{Apart, Names, NAMES};
use crate::form::Form;
use crate::question::{Definition, Question};
use crate::steps::{steps, Action, Step};
use crate::term::{Name, Term};
use std::collections::HashMap;
use std::rc::Rc;

/// How many steps the step lists kept for reuse may hold together.
const KEPT_STEPS: usize = 1 << 16;

/// A situation: two parts and the apart pairs whose names are free in at least one of them. The parts have the form of
/// results: rewriting a result, or putting a name for the placeholder, keeps it.
#[derive(Clone, PartialEq, Eq, Hash, Debug)]
struct Situation {
    first: Term,
    second: Term,
    apart: Apart,
}

impl Situation {
    fn new(first: Term, second: Term, apart: &Apart) -> Situation {
        let apart = apart.within(first.names().with(second.names()));
        Situation { first, second, apart }
    }
}

/// The side that takes a step which the other has to answer.
#[derive(Clone, Copy, PartialEq, Eq)]
enum Lead {
    First,
    Second,
}

/// Which bisimilarity is asked for.
#[derive(Clone, Copy, PartialEq, Eq, Debug)]
pub enum Kind {
    /// Definition 13: names may merge unless they are held apart.
    Open,
    /// Definition 7: all names differ, and an input has one answer for all received names.
    Late,
    /// Definition 9: all names differ, and an input has an answer for each received name.
    Early,
}

/// A step of one side that the other must answer. One of the answers must stay.
#[derive(Debug)]
pub struct Demand {
    /// The number of the situation that has the step.
    pub owner: u32,
    /// How many answers it has.
    pub answers: u32,
}

/// The field as a graph. Situations are numbered as they were found, the start being 0.
#[derive(Debug, Default)]
pub struct Field {
    /// All steps of all situations that must be answered.
    pub demands: Vec<Demand>,
    /// For each answer its demand, by number. An answer stays while all situations that it leads to stay related.
    pub answers: Vec<u32>,
    /// For each situation the answers, by number, that lead to it.
    pub answering: Vec<Vec<u32>>,
}

impl Field {
    /// The number of situations.
    pub fn size(&self) -> usize {
        self.answering.len()
    }
}

/// The field of the question with parts in this form, or nothing if the verdict is unsettled.
pub fn field(question: &Question, kind: Kind, form: Form, capacity: usize) -> Option<Field> {
    let mut search = Search {
        kind,
        form,
        definitions: &question.definitions,
        capacity,
        situations: Vec::new(),
        numbers: HashMap::new(),
        lists: StepLists::default(),
        field: Field::default(),
    };
    let apart = match kind {
        Kind::Open => Apart::of(&question.apart),
        Kind::Late | Kind::Early => Apart::of(&[]),
    };
    search.place(Situation::new(form.of(&question.first), form.of(&question.second), &apart))?;
    let mut next = 0;
    while next < search.situations.len() {
        search.take_up(next)?;
        next += 1;
    }
    Some(search.field)
}

/// The search for the field. Its functions give nothing once the verdict is unsettled.
struct Search<'a> {
    kind: Kind,
    form: Form,
    definitions: &'a [Definition],
    capacity: usize,
    situations: Vec<Situation>,
    numbers: HashMap<Situation, u32>,
    lists: StepLists,
    field: Field,
}

/// One side's steps in a situation, with the results for the situation's new name.
struct Moves {
    steps: Rc<[Step]>,
    results: Vec<Term>,
}

impl Moves {
    fn new(steps: Rc<[Step]>, new: Option<u8>) -> Moves {
        let result = |step: &Step| match new {
            Some(new) => step.result.received(Name::Free(new)),
            None => step.result.clone(),
        };
        let results = steps.iter().map(result).collect();
        Moves { steps, results }
    }
}

/// What the steps of a situation have in common.
struct Setting {
    number: u32,
    apart: Apart,
    free: Names,
    new: Option<u8>,
}

impl Search<'_> {
    /// The number of the situation, found before or now.
    fn place(&mut self, situation: Situation) -> Option<u32> {
        if let Some(&number) = self.numbers.get(&situation) {
            return Some(number);
        }
        if self.situations.len() == self.capacity {
            return None;
        }
        let number = self.situations.len() as u32;
        self.situations.push(situation.clone());
        self.numbers.insert(situation, number);
        self.field.answering.push(Vec::new());
        Some(number)
    }

    /// Tests the limits of a situation and finds the situations that follow it.
    fn take_up(&mut self, number: usize) -> Option<()> {
        let Situation { first, second, apart } = self.situations[number].clone();
        let first_steps = self.lists.get(&first, self.definitions, self.form)?;
        let second_steps = self.lists.get(&second, self.definitions, self.form)?;
        let free = first.names().with(second.names());
        let new = free.smallest_missing();
        let mut steps = first_steps.iter().chain(second_steps.iter());
        if new.is_none() && steps.any(|step| step.action.brings_name()) {
            return None;
        }
        let setting = Setting { number: number as u32, apart, free, new };
        let first = Moves::new(first_steps, new);
        let second = Moves::new(second_steps, new);
        if self.kind == Kind::Open {
            self.follow(&setting, &first, &second, Lead::First)?;
            return self.follow(&setting, &second, &first, Lead::Second);
        }
        self.follow_unconditional(&setting, &first, &second, Lead::First)?;
        self.follow_unconditional(&setting, &second, &first, Lead::Second)
    }

    /// Where all names differ: the leader's steps without a condition, each with its answers for
    /// every name that is received.
    fn follow_unconditional(
        &mut self,
        at: &Setting,
        leader: &Moves,
        other: &Moves,
        lead: Lead,
    ) -> Option<()> {
        for step in leader.steps.iter().filter(|step| step.condition.is_empty()) {
            let received: Vec<Option<u8>> = match step.action {
                Action::Input(_) => (0..NAMES as u8)
                    .filter(|&name| at.free.has(name) || at.new == Some(name))
                    .map(Some)
                    .collect(),
                _ => vec![at.new],
            };
            let mut answers = Vec::new();
            for answer in other.steps.iter().filter(|answer| answers_step(answer, step)) {
                let mut situations = Vec::new();
                for &name in &received {
                    let with = |result: &Term| match name {
                        Some(name) => result.received(Name::Free(name)),
                        None => result.clone(),
                    };
                    let (first, second) = match lead {
                        Lead::First => (with(&step.result), with(&answer.result)),
                        Lead::Second => (with(&answer.result), with(&step.result)),
                    };
                    situations.push(self.place(Situation::new(first, second, &at.apart))?);
                }
                answers.push(situations);
            }
            if self.kind == Kind::Late {
                self.demand(at.number, answers);
                continue;
            }
            for place in 0..received.len() {
                let each = answers.iter().map(|situations| vec![situations[place]]).collect();
                self.demand(at.number, each);
            }
        }
        Some(())
    }

    /// The leader's permitted steps, each with the situations of its answers.
    fn follow(&mut self, at: &Setting, leader: &Moves, other: &Moves, lead: Lead) -> Option<()> {
        for (step, result) in leader.steps.iter().zip(&leader.results) {
            if !at.apart.respected_by(&step.condition) {
                continue;
            }
            let extruded = at.new.filter(|_| matches!(step.action, Action::NewOutput(_)));
            let apart = at.apart.updated(extruded, at.free, &step.condition);
            let mut answers = Vec::new();
            for (answer, answered) in other.steps.iter().zip(&other.results) {
                if answers_step(answer, step) {
                    let answered = answered.rewritten(&step.condition);
                    let (first, second) = match lead {
                        Lead::First => (result.clone(), answered),
                        Lead::Second => (answered, result.clone()),
                    };
                    answers.push(vec![self.place(Situation::new(first, second, &apart))?]);
                }
            }
            self.demand(at.number, answers);
        }
        Some(())
    }

    /// A demand, and for each answer to it the situations that must all stay related.
    fn demand(&mut self, owner: u32, mut answers: Vec<Vec<u32>>) {
        for situations in &mut answers {
            situations.sort_unstable();
            situations.dedup();
        }
        answers.sort_unstable();
        answers.dedup();
        let demand = self.field.demands.len() as u32;
        for situations in &answers {
            let number = self.field.answers.len() as u32;
            self.field.answers.push(demand);
            for &situation in situations {
                self.field.answering[situation as usize].push(number);
            }
        }
        self.field.demands.push(Demand { owner, answers: answers.len() as u32 });
    }
}

/// Definition 13: the answer's condition is implied by the step's, and their actions are equal
/// under it.
fn answers_step(answer: &Step, step: &Step) -> bool {
    answer.action.rewritten(&step.condition) == step.action
        && step.condition.implies(&answer.condition)
}

/// Step lists of parts, kept because a part often occurs in many situations.
#[derive(Default)]
struct StepLists {
    lists: HashMap<Term, Rc<[Step]>>,
    held: usize,
}

impl StepLists {
    fn get(&mut self, part: &Term, definitions: &[Definition], form: Form) -> Option<Rc<[Step]>> {
        if let Some(list) = self.lists.get(part) {
            return Some(list.clone());
        }
        let list: Rc<[Step]> = steps(part, definitions, form)?.into();
        if self.held + list.len() > KEPT_STEPS {
            self.lists.clear();
            self.held = 0;
        }
        self.held += list.len();
        self.lists.insert(part.clone(), list.clone());
        Some(list)
    }
}
