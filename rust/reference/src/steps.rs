//! The steps of a part: table 4.1 and the rule Canon, as document 01 reads them.

use crate::condition::{Condition, NAMES};
use crate::form::Form;
use crate::question::{Definition, PART_BYTES};
use crate::term::{Edition, Name, Shape, Term};
use std::collections::HashSet;

/// The greatest number of distinct steps of a part.
pub const STEPS: usize = 256;
/// The bytes of a listed step.
pub const STEP_BYTES: usize = NAMES + 4 + PART_BYTES;

/// What a step does. The received or extruded name is left open: it is a placeholder in the
/// result.
#[derive(Clone, Copy, PartialEq, Eq, Hash, Debug)]
pub enum Action {
    /// Silent.
    Silent,
    /// Input on the channel.
    Input(Name),
    /// Free output on the channel of the object.
    Output(Name, Name),
    /// Output on the channel of a new name.
    NewOutput(Name),
}

impl Action {
    /// Whether the action brings in a name: it receives or extrudes one.
    pub fn brings_name(&self) -> bool {
        matches!(self, Action::Input(_) | Action::NewOutput(_))
    }

    /// The action rewritten by the condition.
    pub fn rewritten(self, condition: &Condition) -> Action {
        self.renamed(|name| match name {
            Name::Free(name) => Name::Free(condition.class(name)),
            name => name,
        })
    }

    fn renamed(self, of: impl Fn(Name) -> Name) -> Action {
        match self {
            Action::Silent => Action::Silent,
            Action::Input(a) => Action::Input(of(a)),
            Action::Output(a, b) => Action::Output(of(a), of(b)),
            Action::NewOutput(a) => Action::NewOutput(of(a)),
        }
    }
}

/// A step: its condition, its action and its result.
#[derive(Clone, PartialEq, Eq, Hash, Debug)]
pub struct Step {
    /// The condition.
    pub condition: Condition,
    /// The action.
    pub action: Action,
    /// The result, in which the placeholder is the received or extruded name.
    pub result: Term,
}

impl Step {
    /// Pre: a step without a condition.
    fn free(action: Action, result: Term) -> Step {
        Step { condition: Condition::EMPTY, action, result }
    }

    /// Canon: action and result rewritten by the condition, and the result in its form.
    fn canonical(self, form: Form) -> Step {
        let action = self.action.rewritten(&self.condition);
        let result = form.of(&self.result.rewritten(&self.condition));
        Step { condition: self.condition, action, result }
    }

    /// Par: the step with its result in a wider term.
    fn within(&self, wider: impl Fn(Term) -> Shape) -> Step {
        let result = Term::new(wider(self.result.clone()));
        Step { condition: self.condition, action: self.action, result }
    }
}

/// The distinct steps of a part with results in this form, or nothing if there are more than 256
/// or one has a result above 112 bytes.
pub fn steps(part: &Term, definitions: &[Definition], form: Form) -> Option<Vec<Step>> {
    let mut seen = HashSet::new();
    let mut distinct = Vec::new();
    for step in allowed(part, definitions) {
        let step = step.canonical(form);
        if seen.insert(step.clone()) {
            distinct.push(step);
        }
        if distinct.len() > STEPS {
            return None;
        }
    }
    let fits = |step: &Step| step.result.size() <= PART_BYTES;
    distinct.iter().all(fits).then_some(distinct)
}

/// The steps that table 4.1 allows, before Canon. Names bound outside the term are those of
/// restrictions around it. A condition that merged one of them would be blocked there, so
/// conditions are on free names only.
fn allowed(term: &Term, definitions: &[Definition]) -> Vec<Step> {
    match term.shape() {
        Shape::Inaction => vec![],
        Shape::Silent(p) => vec![Step::free(Action::Silent, p.clone())],
        Shape::Input(a, p) => vec![Step::free(Action::Input(*a), p.opened())],
        Shape::Output(a, b, p) => vec![Step::free(Action::Output(*a, *b), p.clone())],
        Shape::NewOutput(a, p) => vec![Step::free(Action::NewOutput(*a), p.opened())],
        Shape::Match(a, b, p) => matched(*a, *b, p, definitions),
        Shape::Choice(p, q) => {
            let mut steps = allowed(p, definitions);
            steps.append(&mut allowed(q, definitions));
            steps
        }
        Shape::Parallel(p, q) => parallel(p, q, definitions),
        Shape::Restriction(p) => {
            let steps = allowed(p, definitions).into_iter();
            steps.filter_map(restricted).collect()
        }
        Shape::Call(k, names) => {
            let body = &definitions[usize::from(*k)].body;
            allowed(&body.with_parameters(names), definitions)
        }
    }
}

/// The least condition that implies the given one and equates the names, if no restriction
/// blocks it: trivial matches vanish, and a restricted name equals itself alone.
fn equated(condition: Condition, a: Name, b: Name) -> Option<Condition> {
    match (a, b) {
        (a, b) if a == b => Some(condition),
        (Name::Free(a), Name::Free(b)) => Some(condition.merged(a, b)),
        _ => None,
    }
}

/// Match.
fn matched(a: Name, b: Name, term: &Term, definitions: &[Definition]) -> Vec<Step> {
    let steps = allowed(term, definitions).into_iter();
    let equated = |step: Step| {
        let condition = equated(step.condition, a, b)?;
        Some(Step { condition, ..step })
    };
    steps.filter_map(equated).collect()
}

/// Par, Com and Close, each with its symmetric version.
fn parallel(p: &Term, q: &Term, definitions: &[Definition]) -> Vec<Step> {
    let left = operand(p, definitions);
    let right = operand(q, definitions);
    let mut steps = Vec::with_capacity(left.len() + right.len());
    steps.extend(left.iter().map(|step| step.within(|p| Shape::Parallel(p, q.clone()))));
    steps.extend(right.iter().map(|step| step.within(|q| Shape::Parallel(p.clone(), q))));
    let (left_inputs, left_outputs) = partners(&left);
    let (right_inputs, right_outputs) = partners(&right);
    let beside = |p, q| Term::new(Shape::Parallel(p, q));
    for output in &left_outputs {
        let met = right_inputs.iter().filter_map(|input| meeting(output, input, beside));
        steps.extend(met);
    }
    for output in &right_outputs {
        let met =
            left_inputs.iter().filter_map(|input| meeting(output, input, |q, p| beside(p, q)));
        steps.extend(met);
    }
    steps
}

/// The steps of one side of a parallel. Equal ones among the branches of a choice go, so that
/// they do not multiply when the sides meet.
fn operand(term: &Term, definitions: &[Definition]) -> Vec<Step> {
    let mut steps = allowed(term, definitions);
    if !matches!(term.shape(), Shape::Parallel(..)) && steps.len() > 1 {
        let mut seen = HashSet::with_capacity(steps.len());
        steps.retain(|step| seen.insert(step.clone()));
    }
    steps
}

/// The input steps and the output steps, free or of a new name.
fn partners(steps: &[Step]) -> (Vec<&Step>, Vec<&Step>) {
    let moving = steps.iter().filter(|step| step.action != Action::Silent);
    moving.partition(|step| matches!(step.action, Action::Input(_)))
}

/// Com or Close: an output meets an input, and the two results stand beside each other.
fn meeting(output: &Step, input: &Step, beside: impl Fn(Term, Term) -> Term) -> Option<Step> {
    let Action::Input(to) = input.action else { return None };
    let (from, object) = match output.action {
        Action::Output(from, object) => (from, Some(object)),
        Action::NewOutput(from) => (from, None),
        _ => return None,
    };
    let condition = equated(output.condition.joined(&input.condition), from, to)?;
    let result = match object {
        Some(object) => beside(output.result.clone(), input.result.received(object)),
        None => beside(output.result.clone(), input.result.clone()).closed(),
    };
    Some(Step { condition, action: Action::Silent, result })
}

/// Res and Open: the step seen from outside a restriction, unless that blocks it.
fn restricted(step: Step) -> Option<Step> {
    const HERE: Name = Name::Bound(0);
    let outside = |name| match name {
        Name::Bound(k) => Name::Bound(k - 1),
        name => name,
    };
    let (action, result) = match step.action {
        Action::Input(HERE) | Action::NewOutput(HERE) | Action::Output(HERE, _) => return None,
        Action::Output(a, HERE) => (Action::NewOutput(outside(a)), step.result.opened()),
        action => (action.renamed(outside), Term::new(Shape::Restriction(step.result))),
    };
    Some(Step { condition: step.condition, action, result })
}

/// A step as it is listed.
#[derive(Clone, PartialEq, Eq, Debug)]
pub struct Listed {
    /// The class name of each name.
    pub classes: [u8; NAMES],
    /// The kind of the action: 0 silent, 1 input, 2 free output, 3 new-name output.
    pub kind: u8,
    /// The channel, 0 where silent.
    pub channel: u8,
    /// The object, 0 where silent.
    pub object: u8,
    /// The coded result.
    pub result: Vec<u8>,
}

impl Listed {
    /// The step with the given new name as its received or extruded name.
    pub fn of(step: &Step, new: u8) -> Listed {
        let byte = |name| match name {
            Name::Free(name) => name,
            _ => unreachable!("the names of a part's actions are free"),
        };
        let (kind, channel, object) = match step.action {
            Action::Silent => (0, 0, 0),
            Action::Input(a) => (1, byte(a), new),
            Action::Output(a, b) => (2, byte(a), byte(b)),
            Action::NewOutput(a) => (3, byte(a), new),
        };
        let mut result = Vec::with_capacity(step.result.size());
        step.result.write(new, Edition::One, &mut result);
        Listed { classes: *step.condition.classes(), kind, channel, object, result }
    }

    /// The 132 bytes of the step.
    pub fn bytes(&self) -> [u8; STEP_BYTES] {
        let mut bytes = [0; STEP_BYTES];
        bytes[..NAMES].copy_from_slice(&self.classes);
        let head = [self.kind, self.channel, self.object, self.result.len() as u8];
        bytes[NAMES..NAMES + 4].copy_from_slice(&head);
        bytes[NAMES + 4..][..self.result.len()].copy_from_slice(&self.result);
        bytes
    }
}
