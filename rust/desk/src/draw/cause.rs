//! Which components of a part make a move.

use super::components::{Known, Pieces};
use crate::position::{Listed, Position, Table};
use crate::term::{Head, Term};
use exchange::{Action, Name, Side, Step};

/// A component that takes part in a move, and the channel that it uses for it.
pub type Mover = (usize, Option<Known>);

/// What a component can do on its own, asked of the library with free names for private ones.
struct Alone {
    steps: Vec<Listed>,
    privates: Vec<(u8, usize)>,
}

impl Alone {
    fn known(&self, name: Name) -> Known {
        let private = self.privates.iter().find(|(byte, _)| *byte == name.byte());
        private.map_or(Known::Free(name.byte()), |&(_, number)| Known::Private(number))
    }

    fn is_private(&self, name: Name) -> bool {
        matches!(self.known(name), Known::Private(_))
    }
}

/// The components that make the move, as far as that can be found: of those that could, the first
/// after whose steps the part has the outline of the move's result. Restrictions do not count: a
/// step can leave one unused, so that it goes, or bring one for a name that is passed on.
pub fn movers(pieces: &Pieces<'_>, part: &Term, step: Step<'_>, table: &mut Table) -> Vec<Mover> {
    let Some(alone) = alone(pieces, part, table) else { return Vec::new() };
    let causes = match step.action() {
        Action::Silent => [single(&alone, step), pairs(&alone, step)].concat(),
        _ => single(&alone, step),
    };
    let result = table.term(step.result()).bare_outline();
    let fits = |cause: &&Cause| replaced(part, pieces, cause, &alone, table) == result;
    let best = causes.iter().find(fits).or_else(|| causes.first());
    best.map(|cause| cause.iter().map(|taker| (taker.component, taker.channel)).collect())
        .unwrap_or_default()
}

/// A component and the step that it takes.
#[derive(Clone, Copy)]
struct Taker {
    component: usize,
    step: usize,
    channel: Option<Known>,
}

/// The components that take a step together.
type Cause = Vec<Taker>;

fn alone(pieces: &Pieces<'_>, part: &Term, table: &mut Table) -> Option<Vec<Alone>> {
    let used = part.free_names();
    let mut spare = Name::all().rev().filter(|name| !used.contains(&name.byte()));
    let new = spare.next()?;
    let privates: Vec<u8> =
        pieces.restrictions.iter().map(|_| spare.next().map(Name::byte)).collect::<Option<_>>()?;
    let numbered: Vec<(u8, usize)> =
        privates.iter().enumerate().map(|(number, &byte)| (byte, number)).collect();
    let alone = pieces.components.iter().map(|component| {
        let term = component.alone(|number| privates.get(number).copied());
        let position = Position { parts: [term.bytes(), Term::nil().bytes()], apart: Vec::new() };
        let steps = table.listed(&position, Side::First, new)?;
        Some(Alone { steps, privates: numbered.clone() })
    });
    alone.collect()
}

/// The single components that can make the move.
fn single(alone: &[Alone], step: Step<'_>) -> Vec<Cause> {
    let mut causes = Vec::new();
    for (component, own) in alone.iter().enumerate() {
        for (place, listed) in own.steps.iter().enumerate() {
            let found = listed.step();
            if step.implies(found) && is_move(own, found.action(), step) {
                let channel = channel(found.action()).map(|channel| own.known(channel));
                causes.push(vec![Taker { component, step: place, channel }]);
            }
        }
    }
    causes
}

/// Whether a component's action is that of the move. An output of a private name is one of a new
/// name outside.
fn is_move(own: &Alone, action: Action, step: Step<'_>) -> bool {
    let class = |name| step.class(name);
    match (action, step.action()) {
        (Action::Silent, Action::Silent) => true,
        (Action::Input(a, _), Action::Input(b, _)) => class(a) == b,
        (Action::Output(a, x), Action::Output(b, y)) => class(a) == b && class(x) == y,
        (Action::NewOutput(a, _), Action::NewOutput(b, _)) => class(a) == b,
        (Action::Output(a, x), Action::NewOutput(b, _)) => class(a) == b && own.is_private(x),
        _ => false,
    }
}

/// The pairs of components of which one sends to the other.
fn pairs(alone: &[Alone], step: Step<'_>) -> Vec<Cause> {
    let visible = |component: usize| {
        let own = &alone[component];
        own.steps.iter().enumerate().filter_map(move |(place, listed)| {
            let found = listed.step();
            let channel = channel(found.action()).filter(|_| step.implies(found))?;
            let taker = Taker { component, step: place, channel: Some(own.known(channel)) };
            Some((taker, matches!(found.action(), Action::Input(..)), step.class(channel)))
        })
    };
    let mut causes = Vec::new();
    for first in 0..alone.len() {
        for second in first + 1..alone.len() {
            for (taker, receives, on) in visible(first) {
                let others = visible(second).filter(|&(_, other_receives, other_on)| {
                    other_receives != receives && other_on == on
                });
                causes.extend(others.map(|(other, _, _)| vec![taker, other]));
            }
        }
    }
    causes
}

fn channel(action: Action) -> Option<Name> {
    match action {
        Action::Silent => None,
        Action::Input(channel, _) | Action::Output(channel, _) | Action::NewOutput(channel, _) => {
            Some(channel)
        }
    }
}

/// The outline of the part after the components of a cause have taken their steps.
fn replaced(
    part: &Term,
    pieces: &Pieces<'_>,
    cause: &Cause,
    alone: &[Alone],
    table: &Table,
) -> Vec<u8> {
    let mut component = 0;
    let mut outline = Vec::new();
    skeleton(part, &mut |piece| match piece {
        None => {
            let taker = cause.iter().find(|taker| taker.component == component);
            outline.extend(match taker {
                Some(taker) => {
                    table.term(alone[component].steps[taker.step].step().result()).bare_outline()
                }
                None => pieces.components[component].term.bare_outline(),
            });
            component += 1;
        }
        Some(head) => outline.push(head),
    });
    outline
}

/// The bytes of parallels above the components, and nothing for each component.
fn skeleton(term: &Term, see: &mut impl FnMut(Option<u8>)) {
    match term.head {
        Head::Parallel | Head::Restriction => {
            if term.head == Head::Parallel {
                see(term.outline().first().copied());
            }
            term.beneath.iter().for_each(|beneath| skeleton(beneath, see));
        }
        _ => see(None),
    }
}
