//! Steps and names in words.

use crate::model::{place, Exchange};
use crate::position::{action_under, Position, Table};
use crate::term::{Head, Name as TermName, Term};
use crate::text::{Printer, Words};
use exchange::{Action, Name, Side, Step};

/// What the free names of a position are called, by their bytes.
pub type Naming = Vec<String>;

/// A word for every name, which is empty for those that are not in use.
pub fn all_names(names: &[String]) -> Naming {
    let mut names = names.to_vec();
    names.resize(Name::COUNT, String::new());
    names
}

/// The words of an exchange, for its positions.
pub struct Speaker<'a> {
    exchange: &'a Exchange,
    words: Words,
}

/// Names in a row: a, b and c.
pub fn listed(names: &[impl AsRef<str>]) -> String {
    match names {
        [] => String::new(),
        [one] => one.as_ref().to_string(),
        [all @ .., last] => {
            let all: Vec<&str> = all.iter().map(AsRef::as_ref).collect();
            format!("{} and {}", all.join(", "), last.as_ref())
        }
    }
}

/// A number of things: 1 pair, 2 pairs.
pub fn counted(count: usize, thing: &str) -> String {
    match count {
        1 => format!("1 {thing}"),
        _ => format!("{count} {thing}s"),
    }
}

/// The one of these words that a person may have meant: at most two letters are other ones.
pub fn alike<'a>(word: &str, known: impl IntoIterator<Item = &'a str>) -> Option<&'a str> {
    let known = known.into_iter().map(|known| (distance(known, word), known));
    known.min().filter(|&(distance, _)| distance <= 2).map(|(_, known)| known)
}

/// How many letters must be put in, left out or changed to make one word of the other.
fn distance(one: &str, other: &str) -> usize {
    let other: Vec<char> = other.chars().take(64).collect();
    let mut row: Vec<usize> = (0..=other.len()).collect();
    for (line, letter) in one.chars().take(64).enumerate() {
        let mut diagonal = row[0];
        row[0] = line + 1;
        for column in 0..other.len() {
            let changed = diagonal + usize::from(letter != other[column]);
            diagonal = row[column + 1];
            row[column + 1] = changed.min(diagonal + 1).min(row[column] + 1);
        }
    }
    row[other.len()]
}

impl<'a> Speaker<'a> {
    /// The speaker for an exchange.
    pub fn new(exchange: &'a Exchange) -> Speaker<'a> {
        Speaker { exchange, words: Words::of(exchange) }
    }

    /// The names as the file has them.
    pub fn names(&self) -> Naming {
        all_names(&self.exchange.names)
    }

    /// A term of a position.
    pub fn term(&self, term: &Term, names: &Naming) -> String {
        self.printer(names).term(term, &[])
    }

    /// A printer with these free names.
    pub fn printer<'b>(&'b self, names: &'b Naming) -> Printer<'b> {
        Printer { free: names, definitions: &self.exchange.definitions, words: &self.words }
    }

    /// Pairs of names: a and b; c and d.
    pub fn pairs(&self, pairs: &[(u8, u8)], names: &Naming) -> String {
        paired(pairs, names, " and ").join("; ")
    }

    /// Pairs of names as a file holds them apart: a b, c d.
    pub fn apart_list(&self, pairs: &[(u8, u8)], names: &Naming) -> String {
        paired(pairs, names, " ").join(", ")
    }

    /// The names after a step of this side: a name that it brings gets a word that no other name
    /// of the position or the file has.
    pub fn names_after(
        &self,
        names: &Naming,
        position: &Position,
        side: Side,
        step: Step<'_>,
        table: &Table,
    ) -> Naming {
        let mut names = names.clone();
        let (channel, new, head) = match step.action() {
            Action::Input(channel, new) => (channel, new, Head::Input),
            Action::NewOutput(channel, new) => (channel, new, Head::NewOutput),
            _ => return names,
        };
        let free = table.free(&position.parts);
        let taken = |word: &str| {
            let mut in_use = free.iter().map(|&byte| &names[usize::from(byte)]);
            in_use.any(|name| name == word) || self.exchange.names.iter().any(|name| name == word)
        };
        let mover = table.term(&position.parts[place(side)]);
        let hint = self.bound_by(&mover, head, channel, step).unwrap_or_else(|| "x".to_string());
        let more = (2..).map(|number| format!("{hint}{number}"));
        let word = std::iter::once(hint.clone()).chain(more).find(|word| !taken(word));
        names[new.place()] = word.unwrap_or(hint);
        names
    }

    /// What a prefix that can make this move calls the name it binds.
    fn bound_by(&self, mover: &Term, head: Head, channel: Name, step: Step<'_>) -> Option<String> {
        let mut found = None;
        self.available(mover, &mut |term, free| {
            let on_channel = |byte| Name::new(byte).is_some_and(|name| step.class(name) == channel);
            if found.is_none() && term.head == head && free.is_some_and(on_channel) {
                found = self.words.word(term).map(str::to_string);
            }
        });
        found
    }

    /// The prefixes that nothing guards, those in the bodies of calls too, each with its channel
    /// if that is a free name.
    fn available<'t>(&'t self, part: &'t Term, see: &mut impl FnMut(&'t Term, Option<u8>)) {
        let free = |name: Option<&TermName>| match name {
            Some(&TermName::Free(byte)) => Some(byte),
            _ => None,
        };
        unguarded(part, &mut |term| {
            let Head::Call(number) = term.head else { return see(term, free(term.names.first())) };
            let Some(definition) = self.exchange.definitions.get(usize::from(number)) else {
                return;
            };
            unguarded(&definition.body, &mut |inner| {
                let channel = match inner.names.first() {
                    Some(&TermName::Bound(k)) => {
                        let place = term.names.len().checked_sub(k + 1);
                        free(place.and_then(|place| term.names.get(place)))
                    }
                    _ => None,
                };
                see(inner, channel);
            });
        });
    }

    /// The condition of a step: which names are one.
    pub fn condition(&self, step: Step<'_>, names: &Naming) -> Option<String> {
        let groups: Vec<String> = Name::all()
            .filter_map(|class| {
                let members: Vec<&str> = Name::all()
                    .filter(|&name| step.class(name) == class)
                    .map(|name| names[name.place()].as_str())
                    .collect();
                (members.len() > 1).then(|| format!("{} are one name", listed(&members)))
            })
            .collect();
        (!groups.is_empty()).then(|| listed(&groups))
    }

    /// What a step does.
    pub fn action(&self, action: Action, names: &Naming) -> String {
        let word = |name: Name| names[name.place()].as_str();
        match action {
            Action::Silent => "makes a silent step".to_string(),
            Action::Input(channel, new) => {
                format!("receives a name, {}, on {}", word(new), word(channel))
            }
            Action::Output(channel, object) => {
                format!("sends {} on {}", word(object), word(channel))
            }
            Action::NewOutput(channel, new) => {
                format!("sends a new name, {}, on {}", word(new), word(channel))
            }
        }
    }

    /// What a step does, without the name that it brings.
    fn kind(&self, action: Action, names: &Naming) -> String {
        let word = |name: Name| names[name.place()].as_str();
        match action {
            Action::Input(channel, _) => format!("receives a name on {}", word(channel)),
            Action::NewOutput(channel, _) => format!("sends a new name on {}", word(channel)),
            _ => self.action(action, names),
        }
    }

    /// Why a step of the other side is no answer to this one.
    pub fn no_answer(&self, other: Step<'_>, step: Step<'_>, names: &Naming) -> String {
        let other_action = action_under(other, step);
        let told = self.kind(other_action, names);
        let condition = self.condition(other, names).filter(|_| !step.implies(other));
        let condition = condition.map_or(String::new(), |these| format!(" only if {these}"));
        match other_action == step.action() {
            true => format!("it {told}{condition}, and the move does not ask for that"),
            false => format!("it {told}{condition}: {}", difference(other_action, step.action())),
        }
    }
}

/// The two names of each pair with a word between them.
fn paired(pairs: &[(u8, u8)], names: &Naming, between: &str) -> Vec<String> {
    let word = |byte: u8| names[usize::from(byte)].as_str();
    pairs.iter().map(|&(a, b)| [word(a), word(b)].join(between)).collect()
}

/// What is different about two actions.
fn difference(one: Action, other: Action) -> &'static str {
    match (one, other) {
        (Action::Input(a, _), Action::Input(b, _)) if a != b => "another channel",
        (
            Action::Output(a, _) | Action::NewOutput(a, _),
            Action::Output(b, _) | Action::NewOutput(b, _),
        ) if a != b => "another channel",
        (Action::Output(..), Action::Output(..)) => "another name is sent",
        (Action::Output(..), Action::NewOutput(..)) => "the name sent is not new",
        (Action::NewOutput(..), Action::Output(..)) => "the name sent is new",
        _ => "another kind of move",
    }
}

/// The prefixes and calls of a term that stand beneath no prefix.
pub fn unguarded<'t>(term: &'t Term, see: &mut impl FnMut(&'t Term)) {
    if term.head.is_prefix() || matches!(term.head, Head::Call(_)) {
        return see(term);
    }
    for beneath in &term.beneath {
        unguarded(beneath, see);
    }
}
