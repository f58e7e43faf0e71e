//! From terms to text that reads back to the same bytes.

use crate::model::{Definition, Exchange};
use crate::term::{Head, Name, Term};
use std::collections::{HashMap, HashSet};

/// Words for bound names that nobody named: x, y, z, u, v, w, x1, y1 and so on.
pub fn bound_words() -> impl Iterator<Item = String> {
    let letters = ["x", "y", "z", "u", "v", "w"];
    let first = letters.into_iter().map(str::to_string);
    let more =
        move |round: usize| letters.into_iter().map(move |letter| format!("{letter}{round}"));
    first.chain((1..).flat_map(more))
}

/// What people called the bound names, by the term that binds them. Steps put names for others and
/// leave the shapes of tidied terms, so a result can be printed in the words of its file.
#[derive(Clone, Debug, Default)]
pub struct Words {
    by_bytes: HashMap<Vec<u8>, String>,
    by_shape: HashMap<Vec<u8>, String>,
}

impl Words {
    /// The words of an exchange.
    pub fn of(exchange: &Exchange) -> Words {
        let mut words = Words::default();
        let bodies = exchange.definitions.iter().map(|definition| &definition.body);
        let written: Vec<&Term> = exchange.parts.iter().chain(bodies).collect();
        let tidied: Vec<Term> = written.iter().map(|term| term.tidied()).collect();
        for term in written.into_iter().chain(&tidied) {
            term.walk(&mut |term, _| {
                if let Some(word) = &term.word {
                    words.by_bytes.entry(term.bytes()).or_insert_with(|| word.clone());
                    words.by_shape.entry(term.shape()).or_insert_with(|| word.clone());
                }
            });
        }
        words
    }

    /// The word for the name that a term binds.
    pub fn word<'a>(&'a self, term: &'a Term) -> Option<&'a str> {
        let written =
            || self.by_bytes.get(&term.bytes()).or_else(|| self.by_shape.get(&term.shape()));
        term.word.as_deref().or_else(|| written().map(String::as_str))
    }
}

/// Prints terms.
pub struct Printer<'a> {
    /// What the free names are called, by their bytes.
    pub free: &'a [String],
    /// What the definitions are called.
    pub definitions: &'a [Definition],
    /// What the bound names are called.
    pub words: &'a Words,
}

/// How tightly the place of a term binds.
#[derive(Clone, Copy, PartialEq, Eq, PartialOrd, Ord)]
enum Level {
    Parallel,
    Choice,
    Prefixed,
}

impl Printer<'_> {
    /// A term whose outermost binders are called so, the innermost last.
    pub fn term(&self, term: &Term, binders: &[String]) -> String {
        let mut binders = binders.to_vec();
        self.at(term, Level::Parallel, &mut binders)
    }

    /// What a free name is called.
    pub fn free_name(&self, byte: u8) -> &str {
        self.free.get(usize::from(byte)).map_or("?", String::as_str)
    }

    fn at(&self, term: &Term, level: Level, binders: &mut Vec<String>) -> String {
        let name = |place: usize| self.name(&term.names[place], binders);
        match term.head {
            Head::Nil => "0".to_string(),
            Head::Silent => format!("tau.{}", self.at(&term.beneath[0], Level::Prefixed, binders)),
            Head::Input => {
                let channel = name(0);
                let (word, beneath) = self.beneath(term, binders);
                format!("{channel}({word}).{beneath}")
            }
            Head::Output => {
                let prefix = format!("{}<{}>", name(0), name(1));
                format!("{prefix}.{}", self.at(&term.beneath[0], Level::Prefixed, binders))
            }
            Head::NewOutput => {
                let channel = name(0);
                let (word, beneath) = self.beneath(term, binders);
                format!("{channel}<new {word}>.{beneath}")
            }
            Head::Match => {
                let condition = format!("[{}={}]", name(0), name(1));
                condition + &self.at(&term.beneath[0], Level::Prefixed, binders)
            }
            Head::Choice => self.joined(term, " + ", level, Level::Choice, binders),
            Head::Parallel => self.joined(term, " | ", level, Level::Parallel, binders),
            Head::Restriction => {
                let (word, beneath) = self.beneath(term, binders);
                format!("(new {word}){beneath}")
            }
            Head::Call(number) => {
                let names: Vec<_> = (0..term.names.len()).map(name).collect();
                format!("{}({})", self.definition(number), names.join(", "))
            }
        }
    }

    /// Two terms joined by a sign, in parentheses where the place binds tighter. The sign joins
    /// the first two first.
    fn joined(
        &self,
        term: &Term,
        sign: &str,
        level: Level,
        own: Level,
        binders: &mut Vec<String>,
    ) -> String {
        let tighter = if own == Level::Parallel { Level::Choice } else { Level::Prefixed };
        let left = self.at(&term.beneath[0], own, binders);
        let right = self.at(&term.beneath[1], tighter, binders);
        match level > own {
            true => format!("({left}{sign}{right})"),
            false => format!("{left}{sign}{right}"),
        }
    }

    /// The word for the name that the term binds, and what stands beneath.
    fn beneath(&self, term: &Term, binders: &mut Vec<String>) -> (String, String) {
        let word = self.bound_word(term, binders);
        binders.push(word.clone());
        let beneath = self.at(&term.beneath[0], Level::Prefixed, binders);
        binders.pop();
        (word, beneath)
    }

    /// A word for a bound name that hides no name which is used beneath.
    pub fn bound_word(&self, term: &Term, binders: &[String]) -> String {
        let mut used = HashSet::new();
        term.beneath[0].walk(&mut |inner, depth| {
            used.extend(inner.names.iter().filter_map(|name| match *name {
                Name::Free(byte) => Some(self.free_name(byte)),
                Name::Bound(k) => {
                    let outward = k.checked_sub(depth + 1)?;
                    let place = binders.len().checked_sub(outward + 1)?;
                    binders.get(place).map(String::as_str)
                }
            }));
        });
        let given = self.words.word(term).map(str::to_string);
        let fits = |word: &String| !used.contains(word.as_str());
        let invented = || bound_words().find(|word| fits(word) && !self.free.contains(word));
        given.filter(fits).or_else(invented).unwrap_or_default()
    }

    fn name(&self, name: &Name, binders: &[String]) -> String {
        let word = match *name {
            Name::Free(byte) => self.free_name(byte),
            Name::Bound(k) => {
                let place = binders.len().checked_sub(k + 1);
                place.map_or("?", |place| &binders[place])
            }
        };
        word.to_string()
    }

    fn definition(&self, number: u8) -> &str {
        self.definitions.get(usize::from(number)).map_or("?", |definition| &definition.name)
    }
}

/// The file of an exchange.
pub fn file(exchange: &Exchange) -> String {
    let words = Words::of(exchange);
    let Exchange { definitions, names, .. } = exchange;
    let printer = Printer { free: names, definitions, words: &words };
    let mut lines = Vec::new();
    lines.extend(names_line(exchange));
    for definition in definitions {
        let body = printer.term(&definition.body, &definition.parameters);
        let parameters = definition.parameters.join(", ");
        lines.push(format!("{}({parameters}) = {body}", definition.name));
    }
    for (label, part) in exchange.labels.iter().zip(&exchange.parts) {
        lines.push(format!("{label} = {}", printer.term(part, &[])));
    }
    let pair = |&(a, b): &(u8, u8)| format!("{} {}", printer.free_name(a), printer.free_name(b));
    let pairs: Vec<_> = exchange.apart.iter().map(pair).collect();
    lines.extend(pairs.chunks(8).map(|pairs| format!("apart: {}", pairs.join(", "))));
    lines.join("\n") + "\n"
}

/// The line that says the order of the names, where the order of first use is another.
fn names_line(exchange: &Exchange) -> Option<String> {
    let mut used: Vec<u8> = Vec::new();
    let mut see = |byte| {
        if !used.contains(&byte) {
            used.push(byte);
        }
    };
    for part in &exchange.parts {
        part.walk(&mut |term, _| {
            for name in &term.names {
                if let Name::Free(byte) = name {
                    see(*byte);
                }
            }
        });
    }
    exchange.apart.iter().for_each(|&(a, b)| [a, b].into_iter().for_each(&mut see));
    let in_order = used.iter().enumerate().all(|(place, &byte)| place == usize::from(byte));
    let last = used.iter().max().copied().map_or(0, |byte| usize::from(byte) + 1);
    (!in_order).then(|| format!("names: {}", exchange.names[..last].join(" ")))
}
