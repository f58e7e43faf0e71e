//! An exchange: what a file says, with the names that people gave.

use crate::term::Term;
use exchange::{Question, Side};

/// A definition.
#[derive(Clone, Debug)]
pub struct Definition {
    /// Its name.
    pub name: String,
    /// What its parameters are called.
    pub parameters: Vec<String>,
    /// Its body.
    pub body: Term,
}

/// An exchange. Its names are words; its terms are coded, so that it has one question.
#[derive(Clone, Debug)]
pub struct Exchange {
    /// What the two parts are called.
    pub labels: [String; 2],
    /// The definitions.
    pub definitions: Vec<Definition>,
    /// The two parts.
    pub parts: [Term; 2],
    /// The names held apart.
    pub apart: Vec<(u8, u8)>,
    /// What the free names are called, by their bytes.
    pub names: Vec<String>,
}

impl Exchange {
    /// The bytes of its question.
    pub fn bytes(&self) -> Vec<u8> {
        let apart: Vec<u8> = self.apart.iter().flat_map(|&(a, b)| [a, b]).collect();
        let [first, second] = self.parts.each_ref().map(Term::bytes);
        question(&self.book(), &first, &second, &apart)
    }

    /// The exchange of a question. Names are letters, definitions are K0, K1 and so on.
    pub fn of(question: Question<'_>) -> Exchange {
        let arities: Vec<u8> = question.definitions().map(|(arity, _)| arity).collect();
        let term = |bytes: &[u8]| Term::read(bytes, &arities).expect("the question is accepted");
        let definition = |(number, (arity, body)): (usize, (u8, &[u8]))| Definition {
            name: format!("K{number}"),
            parameters: crate::text::bound_words().take(arity.into()).collect(),
            body: term(body),
        };
        Exchange {
            labels: ["old", "new"].map(str::to_string),
            definitions: question.definitions().enumerate().map(definition).collect(),
            parts: Side::BOTH.map(|side| term(question.part(side))),
            apart: question.apart().map(|(a, b)| (a.byte(), b.byte())).collect(),
            names: exchange::Name::all().map(|name| letter(name.byte())).collect(),
        }
    }

    /// The arity of each definition.
    pub fn arities(&self) -> Vec<u8> {
        self.definitions.iter().map(|definition| definition.parameters.len() as u8).collect()
    }

    /// What a side is called.
    pub fn label(&self, side: Side) -> &str {
        &self.labels[place(side)]
    }

    /// The arity and coded body of each definition.
    pub fn book(&self) -> Vec<(u8, Vec<u8>)> {
        let bodies = self.definitions.iter().map(|definition| definition.body.bytes());
        self.arities().into_iter().zip(bodies).collect()
    }
}

/// The place of a side in a pair.
pub fn place(side: Side) -> usize {
    match side {
        Side::First => 0,
        Side::Second => 1,
    }
}

/// The bytes of a question. The count of definitions and every length fit their bytes.
pub fn question(book: &[(u8, Vec<u8>)], first: &[u8], second: &[u8], apart: &[u8]) -> Vec<u8> {
    let mut bytes = vec![0x01, book.len() as u8];
    bytes.extend(book.iter().map(|(arity, _)| arity));
    let bodies = book.iter().map(|(_, body)| body.as_slice());
    for field in bodies.chain([first, second, apart]) {
        bytes.extend((field.len() as u16).to_be_bytes());
        bytes.extend(field);
    }
    bytes
}

/// The letter for a free name that nobody named; after z come a1, b1 and so on.
fn letter(byte: u8) -> String {
    let letter = char::from(b'a' + byte % 26);
    match byte / 26 {
        0 => letter.to_string(),
        round => format!("{letter}{round}"),
    }
}
