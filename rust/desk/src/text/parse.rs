//! From tokens to statements: definitions, parts and lists of names.

use super::scope::Scope;
use super::token::{tokens, Lexeme, Token};
use crate::fault::{Fault, Span};
use crate::model::{Definition, Exchange};
use crate::term::Term;
use exchange::Refusal;

/// The greatest numbers of definitions, parameters and apart pairs.
const DEFINITIONS: usize = 16;
const PARAMETERS: usize = 8;
const APART_PAIRS: usize = 120;

/// An exchange and where its pieces stand in the source.
pub struct Reading {
    /// The exchange.
    pub exchange: Exchange,
    /// Where each apart pair stands.
    pub apart: Vec<Span>,
}

/// Reads a source. What comes out may still break a rule of the library.
pub fn parse(source: &str) -> Result<Reading, Fault> {
    let lexemes = tokens(source)?;
    let headers = headers(&lexemes)?;
    let mut parser = Parser { lexemes, at: 0, headers, scope: Scope::default(), depth: 0 };
    let mut statements = Statements::default();
    while parser.here().token != Token::End {
        parser.statement(&mut statements)?;
    }
    statements.finished(parser)
}

/// The name and the number of parameters of each definition.
fn headers<'a>(lexemes: &[Lexeme<'a>]) -> Result<Vec<Header<'a>>, Fault> {
    let mut headers: Vec<Header<'_>> = Vec::new();
    for (at, lexeme) in lexemes.iter().enumerate() {
        let (Token::Capital(name), Some(arity)) = (lexeme.token, header_arity(&lexemes[at..]))
        else {
            continue;
        };
        if let Some(first) = headers.iter().find(|header| header.name == name) {
            let message = format!("{} is defined twice", lexeme.token.told());
            let fault = Fault::new(lexeme.span, message, "the second definition");
            return Err(fault.elsewhere("the first is", first.span));
        }
        if headers.len() == DEFINITIONS {
            let message = format!("there are more than {DEFINITIONS} definitions");
            let label = "one definition too many";
            return Err(Fault::new(lexeme.span, message, label).rule(Refusal::Definitions));
        }
        headers.push(Header { name, arity, span: lexeme.span });
    }
    Ok(headers)
}

/// The number of parameters, if a definition begins here: a name at the beginning of a line,
/// words in parentheses at will, `=`.
fn header_arity(lexemes: &[Lexeme<'_>]) -> Option<usize> {
    let [first, rest @ ..] = lexemes else { return None };
    if !first.begins_line || !matches!(first.token, Token::Capital(_)) {
        return None;
    }
    let in_list = |lexeme: &&Lexeme<'_>| {
        matches!(lexeme.token, Token::Small(_) | Token::Capital(_) | Token::Sign(','))
    };
    let (words, after) = match rest.first()?.token {
        Token::Sign('(') => {
            let length = rest[1..].iter().take_while(in_list).count();
            let words = rest[1..=length].iter();
            let words = words.filter(|word| word.token != Token::Sign(',')).count();
            let closed = rest.get(length + 1)?.token == Token::Sign(')');
            (words, if closed { rest.get(length + 2)? } else { return None })
        }
        _ => (0, rest.first()?),
    };
    (after.token == Token::Sign('=')).then_some(words)
}

/// What is known of a definition before it is read.
pub(super) struct Header<'a> {
    pub name: &'a str,
    pub arity: usize,
    pub span: Span,
}

/// The statements read so far.
#[derive(Default)]
struct Statements {
    definitions: Vec<Definition>,
    parts: Vec<(String, Term)>,
    apart: Vec<(u8, u8)>,
    apart_spans: Vec<Span>,
}

impl Statements {
    fn finished(self, parser: Parser<'_>) -> Result<Reading, Fault> {
        let found = self.parts.len();
        let Ok([first, second]) = <[_; 2]>::try_from(self.parts) else {
            let found = if found == 0 { "there is none" } else { "there is one" };
            let message = format!("an exchange has two parts, and {found}");
            let fault = Fault::new(parser.here().span, message, "expected a part here");
            return Err(fault.help(match self.definitions.is_empty() {
                true => "a part is a line such as `old = entry(x).0`",
                false => {
                    "a part is a line such as `old = entry(x).0`; it begins with a small letter"
                }
            }));
        };
        let (labels, parts) = ([first.0, second.0], [first.1, second.1]);
        let names = parser.scope.into_free();
        let Statements { definitions, apart, apart_spans, .. } = self;
        let exchange = Exchange { labels, definitions, parts, apart, names };
        Ok(Reading { exchange, apart: apart_spans })
    }
}

/// The place in the tokens, and what they have brought so far.
pub(super) struct Parser<'a> {
    lexemes: Vec<Lexeme<'a>>,
    at: usize,
    pub headers: Vec<Header<'a>>,
    pub scope: Scope<'a>,
    pub depth: usize,
}

impl<'a> Parser<'a> {
    /// The token here.
    pub fn here(&self) -> Lexeme<'a> {
        self.ahead(0)
    }

    /// The token this far ahead; past the end, the end.
    pub fn ahead(&self, distance: usize) -> Lexeme<'a> {
        self.lexemes[(self.at + distance).min(self.lexemes.len() - 1)]
    }

    /// The token here, which is passed.
    pub fn pass(&mut self) -> Lexeme<'a> {
        let here = self.here();
        self.at += 1;
        here
    }

    /// Passes the sign if it is here.
    pub fn passes(&mut self, sign: char) -> bool {
        let here = self.here().token == Token::Sign(sign);
        self.at += usize::from(here);
        here
    }

    /// Passes the sign, which must be here.
    pub fn sign(&mut self, sign: char, why: &str) -> Result<Span, Fault> {
        match self.here().token == Token::Sign(sign) {
            true => Ok(self.pass().span),
            false => Err(self.expected(&format!("`{sign}`"), why)),
        }
    }

    /// The fault that something else stands here. What is missing at the end of a line is missed
    /// there, and not where the next line begins or the file ends.
    pub fn expected(&self, what: &str, label: &str) -> Fault {
        let here = self.here();
        let found = match (here.begins_line, here.token) {
            (true, Token::End) | (false, _) => here.token.told(),
            (true, _) => "the end of the line".to_string(),
        };
        let before = self.at.checked_sub(1).map(|before| self.lexemes[before].span);
        let span = match (here.begins_line, before) {
            (true, Some(Span { end, .. })) => Span { start: end, end: end + 1 },
            _ => here.span,
        };
        Fault::new(span, format!("expected {what}, found {found}"), label)
    }

    /// Passes a name, which must be here.
    pub fn name(&mut self, label: &str) -> Result<(&'a str, Span), Fault> {
        let here = self.here();
        match here.token {
            Token::Small(word @ ("tau" | "new")) => {
                let message = format!("expected a name, found `{word}`, which has a meaning");
                Err(Fault::new(here.span, message, label).help("give the name another word"))
            }
            Token::Small(word) => {
                self.at += 1;
                Ok((word, here.span))
            }
            Token::Capital(_) => Err(self
                .expected("a name", label)
                .help("names begin with a small letter, definitions with a capital one")),
            _ => Err(self.expected("a name", label)),
        }
    }

    fn statement(&mut self, statements: &mut Statements) -> Result<(), Fault> {
        let here = self.here();
        match (here.token, self.ahead(1).token) {
            _ if !here.begins_line => Err(self
                .expected("`+`, `|` or the end of the line", "the term has ended before this")
                .help("a term that stands in a longer one may need parentheses")),
            (Token::Small("names"), Token::Sign(':')) => self.names(),
            (Token::Small("apart"), Token::Sign(':')) => self.apart(statements),
            (Token::Small(label), Token::Sign('=')) => self.part(label, statements),
            (Token::Capital(name), _) => {
                let definition = self.definition(name)?;
                statements.definitions.push(definition);
                Ok(())
            }
            _ => {
                let what = "a definition, a part or a list of names";
                let message = format!("expected {what}, found {}", here.token.told());
                Err(Fault::new(here.span, message, "no statement begins so")
                    .help("a line is `K(a) = …`, `old = …`, `apart: a b` or `names: a b`"))
            }
        }
    }

    fn definition(&mut self, name: &str) -> Result<Definition, Fault> {
        self.pass();
        let mut parameters = Vec::new();
        if self.passes('(') && !self.passes(')') {
            self.parameter(&mut parameters)?;
            while self.passes(',') {
                self.parameter(&mut parameters)?;
            }
            self.sign(')', "parameters are separated by `,` and end in `)`")?;
        }
        self.sign('=', "a definition is `K(a) = …`")?;
        self.scope.enter(&parameters);
        let body = self.term()?;
        let parameters = parameters.into_iter().map(str::to_string).collect();
        Ok(Definition { name: name.to_string(), parameters, body })
    }

    fn parameter(&mut self, parameters: &mut Vec<&'a str>) -> Result<(), Fault> {
        let (word, span) = self.name("a parameter")?;
        if parameters.contains(&word) {
            let message = format!("two parameters are called `{word}`");
            return Err(Fault::new(span, message, "the second of them"));
        }
        if parameters.len() == PARAMETERS {
            let message = format!("there are more than {PARAMETERS} parameters");
            let label = "one parameter too many";
            return Err(Fault::new(span, message, label).rule(Refusal::Definitions));
        }
        parameters.push(word);
        Ok(())
    }

    fn part(&mut self, label: &str, statements: &mut Statements) -> Result<(), Fault> {
        let span = self.pass().span;
        let parts = &mut statements.parts;
        if parts.len() == 2 {
            let message = "an exchange has two parts, and this is a third";
            return Err(Fault::new(span, message, "one part too many"));
        }
        if parts.iter().any(|part| part.0 == label) {
            let message = format!("both parts are called `{label}`");
            return Err(Fault::new(span, message, "the second of them"));
        }
        self.sign('=', "a part is `old = …`")?;
        self.scope.enter(&[]);
        let term = self.term()?;
        parts.push((label.to_string(), term));
        Ok(())
    }

    /// `names: a b c`: the free names in the order of their bytes.
    fn names(&mut self) -> Result<(), Fault> {
        let start = self.pass().span.to(self.pass().span);
        if !self.scope.free().is_empty() {
            let message = "the list of names comes after a name was used";
            let label = "move this line to the front of the file";
            return Err(Fault::new(start, message, label));
        }
        while !self.here().begins_line {
            let (word, span) = self.name("a free name")?;
            if self.scope.free().contains(&word) {
                return Err(Fault::new(
                    span,
                    format!("`{word}` is listed twice"),
                    "once is enough",
                ));
            }
            self.scope.free_name(word, span)?;
            self.passes(',');
        }
        Ok(())
    }

    /// `apart: a b, c d e`: the names of each group are apart from each other.
    fn apart(&mut self, statements: &mut Statements) -> Result<(), Fault> {
        self.pass();
        self.pass();
        self.group(statements, false)?;
        while self.passes(',') {
            self.group(statements, true)?;
        }
        Ok(())
    }

    /// Two names or more, up to a `,` or the end of the line. After a `,` the line may go on in the
    /// next.
    fn group(&mut self, statements: &mut Statements, goes_on: bool) -> Result<(), Fault> {
        let mut group: Vec<(u8, Span)> = Vec::new();
        let ends = |lexeme: Lexeme<'_>, is_first: bool| {
            let new_line = lexeme.begins_line && !(is_first && goes_on);
            new_line || matches!(lexeme.token, Token::Sign(',') | Token::End)
        };
        while !ends(self.here(), group.is_empty()) {
            let (word, span) = self.name("names held apart stand in a row: `apart: a b`")?;
            let name = self.scope.free_name(word, span)?;
            for &(other, from) in &group {
                statements.held_apart((other, name), from.to(span))?;
            }
            group.push((name, span));
        }
        match group.len() {
            0 | 1 => Err(self
                .expected("another name", "names are held apart by twos or more")
                .help("write `apart: a b`; a `,` stands between groups")),
            _ => Ok(()),
        }
    }
}

impl Statements {
    fn held_apart(&mut self, pair: (u8, u8), span: Span) -> Result<(), Fault> {
        if self.apart.len() == APART_PAIRS {
            let message = format!("more than {APART_PAIRS} pairs are held apart");
            return Err(Fault::new(span, message, "one pair too many").rule(Refusal::Apart));
        }
        self.apart.push(pair);
        self.apart_spans.push(span);
        Ok(())
    }
}
