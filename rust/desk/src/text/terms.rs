//! From tokens to terms. Prefixes, matches and restrictions bind tightest, then `+`, then `|`.

use super::parse::Parser;
use super::token::Token;
use crate::fault::{Fault, Span};
use crate::term::{Head, Name, Term};

/// How deep a term may be nested. A term of 112 bytes is at most 112 deep without idle parentheses.
const DEPTH: usize = 160;

/// What begins a term, for messages.
const TERM: &str = "`0`, a prefix, a match, a restriction, a call or `(`";

impl<'a> Parser<'a> {
    /// A term.
    pub fn term(&mut self) -> Result<Term, Fault> {
        self.joined('|', Head::Parallel, |parser| {
            parser.joined('+', Head::Choice, Parser::prefixed)
        })
    }

    /// Terms joined by a sign, the first two first.
    fn joined(
        &mut self,
        sign: char,
        head: Head,
        piece: impl Fn(&mut Parser<'a>) -> Result<Term, Fault>,
    ) -> Result<Term, Fault> {
        let mut term = piece(self)?;
        while self.here().token == Token::Sign(sign) {
            let span = self.pass().span;
            self.scope.spend(1, span)?;
            let right = piece(self)?;
            term = Term { span, ..Term::new(head, vec![], vec![term, right]) };
        }
        Ok(term)
    }

    /// A term up to the next `+` or `|`.
    fn prefixed(&mut self) -> Result<Term, Fault> {
        let here = self.here();
        if self.depth == DEPTH {
            let message = format!("this is nested more than {DEPTH} deep");
            return Err(Fault::new(here.span, message, "too deep here")
                .help("no part needs so many parentheses"));
        }
        self.depth += 1;
        let term = match (here.token, self.ahead(1).token) {
            (Token::Sign('0'), _) => self.nil(),
            (Token::Small("tau"), _) => self.silent(),
            (Token::Small("new"), _) if !here.begins_line => Err(self
                .expected(TERM, "a restriction stands in parentheses")
                .help("write `(new x)P`")),
            (Token::Small(_), Token::Sign('(')) => self.input(),
            (Token::Small(_), Token::Sign('<')) => self.output(),
            (Token::Capital(_), _) => self.call(),
            (Token::Sign('('), Token::Small("new")) => self.restriction(),
            (Token::Sign('('), _) => self.parentheses(),
            (Token::Sign('['), _) => self.matching(),
            (Token::Small(word), _) if !here.begins_line => {
                self.pass();
                Err(self.no_prefix(word))
            }
            _ => Err(self.expected(TERM, "a term is missing here")),
        };
        self.depth -= 1;
        term
    }

    /// The fault that a word begins no prefix. Who writes as papers do is told how it is written
    /// here.
    fn no_prefix(&self, word: &str) -> Fault {
        let label = "a name begins an input `a(x).` or an output `a<b>.`";
        let fault = self.expected("`(` or `<`", label);
        match self.here().token {
            _ if word.starts_with('ν') => fault.help("a restriction is written `(new x)P`"),
            Token::Sign('.') => fault.help("a silent step is written `tau.`"),
            _ => fault,
        }
    }

    fn nil(&mut self) -> Result<Term, Fault> {
        let span = self.pass().span;
        self.scope.spend(1, span)?;
        Ok(Term { span, ..Term::nil() })
    }

    fn silent(&mut self) -> Result<Term, Fault> {
        let span = self.pass().span;
        self.scope.spend(1, span)?;
        self.then(Head::Silent, vec![], span)
    }

    /// `a(x).P`
    fn input(&mut self) -> Result<Term, Fault> {
        let (channel, start) = self.channel()?;
        self.sign('(', "an input is `a(x).`")?;
        let word = self.name("the name that is received")?.0;
        let end = self.sign(')', "an input is `a(x).`")?;
        self.scope.spend(2, start)?;
        self.bound(Head::Input, vec![channel], word, start.to(end))
    }

    /// `a<b>.P` or `a<new x>.P`
    fn output(&mut self) -> Result<Term, Fault> {
        let (channel, start) = self.channel()?;
        self.sign('<', "an output is `a<b>.`")?;
        if self.here().token == Token::Small("new") {
            self.pass();
            let word = self.name("the new name that is sent")?.0;
            let end = self.sign('>', "an output of a new name is `a<new x>.`")?;
            self.scope.spend(2, start)?;
            return self.bound(Head::NewOutput, vec![channel], word, start.to(end));
        }
        let (word, span) = self.name("the name that is sent, or `new x`")?;
        let object = self.scope.name(word, span)?;
        let end = self.sign('>', "an output is `a<b>.`")?;
        self.scope.spend(3, start)?;
        self.then(Head::Output, vec![channel, object], start.to(end))
    }

    fn channel(&mut self) -> Result<(Name, Span), Fault> {
        let (word, span) = self.name("a channel")?;
        Ok((self.scope.name(word, span)?, span))
    }

    /// What follows a prefix that binds nothing.
    fn then(&mut self, head: Head, names: Vec<Name>, span: Span) -> Result<Term, Fault> {
        self.dot()?;
        let beneath = self.prefixed()?;
        Ok(Term { span, ..Term::new(head, names, vec![beneath]) })
    }

    /// What follows a prefix that binds a name.
    fn bound(
        &mut self,
        head: Head,
        names: Vec<Name>,
        word: &'a str,
        span: Span,
    ) -> Result<Term, Fault> {
        self.dot()?;
        self.beneath(head, names, word, span)
    }

    fn dot(&mut self) -> Result<(), Fault> {
        let dot = self.sign('.', "a prefix ends in `.` and a term follows");
        dot.map(|_| ()).map_err(|fault| fault.help("write `.0` if nothing follows"))
    }

    /// The term beneath a binder.
    fn beneath(
        &mut self,
        head: Head,
        names: Vec<Name>,
        word: &'a str,
        span: Span,
    ) -> Result<Term, Fault> {
        self.scope.bind(word);
        let beneath = self.prefixed()?;
        self.scope.unbind();
        let word = Some(word.to_string());
        Ok(Term { word, span, ..Term::new(head, names, vec![beneath]) })
    }

    /// `(new x)P`
    fn restriction(&mut self) -> Result<Term, Fault> {
        let start = self.pass().span;
        self.pass();
        let word = self.name("the name that is new")?.0;
        let end = self
            .sign(')', "a restriction is `(new x)P`")
            .map_err(|fault| fault.help("two new names are written `(new x)(new y)P`"))?;
        self.scope.spend(1, start)?;
        self.beneath(Head::Restriction, vec![], word, start.to(end))
    }

    fn parentheses(&mut self) -> Result<Term, Fault> {
        let opened = self.pass().span;
        let term = self.term()?;
        let closed = self.sign(')', "a parenthesis was opened and not closed");
        closed.map(|_| term).map_err(|fault| fault.elsewhere("it was opened", opened))
    }

    /// `[a=b]P`
    fn matching(&mut self) -> Result<Term, Fault> {
        let start = self.pass().span;
        let (left, _) = self.channel()?;
        self.sign('=', "a match is `[a=b]P`")?;
        let (right, _) = self.channel()?;
        let end = self.sign(']', "a match is `[a=b]P`")?;
        self.scope.spend(3, start)?;
        let span = start.to(end);
        let beneath = self.prefixed()?;
        Ok(Term { span, ..Term::new(Head::Match, vec![left, right], vec![beneath]) })
    }

    /// `K(a, b)`
    fn call(&mut self) -> Result<Term, Fault> {
        let start = self.pass();
        self.scope.spend(2, start.span)?;
        let mut names = Vec::new();
        let mut end = start.span;
        if self.passes('(') {
            let mut goes_on = self.here().token != Token::Sign(')');
            while goes_on {
                let (word, span) = self.name("a name for a parameter")?;
                self.scope.spend(1, span)?;
                names.push(self.scope.name(word, span)?);
                goes_on = self.passes(',');
            }
            end = self.sign(')', "the names of a call are separated by `,` and end in `)`")?;
        }
        let number = self.callee(start.token, names.len(), start.span.to(end))?;
        Ok(Term { span: start.span.to(end), ..Term::new(Head::Call(number), names, vec![]) })
    }

    /// The number of the definition that is called; if there is none, one that the library knows
    /// for missing.
    fn callee(&self, token: Token<'_>, given: usize, span: Span) -> Result<u8, Fault> {
        let called = |header: &super::parse::Header<'_>| Token::Capital(header.name) == token;
        let Some(number) = self.headers.iter().position(called) else {
            return Ok(self.headers.len() as u8);
        };
        let super::parse::Header { arity, span: defined, .. } = self.headers[number];
        if arity == given {
            return Ok(number as u8);
        }
        let names = |count| if count == 1 { "1 name".into() } else { format!("{count} names") };
        let message = format!("{} takes {}, found {}", token.told(), names(arity), names(given));
        Err(Fault::new(span, message, format!("expected {}", names(arity)))
            .elsewhere("it is defined", defined)
            .help("give one name for each parameter of the definition"))
    }
}
