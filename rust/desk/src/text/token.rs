//! The words and signs of a file.

use crate::fault::{Fault, Span};

/// A word or sign.
#[derive(Clone, Copy, PartialEq, Eq, Debug)]
pub enum Token<'a> {
    /// A word that begins with a small letter.
    Small(&'a str),
    /// A word that begins with a capital letter.
    Capital(&'a str),
    /// A sign: one of [`SIGNS`], or `0`.
    Sign(char),
    /// The end of the file.
    End,
}

/// The signs that are no part of a word.
const SIGNS: &str = ".,:()<>[]=+|";

impl Token<'_> {
    /// The token as a message names it.
    pub fn told(self) -> String {
        match self {
            Token::Small(word) | Token::Capital(word) => format!("`{}`", shortened(word)),
            Token::Sign(sign) => format!("`{sign}`"),
            Token::End => "the end of the file".to_string(),
        }
    }
}

/// A word that fits a message.
fn shortened(word: &str) -> String {
    match word.char_indices().nth(40) {
        Some((end, _)) => format!("{}…", &word[..end]),
        None => word.to_string(),
    }
}

/// A token with its place.
#[derive(Clone, Copy, Debug)]
pub struct Lexeme<'a> {
    /// The token.
    pub token: Token<'a>,
    /// Its place.
    pub span: Span,
    /// Whether it is the first of its line.
    pub begins_line: bool,
}

/// The tokens of a source, the last being its end.
pub fn tokens(source: &str) -> Result<Vec<Lexeme<'_>>, Fault> {
    let mut lexemes = Vec::new();
    let mut begins_line = true;
    let mut offset = usize::from(source.starts_with('\u{FEFF}')) * '\u{FEFF}'.len_utf8();
    while let Some(first) = source[offset..].chars().next() {
        let length = match first {
            '#' => source[offset..].find('\n').unwrap_or(source.len() - offset),
            _ if first.is_alphanumeric() => word_length(&source[offset..]),
            _ => first.len_utf8(),
        };
        let span = Span { start: offset, end: offset + length };
        offset = span.end;
        if first == '\n' {
            begins_line = true;
        } else if !first.is_whitespace() && first != '#' {
            let token = token(first, &source[span.start..span.end], span)?;
            lexemes.push(Lexeme { token, span, begins_line });
            begins_line = false;
        }
    }
    let span = Span { start: source.len(), end: source.len() };
    lexemes.push(Lexeme { token: Token::End, span, begins_line: true });
    Ok(lexemes)
}

/// The length of the word at the front.
fn word_length(source: &str) -> usize {
    let in_word = |character: char| character.is_alphanumeric() || "_'".contains(character);
    source.find(|character| !in_word(character)).unwrap_or(source.len())
}

fn token<'a>(first: char, text: &'a str, span: Span) -> Result<Token<'a>, Fault> {
    match first {
        _ if text == "0" => Ok(Token::Sign('0')),
        _ if first.is_numeric() => Err(Fault::new(
            span,
            format!("a number cannot stand here: `{}`", shortened(text)),
            "inaction is `0`; a name begins with a small letter",
        )),
        _ if first.is_uppercase() => Ok(Token::Capital(text)),
        _ if first.is_alphabetic() => Ok(Token::Small(text)),
        _ if SIGNS.contains(first) => Ok(Token::Sign(first)),
        _ => Err(Fault::new(
            span,
            format!("no exchange has the character {first:?}"),
            "not a sign, a word or a comment",
        )
        .help(format!("the signs are 0 and {SIGNS}; a comment begins with #"))),
    }
}

#[cfg(test)]
mod tests {
    use super::*;

    #[test]
    fn words_signs_and_lines() {
        let found: Vec<_> =
            tokens("# a\nold = bÜro'(x_1).0 # b\n K").expect("tokens").into_iter().collect();
        let found: Vec<_> = found.iter().map(|lexeme| (lexeme.token, lexeme.begins_line)).collect();
        let expected = [
            (Token::Small("old"), true),
            (Token::Sign('='), false),
            (Token::Small("bÜro'"), false),
            (Token::Sign('('), false),
            (Token::Small("x_1"), false),
            (Token::Sign(')'), false),
            (Token::Sign('.'), false),
            (Token::Sign('0'), false),
            (Token::Capital("K"), true),
            (Token::End, true),
        ];
        assert_eq!(found, expected);
    }

    #[test]
    fn what_is_no_token() {
        for (source, place) in [("a & b", 2), ("a 12", 2), ("\u{202e}", 0), ("a\0", 1)] {
            assert_eq!(tokens(source).expect_err("no token").span.start, place, "{source:?}");
        }
    }
}
