//! What is wrong with a file, and where, told in the manner of a compiler.

use exchange::Refusal;
use std::fmt::Write;

/// The longest piece of a source line that is shown.
const SHOWN: usize = 100;

/// A piece of a source, by byte offsets.
#[derive(Clone, Copy, PartialEq, Eq, Debug, Default)]
pub struct Span {
    /// Where it begins.
    pub start: usize,
    /// Where it ends.
    pub end: usize,
}

impl Span {
    /// From the beginning of one piece to the end of another.
    pub fn to(self, last: Span) -> Span {
        Span { start: self.start, end: last.end.max(self.start) }
    }
}

/// A fault in a source.
#[derive(Clone, PartialEq, Eq, Debug)]
pub struct Fault {
    /// What is wrong.
    pub message: String,
    /// Where.
    pub span: Span,
    /// What belongs there, said beneath the place.
    pub label: String,
    /// Further places, each with what stands there: `opened`, `the first`.
    pub elsewhere: Vec<(&'static str, Span)>,
    /// Further lines: the rule that is broken, what to try.
    pub notes: Vec<String>,
    /// The rule of the library that is broken, if it is one.
    pub refusal: Option<Refusal>,
}

impl Fault {
    /// A fault without further lines.
    pub fn new(span: Span, message: impl Into<String>, label: impl Into<String>) -> Fault {
        let (message, label) = (message.into(), label.into());
        Fault { message, span, label, elsewhere: Vec::new(), notes: Vec::new(), refusal: None }
    }

    /// The fault with another place that belongs to it.
    pub fn elsewhere(mut self, what: &'static str, span: Span) -> Fault {
        self.elsewhere.push((what, span));
        self
    }

    /// The fault with advice.
    pub fn help(mut self, advice: impl AsRef<str>) -> Fault {
        self.notes.push(format!("help: {}", advice.as_ref()));
        self
    }

    /// The fault with the rule of the library that it breaks.
    pub fn rule(mut self, refusal: Refusal) -> Fault {
        self.refusal = Some(refusal);
        self.notes.insert(0, format!("rule {}: {}", refusal.rule(), refusal.text()));
        self
    }

    /// One line: place and message.
    pub fn line(&self, file: &str, source: &str) -> String {
        let place = Place::of(source, self.span);
        format!("{file}:{}:{}: {}", place.line, place.column, self.message)
    }

    /// All lines: message, place, the source line with the piece marked, label and notes.
    pub fn render(&self, file: &str, source: &str) -> String {
        let place = Place::of(source, self.span);
        let number = place.line.to_string();
        let margin = " ".repeat(number.len());
        let mark = " ".repeat(place.before) + &"^".repeat(place.marked);
        let mut text = format!("error: {}\n", self.message);
        let _ = write!(
            text,
            "{margin}--> {file}:{number}:{}\n{margin} |\n{number} | {}\n{margin} | {mark} {}\n",
            place.column, place.shown, self.label
        );
        let elsewhere = self.elsewhere.iter().map(|&(what, span)| {
            let Place { line, column, .. } = Place::of(source, span);
            format!("note: {what} at {file}:{line}:{column}")
        });
        for (place, note) in elsewhere.chain(self.notes.iter().cloned()).enumerate() {
            if place == 0 {
                let _ = writeln!(text, "{margin} |");
            }
            let _ = writeln!(text, "{margin} = {note}");
        }
        text
    }
}

/// Where a piece is, for a person.
struct Place {
    line: usize,
    column: usize,
    /// The line, or the part of a long one around the piece.
    shown: String,
    /// How many characters of what is shown stand before the piece, and in it.
    before: usize,
    marked: usize,
}

impl Place {
    fn of(source: &str, span: Span) -> Place {
        let start = boundary(source, span.start);
        let first = source[..start].rfind('\n').map_or(0, |end| end + 1);
        let last = source[start..].find('\n').map_or(source.len(), |length| start + length);
        let end = boundary(source, span.end).clamp(start, last);
        let before = source[first..start].chars().count();
        let marked = source[start..end].chars().count().max(1);
        let skipped = if before + marked > SHOWN { before.saturating_sub(SHOWN / 2) } else { 0 };
        let line = source[first..last].trim_end_matches('\r').chars().map(printable);
        let mut shown: String = line.skip(skipped).take(SHOWN).collect();
        if skipped > 0 {
            shown.insert(0, '…');
        }
        let before_shown = before - skipped + usize::from(skipped > 0);
        Place {
            line: 1 + source[..first].matches('\n').count(),
            column: 1 + before,
            shown: shown.trim_end().to_string(),
            before: before_shown,
            marked: marked.min(SHOWN + 1 - before_shown.min(SHOWN)),
        }
    }
}

/// The nearest place before an offset at which a character begins.
fn boundary(source: &str, offset: usize) -> usize {
    let mut offset = offset.min(source.len());
    while !source.is_char_boundary(offset) {
        offset -= 1;
    }
    offset
}

/// A character as it can be shown in one column.
fn printable(character: char) -> char {
    match character {
        '\t' => ' ',
        _ if character.is_control() => char::REPLACEMENT_CHARACTER,
        _ => character,
    }
}

#[cfg(test)]
mod tests {
    use super::*;

    #[test]
    fn a_fault_points_at_its_place() {
        let source = "# one\nold = entry(x) | 0\n";
        let span = Span { start: 21, end: 22 };
        let fault = Fault::new(span, "expected `.`", "a prefix ends in `.`").help("write `.0`");
        let lines = [
            "error: expected `.`",
            " --> a.exchange:2:16",
            "  |",
            "2 | old = entry(x) | 0",
            "  |                ^ a prefix ends in `.`",
            "  |",
            "  = help: write `.0`",
            "",
        ];
        assert_eq!(fault.render("a.exchange", source), lines.join("\n"));
        assert_eq!(fault.line("a.exchange", source), "a.exchange:2:16: expected `.`");
    }

    #[test]
    fn any_place_in_any_source_can_be_shown() {
        let long = "ä".repeat(300);
        for source in ["", "\n", "é\tb\r\n\u{7}", long.as_str()] {
            for start in 0..=source.len() + 1 {
                for end in [0, start, start + 1, start + 500] {
                    let text =
                        Fault::new(Span { start, end }, "message", "label").render("f", source);
                    assert!(text.lines().all(|line| line.chars().count() < 2 * SHOWN + 20));
                }
            }
        }
    }
}
