//! What is told to a person, piece by piece, and how it is laid out for a terminal.

/// The width to which running text is laid out.
const WIDTH: usize = 92;

/// The most letters of a term that is not shortened.
const LONG: usize = 240;

/// A piece of what is told.
#[derive(Clone, PartialEq, Eq, Debug)]
pub enum Block {
    /// The verdict.
    Verdict(String),
    /// The beginning of a position, with its number.
    Position(usize),
    /// A term, with what it is the term of.
    Term(String, String),
    /// The names held apart, as a file lists them.
    Apart(String),
    /// Running text.
    Text(String),
    /// One of several things.
    Item(String),
}

/// The pieces as lines for a terminal.
pub fn lines(blocks: &[Block]) -> String {
    let mut text = String::new();
    for (place, block) in blocks.iter().enumerate() {
        let after = place.checked_sub(1).map(|before| &blocks[before]);
        if needs_space(after, block) {
            text.push('\n');
        }
        match block {
            Block::Verdict(told) => text.push_str(&wrapped(told, "", "")),
            Block::Position(number) => text.push_str(&format!("Position {number}\n")),
            Block::Term(label, term) => {
                let lines = wrapped_term(&format!("{label} = {term}"), WIDTH - 8);
                text.push_str(&format!("    {}\n", lines.join("\n        ")));
            }
            Block::Apart(list) => {
                let lines = filled(list.split_inclusive(", ").map(str::to_string), WIDTH - 12);
                text.push_str(&format!("    apart: {}\n", lines.join("\n        ")));
            }
            Block::Text(told) => text.push_str(&wrapped(told, "", "")),
            Block::Item(told) => text.push_str(&wrapped(told, "  - ", "    ")),
        }
    }
    text
}

fn needs_space(after: Option<&Block>, block: &Block) -> bool {
    match (after, block) {
        (None, _) => false,
        (Some(Block::Verdict(_)), _) | (_, Block::Position(_)) => true,
        (Some(Block::Text(_) | Block::Item(_)), Block::Text(_)) => true,
        _ => false,
    }
}

/// Text in lines of limited width, which begin so.
fn wrapped(text: &str, first: &str, later: &str) -> String {
    let lines = wrapped_words(text, WIDTH - later.chars().count());
    let starts = std::iter::once(first).chain(std::iter::repeat(later));
    let line = |(start, line): (&str, String)| format!("{start}{line}\n");
    starts.zip(lines).map(line).collect()
}

/// The words of a text in lines of so many letters; `new` stays with its name.
pub fn wrapped_words(text: &str, letters: usize) -> Vec<String> {
    let kept = text.replace("(new ", "(new\0");
    let words = kept.split_whitespace().map(|word| word.replace('\0', " ") + " ");
    filled(words, letters)
}

/// A term in lines of so many letters. It may be read again in these lines.
pub fn wrapped_term(term: &str, letters: usize) -> Vec<String> {
    filled(pieces(term).into_iter().map(str::to_string), letters)
}

/// A term too long to be read, without its middle.
pub fn shortened(term: &str) -> String {
    if term.chars().count() <= LONG {
        return term.to_string();
    }
    let pieces = pieces(term);
    let front = fitting(pieces.iter(), LONG / 2);
    let back = pieces.len() - fitting(pieces.iter().rev(), LONG / 4);
    format!("{} … {}", pieces[..front].concat().trim_end(), pieces[back..].concat())
}

/// How many of the pieces have no more than so many letters.
fn fitting<'a>(pieces: impl Iterator<Item = &'a &'a str>, letters: usize) -> usize {
    let mut length = 0;
    let fits = |piece: &&&str| {
        length += piece.chars().count();
        length <= letters
    };
    pieces.take_while(fits).count()
}

/// A term in pieces that end after signs, but not between `new` and its name or before `0`.
pub fn pieces(term: &str) -> Vec<&str> {
    let mut pieces = Vec::new();
    let mut start = 0;
    for (at, sign) in term.match_indices(['.', ' ', ',', ']', ')']) {
        let end = at + sign.len();
        let goes_on = term[end..].starts_with(['.', ' ', ',', ']', ')', '0']);
        if !goes_on && !term[start..end].ends_with("new ") {
            pieces.push(&term[start..end]);
            start = end;
        }
    }
    pieces.push(&term[start..]);
    pieces
}

/// Pieces in lines. A piece that is too long has a line of its own.
fn filled(pieces: impl Iterator<Item = String>, letters: usize) -> Vec<String> {
    let mut lines = vec![String::new()];
    for piece in pieces {
        let last = lines.len() - 1;
        let length = lines[last].chars().count() + piece.trim_end().chars().count();
        match length > letters && !lines[last].is_empty() {
            true => lines.push(piece),
            false => lines[last].push_str(&piece),
        }
    }
    lines.iter().map(|line| line.trim_end().to_string()).collect()
}

#[cfg(test)]
mod tests {
    use super::*;

    #[test]
    fn long_text_is_laid_out_in_lines() {
        let text = "word ".repeat(60);
        let lines = wrapped(&text, "  - ", "    ");
        assert!(lines.lines().all(|line| line.chars().count() <= WIDTH));
        assert!(lines.starts_with("  - word word") && lines.contains("\n    word"));
        assert_eq!(lines.split_whitespace().filter(|&word| word == "word").count(), 60);
        assert_eq!(wrapped_term("a(x).b<c>.0 + tau.0", 9), ["a(x).", "b<c>.0 +", "tau.0"]);
        assert_eq!(wrapped_term("[a=b](new x)K(x, a).0", 8), ["[a=b]", "(new x)", "K(x,", "a).0"]);
        assert_eq!(wrapped_words("becomes (new x)a<x>.0", 13), ["becomes", "(new x)a<x>.0"]);
    }

    #[test]
    fn long_terms_lose_their_middle() {
        let long = "(new x)".repeat(50) + "K(a)";
        let [front, back] = ["(new x)".repeat(17), "(new x)".repeat(8) + "K(a)"];
        assert_eq!(shortened(&long), format!("{front} … {back}"));
        assert_eq!(shortened("tau.0"), "tau.0");
    }
}
