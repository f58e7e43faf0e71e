//! Text in SVG and HTML.

/// Text as it stands between tags or in quotes.
pub fn escaped(text: &str) -> String {
    let mut escaped = String::with_capacity(text.len());
    for character in text.chars() {
        match character {
            '&' => escaped.push_str("&amp;"),
            '<' => escaped.push_str("&lt;"),
            '>' => escaped.push_str("&gt;"),
            '"' => escaped.push_str("&quot;"),
            '\n' | '\t' => escaped.push(character),
            _ if character.is_control() || matches!(character, '\u{FFFE}' | '\u{FFFF}') => {
                escaped.push(char::REPLACEMENT_CHARACTER);
            }
            _ => escaped.push(character),
        }
    }
    escaped
}

/// Text in HTML, where what stands between backticks is code.
pub fn with_code(text: &str) -> String {
    let pieces = text.split('`').map(escaped).enumerate();
    let marked = pieces.map(|(place, piece)| match place % 2 {
        0 => piece,
        _ => format!("<code>{piece}</code>"),
    });
    marked.collect()
}

#[cfg(test)]
mod tests {
    use super::*;

    #[test]
    fn signs_and_code() {
        assert_eq!(escaped("a<b> & \"c\"\0"), "a&lt;b&gt; &amp; &quot;c&quot;\u{FFFD}");
        assert_eq!(with_code("try `a<b>.0`."), "try <code>a&lt;b&gt;.0</code>.");
    }
}
