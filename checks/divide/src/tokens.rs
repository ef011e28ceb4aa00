//! The tokens of a text. Comments are none, and a byte string is one, so that what stands in them is no code.

#[derive(Clone, Copy, PartialEq, Eq, Debug)]
pub enum Kind {
    Name,
    Number,
    /// A string, or a byte or a character in quotes.
    Quoted,
    Sign,
}

#[derive(Clone, Copy, PartialEq, Eq, Debug)]
pub struct Token<'t> {
    pub kind: Kind,
    pub text: &'t str,
    pub line: usize,
}

/// The signs of several characters that must not be taken apart: a path, an assignment that divides, and a range, whose
/// second dot is not one before a method.
const LONG_SIGNS: [&str; 5] = ["::", "/=", "%=", "..=", ".."];

/// Before a string whose signs mean themselves, or a name that is none of the language's words.
const RAW: [&str; 6] = ["r\"", "r#", "br\"", "br#", "cr\"", "cr#"];

/// The tokens, or the line that cannot be read and why.
pub fn read(text: &str) -> Result<Vec<Token<'_>>, (usize, String)> {
    let mut tokens = Vec::new();
    let (mut rest, mut line, mut before) = (text, 1, None);
    while let Some(first) = rest.chars().next() {
        let (kind, length) = piece(rest, first, before).map_err(|trouble| (line, trouble))?;
        let (text, after) = rest.split_at(length);
        before = text.chars().next_back();
        tokens.extend(kind.map(|kind| Token { kind, text, line }));
        line += text.matches('\n').count();
        rest = after;
    }
    Ok(tokens)
}

/// The kind of what comes first, none for spaces and comments, and its length in bytes.
fn piece(rest: &str, first: char, before: Option<char>) -> Result<(Option<Kind>, usize), String> {
    if first.is_whitespace() {
        return Ok((None, first.len_utf8()));
    }
    if rest.starts_with("//") {
        return Ok((None, rest.find('\n').unwrap_or(rest.len())));
    }
    if rest.starts_with("/*") {
        return Err("a comment that is not of one line cannot be read".to_string());
    }
    if RAW.iter().any(|start| rest.starts_with(start)) {
        return Err("a raw string or a raw name cannot be read".to_string());
    }
    if let Some(length) = quoted_length(rest, before)? {
        return Ok((Some(Kind::Quoted), length));
    }
    if is_of_a_word(first) {
        let kind = if first.is_ascii_digit() { Kind::Number } else { Kind::Name };
        return Ok((Some(kind), rest.find(|other| !is_of_a_word(other)).unwrap_or(rest.len())));
    }
    let long = LONG_SIGNS.iter().find(|sign| rest.starts_with(**sign));
    Ok((Some(Kind::Sign), long.map_or(first.len_utf8(), |sign| sign.len())))
}

fn is_of_a_word(character: char) -> bool {
    character.is_alphanumeric() || character == '_'
}

/// Of a string, a byte or a character.
fn quoted_length(rest: &str, before: Option<char>) -> Result<Option<usize>, String> {
    if rest.starts_with('"') || rest.starts_with("b\"") {
        return Ok(Some(string_length(rest).ok_or("a string has no end")?));
    }
    if let Some(inside) = rest.strip_prefix("b'") {
        return Ok(character_length(inside).map(|length| length + 2));
    }
    // In a contract a quote behind a word is a part of the name.
    let is_in_a_name = before.is_some_and(|before| is_of_a_word(before) || before == '\'');
    let inside = rest.strip_prefix('\'').filter(|_| !is_in_a_name);
    Ok(inside.and_then(character_length).map(|length| length + 1))
}

/// Of as many lines as it has.
fn string_length(rest: &str) -> Option<usize> {
    let start = rest.find('"')? + 1;
    let mut escaped = false;
    for (place, byte) in rest.bytes().enumerate().skip(start) {
        if byte == b'"' && !escaped {
            return Some(place + 1);
        }
        escaped = byte == b'\\' && !escaped;
    }
    None
}

/// Of `x'`, `\n'`, `\x41'` or `\u{10ffff}'`, behind the quote that begins it. Where no quote follows in its place, the first
/// was that of a lifetime, or in a contract of a name.
fn character_length(inside: &str) -> Option<usize> {
    let first = inside.chars().next()?;
    let (least, most) = match first {
        '\'' => return None,
        '\\' if inside.starts_with("\\u{") => (5, 10),
        '\\' => (2, 4),
        _ => (first.len_utf8(), first.len_utf8()),
    };
    let close = least + inside.get(least..)?.find('\'')?;
    (close <= most).then_some(close + 1)
}

#[cfg(test)]
mod tests {
    use super::*;

    fn texts(text: &str) -> Vec<&str> {
        read(text).unwrap().into_iter().map(|token| token.text).collect()
    }

    #[test]
    fn comments_are_no_tokens() {
        assert_eq!(texts("a // b / c % d\n/ e"), ["a", "/", "e"]);
        assert_eq!(texts("// only / this"), [""; 0]);
        assert!(read("a /* b */ c").is_err());
    }

    #[test]
    fn strings_and_bytes_are_one_token() {
        assert_eq!(texts(r#"f(b"a / \" % b", b'/', b'\'', b'\x2f')"#).len(), 10);
        assert_eq!(texts(r#"extern "C" fn"#), ["extern", "\"C\"", "fn"]);
        assert!(read("b\"no end").is_err());
    }

    #[test]
    fn strings_of_several_lines() {
        let tokens = read("f(\"a / \\\n b \\\" % c\n\", d)\n/ e").unwrap();
        let told: Vec<_> = tokens.iter().map(|token| (token.kind, token.line)).collect();
        assert_eq!((told[2], told[4]), ((Kind::Quoted, 1), (Kind::Name, 3)));
        assert_eq!(tokens[6].text, "/");
    }

    #[test]
    fn characters_are_one_token_and_lifetimes_none() {
        let text = r#"f('"', '/', '\'', '\u{1f600}', '→') / g"#;
        assert_eq!(
            texts(text),
            ["f", "(", "'\"'", ",", "'/'", ",", r"'\''", ",", r"'\u{1f600}'", ",", "'→'", ")", "/", "g"]
        );
        assert_eq!(texts("&'a A<'b, '_>"), ["&", "'", "a", "A", "<", "'", "b", ",", "'", "_", ">"]);
        assert_eq!(texts("x'a' / y''b'"), ["x", "'", "a", "'", "/", "y", "'", "'", "b", "'"]);
    }

    #[test]
    fn raw_strings_are_not_read() {
        for text in ["r\"a\\\"", "r#\"a\"#", "br\"a\"", "cr#\"a\"#", "r#fn"] {
            assert!(read(text).unwrap_err().1.contains("raw"), "{text}");
        }
        assert_eq!(texts("far\"a\""), ["far", "\"a\""]);
    }

    #[test]
    fn a_name_with_a_prime_opens_no_byte() {
        assert_eq!(texts("b' ≡ a' / b'"), ["b", "'", "≡", "a", "'", "/", "b", "'"]);
    }

    #[test]
    fn numbers_keep_what_follows_their_digits() {
        assert_eq!(texts("0xFFu16 % 1_000u8"), ["0xFFu16", "%", "1_000u8"]);
        assert_eq!(texts("a[1..n / 2]"), ["a", "[", "1", "..", "n", "/", "2", "]"]);
    }

    #[test]
    fn long_signs_stay_whole() {
        assert_eq!(texts("a::b /= c; d %= e / f"), ["a", "::", "b", "/=", "c", ";", "d", "%=", "e", "/", "f"]);
    }

    #[test]
    fn lines_are_counted_from_one() {
        let lines: Vec<usize> = read("a\n\nb // c\nd").unwrap().iter().map(|token| token.line).collect();
        assert_eq!(lines, [1, 3, 4]);
    }
}
