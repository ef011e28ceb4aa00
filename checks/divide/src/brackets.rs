//! Where that ends which a bracket opens.

use crate::tokens::Token;

const PAIRS: [(&str, &str); 3] = [("(", ")"), ("[", "]"), ("{", "}")];

pub fn opens(text: &str) -> bool {
    PAIRS.iter().any(|(open, _)| *open == text)
}

pub fn closes(text: &str) -> bool {
    PAIRS.iter().any(|(_, close)| *close == text)
}

/// The place behind what the bracket at a place opens. Brackets of other kinds do not count: a contract may have any.
pub fn group_end(tokens: &[Token], start: usize) -> Option<usize> {
    let first = tokens.get(start)?;
    let (open, close) = PAIRS.iter().find(|(open, _)| *open == first.text)?;
    let mut depth = 0;
    for (place, token) in tokens.iter().enumerate().skip(start) {
        depth += i32::from(token.text == *open) - i32::from(token.text == *close);
        if depth == 0 {
            return Some(place + 1);
        }
    }
    None
}

/// The place behind the parameters or arguments that the angle at a place opens. That of an arrow closes none.
pub fn angles_end(tokens: &[Token], start: usize) -> Option<usize> {
    let (mut place, mut depth) = (start, 0);
    while place < tokens.len() {
        let text = tokens[place].text;
        if closes(text) || text == ";" {
            return None;
        }
        let is_arrow = place > 0 && tokens[place - 1].text == "-";
        depth += i32::from(text == "<") - i32::from(text == ">" && !is_arrow);
        place = if opens(text) { group_end(tokens, place)? } else { place + 1 };
        if depth == 0 {
            return Some(place);
        }
    }
    None
}

/// The place of the angle that the one at a place closes.
pub fn angles_start(tokens: &[Token], close: usize) -> Option<usize> {
    (0..close).rev().find(|open| tokens[*open].text == "<" && angles_end(tokens, *open) == Some(close + 1))
}

#[cfg(test)]
mod tests {
    use super::*;
    use crate::tokens;

    #[test]
    fn groups_of_one_kind() {
        let tokens = tokens::read("{ ( } { } }").unwrap();
        assert_eq!(group_end(&tokens, 0), Some(3));
        assert_eq!(group_end(&tokens, 3), Some(5));
        assert_eq!(group_end(&tokens, 1), None);
        assert_eq!(group_end(&tokens, 2), None);
    }

    #[test]
    fn angles_with_arrows_and_groups() {
        let ends = |text: &str| angles_end(&tokens::read(text).unwrap(), 0);
        assert_eq!(ends("<A<B>> (c)"), Some(6));
        assert_eq!(ends("<F: Fn(A<B>) -> C, { a > b }> d"), Some(20));
        assert_eq!(ends("< b; c >"), None);
        assert_eq!(ends("< b) >"), None);
        assert_eq!(ends("a >"), Some(1));
    }

    #[test]
    fn angles_are_found_from_their_end() {
        let tokens = tokens::read("a < b; <A<B>>::c").unwrap();
        let close = tokens.iter().position(|token| token.text == "::").unwrap() - 1;
        assert_eq!(angles_start(&tokens, close), Some(4));
        assert_eq!(angles_start(&tokens, close - 1), Some(6));
        assert_eq!(angles_start(&tokens, 3), None);
    }
}
