//! Code without what is none: attributes, the clauses of closures, and ghost members.

use crate::brackets::group_end;
use crate::tokens::{Kind, Token};

/// All three words are the language's own, so that no code has them.
const CLAUSES: [&str; 2] = ["requires", "ensures"];
const GHOST: &str = "ghost";
/// What a ghost member's name, type and value may follow.
const BEFORE_GROUPS: [&str; 3] = [":", "=", "by"];

/// The tokens that are code, or the line of a string that may have taken some of them for its text. What only begins as
/// an attribute, a clause or a member stays, and is read as code.
pub fn code<'t>(tokens: &[Token<'t>]) -> Result<Vec<Token<'t>>, usize> {
    let mut code = Vec::new();
    let mut place = 0;
    while place < tokens.len() {
        let end = end(tokens, place);
        match end {
            Some(end) => refuse_long_strings(&tokens[place..end])?,
            None => code.push(tokens[place]),
        }
        place = end.unwrap_or(place + 1);
    }
    Ok(code)
}

/// A contract may have a single quote, which would open a string up to the next one in the code.
pub fn refuse_long_strings(clause: &[Token]) -> Result<(), usize> {
    let long = clause.iter().find(|token| token.kind == Kind::Quoted && token.text.contains('\n'));
    long.map_or(Ok(()), |token| Err(token.line))
}

/// The place behind what begins here and is no code.
fn end(tokens: &[Token], place: usize) -> Option<usize> {
    match tokens[place].text {
        "#" => group_end(tokens, behind(tokens, place + 1, "!")),
        word if CLAUSES.contains(&word) => group_end(tokens, behind_name(tokens, behind(tokens, place + 1, "*"))),
        GHOST => member_end(tokens, behind_name(tokens, place + 1)),
        _ => None,
    }
}

/// The place behind the groups of a ghost member whose name ends here, of which there must be one.
fn member_end(tokens: &[Token], start: usize) -> Option<usize> {
    let mut place = start;
    while tokens.get(place).is_some_and(|token| BEFORE_GROUPS.contains(&token.text)) {
        place = group_end(tokens, place + 1)?;
    }
    (place > start).then_some(place)
}

fn behind(tokens: &[Token], place: usize, sign: &str) -> usize {
    place + usize::from(tokens.get(place).is_some_and(|token| token.text == sign))
}

fn behind_name(tokens: &[Token], place: usize) -> usize {
    place + usize::from(tokens.get(place).is_some_and(|token| token.kind == Kind::Name))
}

#[cfg(test)]
mod tests {
    use super::*;
    use crate::tokens;

    fn left(text: &str) -> String {
        let tokens = tokens::read(text).unwrap();
        code(&tokens).unwrap().iter().map(|token| token.text).collect::<Vec<_>>().join(" ")
    }

    #[test]
    fn attributes() {
        assert_eq!(left("#[tactic(auto, unfolding(a::b))] a(b); #![tactic(auto)] c"), "a ( b ) ; c");
        assert_eq!(left("# a / b"), "# a / b");
    }

    #[test]
    fn clauses_of_closures() {
        let text = "|x: u8| -> u8 requires few { x / 2 } ensures* { x } ensures { result } { x }";
        assert_eq!(left(text), "| x : u8 | - > u8 { x }");
        assert_eq!(left("requires a / b"), "requires a / b");
    }

    #[test]
    fn a_quote_in_a_clause() {
        let tokens = tokens::read("a;\n|x| requires { \" } { x / 2 };\nb(\" } c").unwrap();
        assert_eq!(code(&tokens), Err(2));
        assert!(code(&tokens::read("|x| requires { \"}\" } { \"a\nb\" }").unwrap()).is_ok());
    }

    #[test]
    fn ghost_members() {
        assert_eq!(left("a: u8, ghost small: { a / 2 } by { p / q }, b: u8"), "a : u8 , , b : u8");
        assert_eq!(left("ghost m: { A } = { b % c }; ghost n = { d };"), "; ;");
        assert_eq!(left("ghost a / b"), "ghost a / b");
    }
}
