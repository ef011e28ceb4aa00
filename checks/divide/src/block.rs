//! What functions stand in: an `impl`, also one of a trait, or a trait.

use crate::tokens::{Kind, Token};
use std::collections::BTreeSet;

#[derive(Clone)]
pub struct Block {
    /// The type whose methods stand in it, or the trait.
    pub owner: String,
    /// Nothing in an `impl` of a type's own methods.
    pub of_trait: Option<OfTrait>,
    /// Whether functions in it may have no body.
    pub is_trait: bool,
}

/// The trait of an `impl`, or the trait itself.
#[derive(Clone)]
pub struct OfTrait {
    pub name: String,
    /// The first word of the trait's path.
    pub head: String,
    /// The types that the front of the `impl` names: of none but these is it the `impl`.
    pub types: BTreeSet<String>,
}

impl Block {
    pub fn of_trait(name: &str) -> Block {
        let (owner, head) = (name.to_string(), name.to_string());
        let of_trait = OfTrait { name: owner.clone(), head, types: BTreeSet::new() };
        Block { owner, of_trait: Some(of_trait), is_trait: true }
    }

    /// Of what stands between `impl`, with its parameters, and the brace; nothing where that cannot be told apart.
    pub fn of_impl(front: &[Token]) -> Option<Block> {
        let mut parts = front.split(|token| token.text == "for");
        let (first, second, more) = (parts.next()?, parts.next(), parts.next());
        if more.is_some() {
            return None;
        }
        let owner = end_of_path(second.unwrap_or(first))?;
        let of_trait = match second {
            Some(_) => {
                let (name, head) = (end_of_path(first)?, first.first()?.text.to_string());
                Some(OfTrait { name, head, types: types(front).collect() })
            }
            None => None,
        };
        Some(Block { owner, of_trait, is_trait: false })
    }
}

/// The names with a capital, as all types have; constants may be among them.
pub fn types<'a>(tokens: &'a [Token]) -> impl Iterator<Item = String> + 'a {
    let names = tokens.iter().filter(|token| token.kind == Kind::Name && token.text.starts_with(char::is_uppercase));
    names.map(|token| token.text.to_string())
}

/// The last name of the path that a type begins with. Of a type that begins with no name it is its first sign, and no
/// path names its methods so.
fn end_of_path(tokens: &[Token]) -> Option<String> {
    let mut place = 0;
    while tokens.get(place + 1).is_some_and(|token| token.text == "::")
        && tokens.get(place + 2).is_some_and(|token| token.kind == Kind::Name)
    {
        place += 2;
    }
    tokens.get(place).map(|token| token.text.to_string())
}

/// The names of the parameters between the angles, without those of lifetimes.
pub fn parameters(angles: &[Token]) -> Vec<String> {
    let mut depth = 0;
    let mut names = Vec::new();
    for (place, token) in angles.iter().enumerate() {
        let before = if place == 0 { "," } else { angles[place - 1].text };
        depth += i32::from(["<", "(", "[", "{"].contains(&token.text));
        depth -= i32::from([")", "]", "}"].contains(&token.text) || (token.text == ">" && before != "-"));
        let is_first = before == "const" || (before == "," && token.text != "const");
        if depth == 0 && token.kind == Kind::Name && is_first {
            names.push(token.text.to_string());
        }
    }
    names
}

#[cfg(test)]
mod tests {
    use super::*;
    use crate::tokens;

    fn block(front: &str) -> Block {
        Block::of_impl(&tokens::read(front).unwrap()).unwrap()
    }

    #[test]
    fn owners() {
        let own = ["A", "a::B", "Rows<'_>", "Sums<N> where A: B"];
        assert_eq!(own.map(|front| block(front).owner), ["A", "B", "Rows", "Sums"]);
        let of_traits = ["From<A> for u16", "a::C for B<D>", "D for &'a A", "D for [A; 3]"];
        assert_eq!(of_traits.map(|front| block(front).owner), ["u16", "B", "&", "["]);
    }

    #[test]
    fn traits_and_the_types_they_are_for() {
        let of_trait = block("std::ops::Add<Address> for [Sums<N>; 3]").of_trait.unwrap();
        assert_eq!((of_trait.name.as_str(), of_trait.head.as_str()), ("Add", "std"));
        assert_eq!(of_trait.types.into_iter().collect::<Vec<_>>(), ["Add", "Address", "N", "Sums"]);
        assert!(block("A").of_trait.is_none());
    }

    #[test]
    fn a_front_that_cannot_be_told_apart() {
        assert!(Block::of_impl(&tokens::read("A for B where C: for<'a> D<'a>").unwrap()).is_none());
        assert!(Block::of_impl(&[]).is_none());
    }

    #[test]
    fn parameters_without_bounds_and_lifetimes() {
        let of = |text: &str| parameters(&tokens::read(text).unwrap());
        assert_eq!(of("'a, T: Into<Result<A, B>> + 'a, const N: usize, U = [C; 2]"), ["T", "N", "U"]);
        assert_eq!(of("F: Fn(A, B) -> C, G"), ["F", "G"]);
        assert_eq!(of("T"), ["T"]);
    }
}
