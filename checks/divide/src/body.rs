//! What the code of a function does that counts here: the divisions, the calls, and the names that may be those of
//! constants.

use crate::block;
use crate::brackets::{angles_end, angles_start, closes, opens};
use crate::tokens::{Kind, Token};
use std::collections::BTreeSet;

const DIVISIONS: [&str; 4] = ["/", "%", "/=", "%="];
/// Words that a parenthesis may follow without a call.
const KEYWORDS: [&str; 15] =
    ["as", "break", "dyn", "else", "for", "if", "in", "let", "loop", "match", "move", "mut", "ref", "return", "while"];
/// What makes a type one of functions, so that a parameter may be called.
const FUNCTION_TRAITS: [&str; 3] = ["Fn", "FnMut", "FnOnce"];
/// What stands in a path for `<A as B>`.
pub const ANY_TYPE: &str = "<..>";
/// Before a `let` that is no statement.
const BEFORE_A_CONDITION: [&str; 4] = ["if", "while", "&", "|"];
/// What makes more of a number that stands before it: a method, a cast, a call, an index, a question.
const BINDS_A_NUMBER: [&str; 5] = [".", "as", "(", "[", "?"];
/// What ends the value of an assignment.
const ENDS_A_VALUE: [&str; 4] = [";", "}", ")", ","];

#[derive(Clone, PartialEq, Eq, Debug)]
pub struct Division {
    pub line: usize,
    pub sign: String,
    /// The right operand, where it is one number that is written out.
    pub by: Option<String>,
}

#[derive(Clone, PartialEq, Eq, Debug)]
pub struct Call {
    pub line: usize,
    /// What stands before the name: `a` and `B` of `a::B::name` and of `a::B::<C>::name`.
    pub path: Vec<String>,
    pub name: String,
    pub form: Form,
}

#[derive(Clone, Copy, PartialEq, Eq, Debug)]
pub enum Form {
    /// `name(` or `path::name(`, also with `::<..>` behind the name; and `path::name` that is handed on.
    Function,
    /// `.name(`, or `.name::<..>(`.
    Method,
    /// `name!(`, `)(`, `](` or `}(`: what is called cannot be told from its name.
    Other,
}

#[derive(Default)]
pub struct Body {
    pub divisions: Vec<Division>,
    pub calls: Vec<Call>,
    pub names: BTreeSet<String>,
    /// Those of the names that stand behind a `::`.
    pub ends_of_paths: BTreeSet<String>,
    /// Names, without a path, that may be those of functions of the kit that are handed on.
    pub values: Vec<Call>,
    /// The types that the code, or the signature before it, names.
    pub types: BTreeSet<String>,
    /// Closures, and parameters that may be functions. What they do is in the code that makes them, or names them.
    pub callable: BTreeSet<String>,
}

impl Body {
    pub fn read(signature: &[Token], tokens: &[Token]) -> Body {
        let mut body = Body::of_types(signature);
        body.types.extend(block::types(tokens));
        body.callable = callable_parameters(signature);
        for place in 0..tokens.len() {
            body.divisions.extend(division(tokens, place));
            body.calls.extend(call(tokens, place));
            body.callable.extend(closure(tokens, place));
            // A name that the code before has given to a value is that value's.
            let Some(name) = plain_name(tokens, place).filter(|name| !is_bound_before(tokens, place, name)) else {
                continue;
            };
            body.values.extend(value_of(tokens, place));
            body.names.insert(name);
        }
        let ends = (0..tokens.len()).filter(|place| is_behind(tokens, *place, "::"));
        body.ends_of_paths = ends.filter_map(|place| plain_name(tokens, place)).collect();
        body
    }

    /// Of what has no code.
    pub fn of_types(tokens: &[Token]) -> Body {
        Body { types: block::types(tokens).collect(), ..Body::default() }
    }

    /// What a derived `default` does: it calls that of each type that is named.
    pub fn defaults(&self, line: usize) -> Body {
        let name = "default".to_string();
        let of_type =
            |owner: &String| Call { line, path: vec![owner.clone()], name: name.clone(), form: Form::Function };
        Body { calls: self.types.iter().map(of_type).collect(), types: self.types.clone(), ..Body::default() }
    }
}

impl Division {
    /// Any compiler makes a shift or a mask of such a division.
    pub fn is_by_power_of_two(&self) -> bool {
        self.by.as_deref().and_then(value).is_some_and(u128::is_power_of_two)
    }

    /// The sign and what it divides by.
    pub fn told(&self) -> String {
        format!("{} {}", self.sign, self.by.as_deref().unwrap_or("an expression"))
    }
}

impl Call {
    pub fn told(&self) -> String {
        match self.form {
            Form::Method => format!(".{}", self.name),
            _ => self.path.iter().chain([&self.name]).map(String::as_str).collect::<Vec<_>>().join("::"),
        }
    }
}

/// Whether the token is a sign that divides.
pub fn is_division(token: &Token) -> bool {
    token.kind == Kind::Sign && DIVISIONS.contains(&token.text)
}

fn division(tokens: &[Token], place: usize) -> Option<Division> {
    let token = tokens.get(place).filter(|token| is_division(token))?;
    let number = tokens.get(place + 1).filter(|next| next.kind == Kind::Number);
    let after = text(tokens, place + 2);
    // An assignment divides by all that follows, a sign by what binds closer than itself.
    let is_alone = match token.text {
        "/=" | "%=" => ENDS_A_VALUE.contains(&after),
        _ => !BINDS_A_NUMBER.contains(&after),
    };
    let by = number.filter(|_| is_alone).map(|number| number.text.to_string());
    Some(Division { line: token.line, sign: token.text.to_string(), by })
}

/// Of a number as `16`, `1_000`, `0x10` or `16u8`.
fn value(number: &str) -> Option<u128> {
    let plain = number.replace('_', "");
    let (digits, base) = match plain.get(..2) {
        Some("0x") => (&plain[2..], 16),
        Some("0o") => (&plain[2..], 8),
        Some("0b") => (&plain[2..], 2),
        _ => (&plain[..], 10),
    };
    let end = digits.find(['u', 'i']).unwrap_or(digits.len());
    u128::from_str_radix(&digits[..end], base).ok()
}

fn call(tokens: &[Token], place: usize) -> Option<Call> {
    let token = tokens[place];
    if text(tokens, place + 1) == "(" && [")", "]", "}"].contains(&token.text) {
        return Some(other(&token, "a value"));
    }
    if token.kind != Kind::Name || KEYWORDS.contains(&token.text) {
        return None;
    }
    if text(tokens, place + 1) == "!" && ["(", "[", "{"].contains(&text(tokens, place + 2)) {
        return Some(other(&token, &format!("{}!", token.text)));
    }
    let Some(after) = behind_arguments(tokens, place) else {
        return Some(other(&token, &format!("{}::<..>", token.text)));
    };
    // A capital begins a value that is built, not a function.
    if token.text.starts_with(char::is_uppercase) || !is_called(tokens, place, text(tokens, after)) {
        return None;
    }
    Some(named(tokens, place))
}

/// A name that ends a path is called, or handed on to be called.
fn is_called(tokens: &[Token], name: usize, after: &str) -> bool {
    let is_end_of_path = is_behind(tokens, name, "::") && !["::", "!"].contains(&after);
    after == "(" || is_end_of_path
}

fn named(tokens: &[Token], place: usize) -> Call {
    let token = tokens[place];
    let form = if is_behind(tokens, place, ".") { Form::Method } else { Form::Function };
    Call { line: token.line, path: path_before(tokens, place), name: token.text.to_string(), form }
}

fn other(token: &Token, name: &str) -> Call {
    Call { line: token.line, path: Vec::new(), name: name.to_string(), form: Form::Other }
}

/// The place behind a name and what `::<..>` gives it; nothing where that has no end.
fn behind_arguments(tokens: &[Token], name: usize) -> Option<usize> {
    if text(tokens, name + 1) == "::" && text(tokens, name + 2) == "<" {
        return angles_end(tokens, name + 2);
    }
    Some(name + 1)
}

fn path_before(tokens: &[Token], name: usize) -> Vec<String> {
    let mut path = Vec::new();
    let mut place = name;
    while is_behind(tokens, place, "::") && place >= 2 {
        let (start, element) = element(tokens, place - 2);
        path.insert(0, element);
        place = start;
    }
    path
}

/// Where the part of a path begins that ends at a place, and its name.
fn element(tokens: &[Token], end: usize) -> (usize, String) {
    let last = tokens[end].text;
    let open = if last == ">" { angles_start(tokens, end) } else { None };
    match open {
        Some(open) if is_behind(tokens, open, "::") && open >= 2 => (open - 2, tokens[open - 2].text.to_string()),
        Some(open) => (open, ANY_TYPE.to_string()),
        None => (end, last.to_string()),
    }
}

/// A name that is neither called nor that of a field; with a colon behind it is a field's too, or that of a local value.
fn plain_name(tokens: &[Token], place: usize) -> Option<String> {
    let token = tokens[place];
    let is_plain =
        token.kind == Kind::Name && !["(", ":"].contains(&text(tokens, place + 1)) && !is_behind(tokens, place, ".");
    is_plain.then(|| token.text.to_string())
}

/// Of a plain name.
fn value_of(tokens: &[Token], place: usize) -> Option<Call> {
    let is_alone = !is_behind(tokens, place, "::") && text(tokens, behind_arguments(tokens, place)?) != "::";
    let is_value = is_alone && !tokens[place].text.starts_with(char::is_uppercase);
    is_value.then(|| named(tokens, place))
}

/// The parameters of a signature, where it has one that may be called.
fn callable_parameters(signature: &[Token]) -> BTreeSet<String> {
    if !signature.iter().any(|token| FUNCTION_TRAITS.contains(&token.text)) {
        return BTreeSet::new();
    }
    let named = (0..signature.len()).filter(|place| text(signature, place + 1) == ":");
    named.map(|place| signature[place].text.to_string()).collect()
}

/// The name that is given to a closure here.
fn closure(tokens: &[Token], place: usize) -> Option<String> {
    let name = bound_name(tokens, place)?;
    let value = name + 2;
    let moved = usize::from(text(tokens, value) == "move");
    let is_closure = text(tokens, name + 1) == "=" && text(tokens, value + moved) == "|";
    is_closure.then(|| tokens[name].text.to_string())
}

/// The place of the name that a `let` or `let mut` at a place binds.
fn bound_name(tokens: &[Token], place: usize) -> Option<usize> {
    let is_let = text(tokens, place) == "let";
    let name = place + 1 + usize::from(text(tokens, place + 1) == "mut");
    (is_let && tokens.get(name)?.kind == Kind::Name).then_some(name)
}

/// Whether the name is bound here, or a statement that binds it has ended before the place, and its block has not.
fn is_bound_before(tokens: &[Token], place: usize, name: &str) -> bool {
    (0..place).any(|at| {
        let bound = bound_name(tokens, at).filter(|bound| tokens[*bound].text == name);
        bound.is_some_and(|bound| bound == place || holds(tokens, at, place))
    })
}

/// Whether what the `let` binds is known at the place. Of one in a condition it is not looked at where that ends.
fn holds(tokens: &[Token], start: usize, place: usize) -> bool {
    if start > 0 && BEFORE_A_CONDITION.contains(&tokens[start - 1].text) {
        return false;
    }
    let (mut depth, mut has_ended) = (0, false);
    for token in &tokens[start..place] {
        depth += i32::from(opens(token.text)) - i32::from(closes(token.text));
        if depth < 0 {
            return false;
        }
        has_ended |= depth == 0 && token.text == ";";
    }
    has_ended
}

fn is_behind(tokens: &[Token], place: usize, sign: &str) -> bool {
    place > 0 && tokens[place - 1].text == sign
}

/// Nothing behind the last token.
fn text<'t>(tokens: &[Token<'t>], place: usize) -> &'t str {
    tokens.get(place).map_or("", |token| token.text)
}

#[cfg(test)]
mod tests {
    use super::*;
    use crate::tokens;

    fn body(text: &str) -> Body {
        Body::read(&[], &tokens::read(text).unwrap())
    }

    fn divisors(text: &str) -> Vec<Option<String>> {
        body(text).divisions.into_iter().map(|division| division.by).collect()
    }

    fn calls(text: &str) -> Vec<String> {
        body(text).calls.iter().map(Call::told).collect()
    }

    #[test]
    fn a_divisor_is_a_number_or_an_expression() {
        let written = |number: &str| Some(number.to_string());
        assert_eq!(divisors("(v >> 7) % 2 * 0x80 + v / 16u8"), [written("2"), written("16u8")]);
        assert_eq!(divisors("a / n; a % (2); a / 2.pow(n); a % 256 as u8"), [None, None, None, None]);
        assert_eq!(divisors("a /= 2; a %= 2 + n;"), [written("2"), None]);
    }

    #[test]
    fn powers_of_two() {
        let is = |number: &str| {
            let (line, sign) = (1, "/".to_string());
            Division { line, sign, by: Some(number.to_string()) }.is_by_power_of_two()
        };
        assert!(["1", "2", "256", "0x40", "4_294_967_296u64", "0b100", "16usize", "0x10i32"].into_iter().all(is));
        assert!(!["0", "3", "10", "26", "75u16", "0xFF", "0b11"].into_iter().any(is));
    }

    #[test]
    fn calls_of_every_form() {
        assert_eq!(calls("f(a.b(c)) + m::g() + m::T::h()"), ["f", ".b", "m::g", "m::T::h"]);
        assert_eq!(calls("a.f(8).f(4)"), [".f", ".f"]);
        assert_eq!(calls("x[..f(1)] + y[g(2)..h(3)]"), ["f", "g", "h"]);
        assert_eq!(calls("assert!(a) + (b)(c) + d[0](e)"), ["assert!", "a value", "a value"]);
        assert_eq!(calls("f::<u8>(a) + { g }(b)"), ["f", "a value"]);
    }

    #[test]
    fn calls_with_arguments_of_types() {
        assert_eq!(calls("a.f::<{ N / 2 }>(b) + m::g::<A<u8>>() + T::<N>::h()"), [".f", "m::g", "T::h"]);
        assert_eq!(calls("<&[u8; N]>::f(a) + <A as B<C>>::g::<D>(b)"), ["<..>::f", "<..>::g"]);
        assert_eq!(calls("f::<u8; g(a)"), ["f::<..>", "g"]);
        assert_eq!(divisors("a.f::<{ N / 3 }>(b)"), [Some("3".to_string())]);
    }

    #[test]
    fn calls_in_closures_and_patterns() {
        assert_eq!(calls("a.map(|_| f(b)).all(|x| x == g(x)) & (|| h())"), [".map", "f", ".all", "g", "h"]);
        assert_eq!(calls("let Some([a, ..]) = f(b)? else { return Err(g()) };"), ["f", "g"]);
        assert_eq!(calls("[a.b, c[f(0)]] = g(d); A { e, ..h() }"), ["f", "g", "h"]);
        assert_eq!(calls("match a { 0..=9 | 31 if f(a) => g(b), A | B(_) => h(c) }"), ["f", "g", "h"]);
        assert_eq!(calls("matches!(f(a), 1 | 2 if g(b))"), ["matches!", "f", "g"]);
        assert_eq!(divisors("a.map(|x| x / 3); A { a: 1, ..b(c % 2) }; matches!(a / 5, 1)").len(), 3);
    }

    #[test]
    fn functions_that_are_handed_on() {
        assert_eq!(calls("a.map(m::f).fold(T::g::<u8>, m::n::h)"), [".map", "m::f", ".fold", "T::g", "m::n::h"]);
        assert_eq!(calls("m::SIZE + T::SIZE + m::n::T::A"), [""; 0]);
        let values: Vec<_> = body("let b = g; a.map(f).fold(b, h::<u8>, m::i); m::j(); A { k: l }").values;
        assert_eq!(
            values.iter().map(|call| call.name.as_str()).collect::<Vec<_>>(),
            ["let", "g", "a", "f", "h", "u8", "l"]
        );
    }

    #[test]
    fn what_may_be_called_as_a_value() {
        let signature = tokens::read("<F: Fn(u8) -> u8>(a: u8, mut f: F)").unwrap();
        let code = tokens::read("let g = |x| x; let mut h = move || f(a); let i = j;").unwrap();
        let callable: Vec<_> = Body::read(&signature, &code).callable.into_iter().collect();
        assert_eq!(callable, ["F", "a", "f", "g", "h"]);
        assert!(Body::read(&tokens::read("(a: u8)").unwrap(), &[]).callable.is_empty());
    }

    #[test]
    fn types_of_the_signature_and_the_code() {
        let signature = tokens::read("(a: &A<B>) -> C").unwrap();
        let types = Body::read(&signature, &tokens::read("D { e: F::g(h) }; I(j); a.K()").unwrap()).types;
        assert_eq!(types.into_iter().collect::<String>(), "ABCDFIK");
    }

    #[test]
    fn what_is_no_call() {
        assert_eq!(calls("if (a) { return (b); } match (c) { Word::Handed(w) => Some(w) }"), [""; 0]);
        assert_eq!(calls("!(a) & !b; while (c) { (d + e) as u8 } &mut (f)"), [""; 0]);
    }

    #[test]
    fn names_without_fields_and_calls() {
        let names: Vec<_> = body("SIZE + a.COUNT + f(frame::SYNC)").names.into_iter().collect();
        assert_eq!(names, ["SIZE", "SYNC", "a", "frame"]);
    }

    #[test]
    fn names_without_those_of_local_values() {
        let names: Vec<_> = body("let mut b = 1; let a = b; a.COUNT + g(half); A { c: a }").names.into_iter().collect();
        assert_eq!(names, ["A", "half", "let", "mut"]);
        for text in ["g(half); let half = 1; half", "let half = g.map(half);", "{ let half = 1; } g.map(half)"] {
            assert!(body(text).names.contains("half"), "{text}");
        }
        assert!(body("if let half = a { b; } g.map(half); c").names.contains("half"));
        assert!(!body("let half = 1; { g(half) }").names.contains("half"));
    }
}
