//! A place in the tokens of a file.

use crate::brackets::{angles_end, closes, group_end, opens};
use crate::tokens::{self, Kind, Token};
use std::ops::Range;

pub struct Reader<'t> {
    file: &'t str,
    tokens: Vec<Token<'t>>,
    place: usize,
}

impl<'t> Reader<'t> {
    pub fn new(file: &'t str, text: &'t str) -> Result<Reader<'t>, String> {
        let tokens = tokens::read(text).map_err(|(line, trouble)| format!("{file}:{line}: {trouble}"))?;
        Ok(Reader { file, tokens, place: 0 })
    }

    pub fn is_at_end(&self) -> bool {
        self.place == self.tokens.len()
    }

    /// The next token's text; nothing at the end.
    pub fn peek(&self) -> &'t str {
        self.tokens.get(self.place).map_or("", |token| token.text)
    }

    /// The text of the token behind the next.
    pub fn peek_second(&self) -> &'t str {
        self.tokens.get(self.place + 1).map_or("", |token| token.text)
    }

    pub fn place(&self) -> usize {
        self.place
    }

    pub fn is_at_name(&self) -> bool {
        self.tokens.get(self.place).is_some_and(|token| token.kind == Kind::Name)
    }

    pub fn step(&mut self) {
        self.place = (self.place + 1).min(self.tokens.len());
    }

    /// Goes over the text, if it comes next.
    pub fn skip(&mut self, text: &str) -> bool {
        let is_next = !self.is_at_end() && self.peek() == text;
        self.place += usize::from(is_next);
        is_next
    }

    /// Goes over both texts, if they come next.
    pub fn skip_both(&mut self, first: &str, second: &str) -> bool {
        let start = self.place;
        let are_next = self.skip(first) && self.skip(second);
        if !are_next {
            self.place = start;
        }
        are_next
    }

    pub fn expect(&mut self, text: &str) -> Result<(), String> {
        if self.skip(text) {
            return Ok(());
        }
        Err(self.trouble(&format!("`{}` stands where `{text}` must be", self.peek())))
    }

    pub fn name(&mut self) -> Result<&'t str, String> {
        if !self.is_at_name() {
            return Err(self.trouble(&format!("`{}` stands where a name must be", self.peek())));
        }
        let name = self.peek();
        self.step();
        Ok(name)
    }

    /// Goes over what a bracket opens, and gives what is inside.
    pub fn group(&mut self) -> Result<Range<usize>, String> {
        let text = self.peek();
        if !opens(text) {
            return Err(self.trouble(&format!("`{text}` stands where a bracket must be")));
        }
        self.go_behind(group_end(&self.tokens, self.place))
    }

    /// Goes over the parameters of a type or a function, and gives what is between the angles; nothing where there are
    /// none.
    pub fn angles(&mut self) -> Result<Range<usize>, String> {
        if self.peek() != "<" {
            return Ok(self.place..self.place);
        }
        self.go_behind(angles_end(&self.tokens, self.place))
    }

    /// Goes to an end, and gives what is between the brackets before it.
    fn go_behind(&mut self, end: Option<usize>) -> Result<Range<usize>, String> {
        let start = self.place;
        let end = end.ok_or_else(|| self.trouble(&format!("`{}` is never closed", self.peek())))?;
        self.place = end;
        Ok(start + 1..end - 1)
    }

    /// Goes on to the first of the ends that stands in no bracket, and gives what is before it.
    pub fn up_to(&mut self, ends: &[&str]) -> Result<Range<usize>, String> {
        let start = self.place;
        while !ends.contains(&self.peek()) {
            if self.is_at_end() || self.is_at_close() {
                return Err(self.trouble(&format!("`{}` stands where one of {ends:?} must be", self.peek())));
            }
            self.step_over()?;
        }
        Ok(start..self.place)
    }

    /// What ends an item, expected or not.
    fn is_at_close(&self) -> bool {
        self.peek() == ";" || closes(self.peek())
    }

    /// Goes over a token, or over all that it opens.
    fn step_over(&mut self) -> Result<(), String> {
        if opens(self.peek()) {
            return self.group().map(|_| ());
        }
        self.step();
        Ok(())
    }

    pub fn tokens(&self, range: Range<usize>) -> &[Token<'t>] {
        &self.tokens[range]
    }

    /// The line where the reader stands.
    pub fn line(&self) -> usize {
        self.tokens.get(self.place).or(self.tokens.last()).map_or(1, |token| token.line)
    }

    /// The trouble, with the place where the reader stands.
    pub fn trouble(&self, text: &str) -> String {
        format!("{}:{}: {text}", self.file, self.line())
    }
}
