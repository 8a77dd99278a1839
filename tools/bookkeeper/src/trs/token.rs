//! The tokens of a TRS text.

use crate::complaint::{quoted, Place};

/// The kinds of a token.
#[derive(Clone, Copy, Debug, PartialEq, Eq)]
pub enum Kind {
    Name,
    Open,
    Close,
    Comma,
    /// `->`
    Arrow,
    /// `|`, `"`, `\` or `==`, which are no part of a name.
    Sign,
    End,
}

/// A token, where it stands, and at which byte.
#[derive(Clone, Copy, Debug)]
pub struct Token<'a> {
    pub kind: Kind,
    pub text: &'a str,
    pub place: Place,
    pub start: usize,
}

impl Token<'_> {
    /// The token as a complaint repeats it.
    pub fn quoted(&self) -> String {
        match self.kind {
            Kind::End => "the end of the text".into(),
            _ => quoted(self.text),
        }
    }
}

/// The tokens of a TRS text, one after another.
#[derive(Clone)]
pub struct Tokens<'a> {
    pub source: &'a str,
    start: usize,
    place: Place,
}

/// What parts two sides of a rule, and what is read as a sign of its own.
const ARROW: &str = "->";
const EQUATION: &str = "==";

/// Whether a character is never a part of a name.
fn parts(sign: char) -> bool {
    sign.is_whitespace() || "(),\"|\\".contains(sign)
}

/// Whether a name is one in a TRS text.
pub fn is_name(name: &str) -> bool {
    !name.is_empty() && !name.contains(parts) && !name.contains(ARROW) && name != EQUATION
}

impl<'a> Tokens<'a> {
    pub fn new(source: &'a str) -> Self {
        let source = source.strip_prefix('\u{feff}').unwrap_or(source);
        Tokens { source, start: 0, place: Place { line: 1, column: 1 } }
    }

    /// The token that comes next, which stays.
    pub fn peek(&self) -> Token<'a> {
        self.clone().take()
    }

    /// Takes the token that comes next.
    pub fn take(&mut self) -> Token<'a> {
        let blanks = self.source[self.start..].find(|sign: char| !sign.is_whitespace());
        self.skip(blanks.unwrap_or(self.source.len() - self.start));
        let (place, start) = (self.place, self.start);
        let (kind, length) = first(&self.source[start..]);
        self.skip(length);
        Token { kind, text: &self.source[start..self.start], place, start }
    }

    /// Moves on over bytes.
    fn skip(&mut self, length: usize) {
        for sign in self.source[self.start..self.start + length].chars() {
            self.place.column += 1;
            if sign == '\n' {
                self.place = Place { line: self.place.line + 1, column: 1 };
            }
        }
        self.start += length;
    }
}

/// The kind and the length of the token that a source begins with.
fn first(source: &str) -> (Kind, usize) {
    let Some(sign) = source.chars().next() else { return (Kind::End, 0) };
    match sign {
        '(' => (Kind::Open, 1),
        ')' => (Kind::Close, 1),
        ',' => (Kind::Comma, 1),
        _ if source.starts_with(ARROW) => (Kind::Arrow, ARROW.len()),
        _ if parts(sign) => (Kind::Sign, sign.len_utf8()),
        _ => {
            let end = source.find(parts).unwrap_or(source.len());
            let end = source[..end].find(ARROW).unwrap_or(end);
            (if &source[..end] == EQUATION { Kind::Sign } else { Kind::Name }, end)
        }
    }
}
