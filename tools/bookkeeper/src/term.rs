//! Reading a term: node words in prefix order, each with its place in the text.

use std::collections::HashMap;

use crate::complaint::{counted, Complaint, Place};
use crate::hint;
use crate::names::{Meaning, Names};
use crate::sheet::FIRST_VARIABLE;
use crate::text::{Field, Shape};
use crate::token::{Kind, Token, Tokens};

/// How deep parentheses may nest; a side that the library takes needs half of it.
const MAX_DEPTH: usize = 256;
/// How many nodes of a side are read; the library takes 128.
const MAX_NODES: usize = 4_096;

/// The variables of a rule in order of first use.
#[derive(Clone, Debug, Default)]
pub struct Numbering {
    pub variables: Vec<usize>,
    numbers: HashMap<usize, usize>,
}

impl Numbering {
    /// The word of a variable, which takes the next number if it is new.
    fn word(&mut self, variable: usize) -> u16 {
        let unused = self.variables.len();
        let number = *self.numbers.entry(variable).or_insert(unused);
        if number == unused {
            self.variables.push(variable);
        }
        FIRST_VARIABLE + number as u16
    }
}

/// What the names in a term stand for.
pub struct Scope<'s> {
    pub names: &'s Names,
    pub shapes: &'s [Shape],
}

impl Scope<'_> {
    /// The number and the shape of a symbol.
    fn symbol(&self, name: &str) -> Option<(u16, Shape)> {
        match self.names.meaning(name)? {
            Meaning::Symbol(number) => Some((number as u16, self.shapes[number])),
            Meaning::Variable(_) => None,
        }
    }
}

/// Reads one term.
pub struct TermReader<'r, 'a> {
    pub tokens: &'r mut Tokens<'a>,
    pub scope: &'r Scope<'r>,
    pub numbering: &'r mut Numbering,
    pub nodes: Vec<Field>,
}

impl<'a> TermReader<'_, 'a> {
    /// Reads a term: an operand, two operands with an operator between them, or operands joined by one AC operator,
    /// which group to the left.
    pub fn term(&mut self, depth: usize) -> Result<(), Complaint> {
        let start = self.nodes.len();
        self.operand(depth)?;
        let mut operators: Vec<Field> = Vec::new();
        while self.tokens.peek()?.kind == Kind::Operator {
            let token = self.tokens.take()?;
            let (word, ac) = self.infix(token)?;
            let operator = Field { word, place: token.place };
            if operators.last().is_some_and(|last| last.word != operator.word) {
                return Err(Complaint::at(token.place, "two operators in a row of terms: parentheses must part them"));
            }
            if !operators.is_empty() && !ac {
                let text = format!("{} is not AC: parentheses must part three terms", token.quoted());
                return Err(Complaint::at(token.place, text));
            }
            operators.push(operator);
            self.operand(depth)?;
        }
        self.nodes.splice(start..start, operators.into_iter().rev());
        Ok(())
    }

    /// The symbol of an operator between two terms, and whether it is AC.
    fn infix(&self, token: Token) -> Result<(u16, bool), Complaint> {
        match self.scope.symbol(token.text) {
            Some((word, Shape { arity: None | Some(2), ac })) => Ok((word, ac)),
            Some((_, Shape { arity, .. })) => {
                let takes = counted(arity.unwrap_or(0).into(), "argument");
                let text = format!("{} takes {takes}, so it stands between no two terms", token.quoted());
                Err(Complaint::at(token.place, text))
            }
            None => {
                let fault = Complaint::at(token.place, format!("{} is not a symbol of this book", token.quoted()));
                Err(fault.hinted(hint::of_sign(token.text)))
            }
        }
    }

    fn operand(&mut self, depth: usize) -> Result<(), Complaint> {
        let token = self.tokens.take()?;
        if depth == MAX_DEPTH {
            return Err(Complaint::at(token.place, format!("the term nests more than {MAX_DEPTH} deep")));
        }
        match token.kind {
            Kind::Word => self.named(token, depth),
            Kind::Open => {
                self.term(depth + 1)?;
                self.tokens.expect(Kind::Close, "an operator or `)`").map(|_| ())
            }
            Kind::Operator if self.scope.symbol(token.text).is_some() => self.prefix(token, depth),
            _ => {
                let fault = Complaint::at(token.place, format!("a term is missing before {}", token.quoted()));
                Err(fault.hinted(hint::of_sign(token.text)))
            }
        }
    }

    /// Reads on after an operator that stands before its arguments, or has none.
    fn prefix(&mut self, token: Token<'a>, depth: usize) -> Result<(), Complaint> {
        let constant = self.scope.symbol(token.text).is_some_and(|(_, shape)| shape.arity == Some(0));
        if constant || self.tokens.peek()?.kind == Kind::Open {
            return self.named(token, depth);
        }
        let fault = Complaint::at(token.place, format!("a term is missing before {}", token.quoted()));
        Err(fault.hinted(Some(format!("before its arguments it takes parentheses, `{}(..)`", token.text))))
    }

    /// Reads on after a name.
    fn named(&mut self, token: Token<'a>, depth: usize) -> Result<(), Complaint> {
        match self.scope.names.meaning(token.text) {
            Some(Meaning::Variable(number)) => {
                let word = self.numbering.word(number);
                self.push(word, token.place)
            }
            Some(Meaning::Symbol(number)) => {
                self.push(number as u16, token.place)?;
                self.arguments(token, self.scope.shapes[number].arity.map(usize::from), depth)
            }
            None => {
                let text = format!("{} is neither a symbol nor a variable of this book", token.quoted());
                Err(Complaint::at(token.place, text).hinted(hint::of_name(token.text, self.scope.names)))
            }
        }
    }

    /// Reads the arguments of a symbol, as many as its arity if that is known.
    fn arguments(&mut self, symbol: Token<'a>, arity: Option<usize>, depth: usize) -> Result<(), Complaint> {
        let mut count = 0;
        if self.tokens.peek()?.kind == Kind::Open {
            let mut next = self.tokens.take()?;
            if self.tokens.peek()?.kind == Kind::Close {
                next = self.tokens.take()?;
            }
            while next.kind != Kind::Close {
                self.term(depth + 1)?;
                count += 1;
                next = self.tokens.take()?;
                if !matches!(next.kind, Kind::Comma | Kind::Close) {
                    let text = format!("an operator, `,` or `)` is missing before {}", next.quoted());
                    return Err(Complaint::at(next.place, text));
                }
            }
        }
        let Some(arity) = arity.filter(|&arity| arity != count) else { return Ok(()) };
        let text = format!("{} takes {}, and has {count}", symbol.quoted(), counted(arity, "argument"));
        Err(Complaint::at(symbol.place, text))
    }

    fn push(&mut self, word: u16, place: Place) -> Result<(), Complaint> {
        if self.nodes.len() == MAX_NODES {
            return Err(Complaint::at(place, format!("the side has more than {MAX_NODES} nodes; a book takes 128")));
        }
        self.nodes.push(Field { word, place });
        Ok(())
    }
}
