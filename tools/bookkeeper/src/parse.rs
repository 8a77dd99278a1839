//! Reading a text, line by line; a line with a fault is left, and reading goes on after it.

mod declaration;
mod fields;

use crate::complaint::Complaint;
use crate::hint;
use crate::ranks::{self, Order};
use crate::term::{Numbering, Scope, TermReader};
use crate::text::{Field, RuleText, Text};
use crate::token::{Kind, Token, Tokens};

/// The most faults that are told of a text.
pub const MOST_FAULTS: usize = 20;

/// The text that a source has, or its faults, one a line.
pub fn parse(source: &str) -> Result<Text, Complaint> {
    let mut parser = Parser { tokens: Tokens::new(source), text: Text::default(), order: None, faulty: Vec::new() };
    let mut faults: Vec<Complaint> = Vec::new();
    loop {
        match parser.line() {
            Ok(true) => {}
            Ok(false) => break,
            Err(fault) => {
                faults.push(fault);
                parser.tokens.skip_line();
            }
        }
    }
    if parser.text.w0.is_none() && !parser.faulty.contains(&"w0") {
        faults.push(Complaint::at(parser.text.end, "there is no line `w0`, the weight of a variable"));
    }
    let declared = !["symbol", "order"].iter().any(|line| parser.faulty.contains(line));
    if declared {
        faults.extend(ranks::give(&mut parser.text, parser.order));
    }
    match Complaint::all(faults, MOST_FAULTS) {
        Some(complaint) => Err(complaint),
        None => Ok(parser.text),
    }
}

struct Parser<'a> {
    tokens: Tokens<'a>,
    text: Text,
    order: Option<Order>,
    /// The words that begin lines with faults.
    faulty: Vec<&'static str>,
}

impl<'a> Parser<'a> {
    /// Reads a line; answers whether there was one.
    fn line(&mut self) -> Result<bool, Complaint> {
        let first = self.tokens.peek()?;
        match (first.kind, first.text) {
            (Kind::End, _) => {
                self.text.end = first.place;
                return Ok(false);
            }
            (Kind::LineEnd, _) => {}
            (Kind::Word, "w0") => self.declared("w0", Self::w0)?,
            (Kind::Word, "variables") => self.declared("variables", Self::variables)?,
            (Kind::Word, "symbol") => self.declared("symbol", Self::symbol)?,
            (Kind::Word, "order") => self.declared("order", Self::order)?,
            _ => self.rule().map_err(|fault| fault.hinted(hint::of_line(first.text, &self.text.names)))?,
        }
        self.line_end().map(|()| true)
    }

    /// Reads a line that is no rule, up to its end, and notes whether it has a fault.
    fn declared(
        &mut self,
        word: &'static str,
        read: impl Fn(&mut Self) -> Result<(), Complaint>,
    ) -> Result<(), Complaint> {
        let result = read(self).and_then(|()| self.at_line_end());
        result.inspect_err(|_| self.faulty.push(word))
    }

    /// Complains if more of the line follows.
    fn at_line_end(&mut self) -> Result<(), Complaint> {
        let last = self.tokens.peek()?;
        match last.kind {
            Kind::End | Kind::LineEnd => Ok(()),
            _ => Err(Complaint::at(last.place, format!("the line should end before {}", last.quoted()))),
        }
    }

    /// Takes the end of a line.
    fn line_end(&mut self) -> Result<(), Complaint> {
        self.at_line_end()?;
        if self.tokens.peek()?.kind == Kind::LineEnd {
            self.tokens.take()?;
        }
        Ok(())
    }

    fn rule(&mut self) -> Result<(), Complaint> {
        let place = self.tokens.peek()?.place;
        let scope = Scope { names: &self.text.names, shapes: &self.text.shapes };
        let mut numbering = Numbering::default();
        let left = side(&mut self.tokens, &scope, &mut numbering)?;
        let arrow = self.tokens.expect(Kind::Arrow, "an operator or `->`")?;
        let right = side(&mut self.tokens, &scope, &mut numbering)?;
        let nodes = [left, right].concat();
        self.text.rules.push(RuleText { place, variables: numbering.variables, nodes });
        let goes_on = |last: Token| last.kind == Kind::Arrow && last.place.line > arrow.place.line;
        match self.tokens.peek() {
            Ok(last) if goes_on(last) => {
                let text =
                    format!("line {} ends in `->`, so the rule goes on here, and ends before `->`", arrow.place.line);
                Err(Complaint::at(last.place, text))
            }
            _ => self.at_line_end(),
        }
    }
}

/// Reads a side of a rule.
fn side(tokens: &mut Tokens, scope: &Scope, numbering: &mut Numbering) -> Result<Vec<Field>, Complaint> {
    let mut reader = TermReader { tokens, scope, numbering, nodes: Vec::new() };
    reader.term(0)?;
    Ok(reader.nodes)
}

/// Reads a source that is one term.
pub fn parse_term(source: &str, scope: &Scope, numbering: &mut Numbering) -> Result<Vec<Field>, Complaint> {
    let mut tokens = Tokens::new(source);
    let nodes = side(&mut tokens, scope, numbering)?;
    tokens.expect(Kind::End, "an operator").map(|_| nodes)
}
