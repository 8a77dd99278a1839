//! Terms under a book, which an author asks about.

use ackbo::Error;

use crate::complaint::{Complaint, Place};
use crate::input::{self, Loaded, Read};
use crate::names::VARIABLES;
use crate::options::Options;
use crate::parse::parse_term;
use crate::print::Printer;
use crate::refusal;
use crate::sheet::Symbol;
use crate::term::{Numbering, Scope};
use crate::text::{Field, Shape};

/// What complaints call the terms of a question.
const TERMS: [&str; 2] = ["the first term", "the second term"];

/// Terms under a book, with the variables that they share.
pub struct Question {
    pub loaded: Loaded,
    terms: Vec<Vec<Field>>,
    variables: Vec<String>,
}

impl Question {
    /// Reads a book and terms. The terms on a book without names have sixteen variables.
    pub fn read(options: &Options, read: Read, file: &str, sources: &[&str]) -> Result<Self, Complaint> {
        let mut loaded = input::load(read, file, options)?;
        if loaded.lines.is_empty() {
            loaded.names.invent_variables(VARIABLES);
        }
        let shape = |symbol: Symbol| Shape { arity: Some(symbol.arity), ac: symbol.ac };
        let shapes: Vec<Shape> = loaded.sheet.symbols().map(shape).collect();
        let scope = Scope { names: &loaded.names, shapes: &shapes };
        let mut numbering = Numbering::default();
        let mut terms = Vec::new();
        for (source, name) in sources.iter().zip(TERMS) {
            terms.push(parse_term(source, &scope, &mut numbering).map_err(|complaint| complaint.of_term(name))?);
        }
        let variables = numbering.variables.iter().map(|&number| loaded.names.variables[number].clone()).collect();
        Ok(Question { loaded, terms, variables })
    }

    /// The words of a term.
    pub fn words(&self, term: usize) -> Vec<u16> {
        self.terms[term].iter().map(|field| field.word).collect()
    }

    pub fn print(&self, words: &[u16]) -> String {
        let Loaded { sheet, names, .. } = &self.loaded;
        Printer { sheet, names, variables: &self.variables }.term(words)
    }

    /// The refusal of a term, by its place in the argument.
    pub fn refused(&self, error: Error) -> Complaint {
        let term = usize::from(error.input).checked_sub(1).and_then(|term| self.terms.get(term).zip(TERMS.get(term)));
        let Some((fields, name)) = term else { return refusal::of_book(error, &self.loaded.book) };
        let place = fields.get(error.offset).map_or(Place { line: 1, column: 1 }, |field| field.place);
        refusal::of_term(error, place).of_term(name)
    }
}
