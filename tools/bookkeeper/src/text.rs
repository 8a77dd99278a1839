//! What a text says, each field with its place, and its book.

use crate::complaint::{Complaint, Place};
use crate::mend;
use crate::names::Names;
use crate::sheet::{self, FORM};

/// The most symbols and rules of a book.
const MAX_SYMBOLS: usize = 255;
const MAX_RULES: usize = 1_023;

/// A word of the sheet, and the place that it comes from.
#[derive(Clone, Copy, Debug, PartialEq, Eq)]
pub struct Field {
    pub word: u16,
    pub place: Place,
}

/// How a symbol is used: its arity, unknown if its line has a fault, and whether it is AC.
#[derive(Clone, Copy, Debug)]
pub struct Shape {
    pub arity: Option<u16>,
    pub ac: bool,
}

/// The line of a symbol.
#[derive(Clone, Debug)]
pub struct Entry {
    pub place: Place,
    pub arity: Field,
    pub ac: Field,
    pub weight: Field,
    pub rank: Option<Field>,
}

/// The line of a rule.
#[derive(Clone, Debug)]
pub struct RuleText {
    pub place: Place,
    /// The rule's variables in order of first use, as numbers of their names.
    pub variables: Vec<usize>,
    pub nodes: Vec<Field>,
}

/// A text.
#[derive(Clone, Debug)]
pub struct Text {
    pub names: Names,
    pub w0: Option<Field>,
    pub symbols: Vec<Entry>,
    pub shapes: Vec<Shape>,
    pub rules: Vec<RuleText>,
    /// Where the text ends.
    pub end: Place,
    /// The text itself, for complaints.
    pub source: String,
}

impl Default for Text {
    fn default() -> Self {
        let (names, w0, symbols, shapes, rules) = Default::default();
        Text { names, w0, symbols, shapes, rules, end: Place { line: 1, column: 1 }, source: String::new() }
    }
}

/// The fields of the sheet: those before the rules, then those of each rule.
#[derive(Clone, Debug)]
pub struct Fields {
    pub head: Vec<Field>,
    pub rules: Vec<Vec<Field>>,
}

impl Fields {
    /// The words of the sheet.
    pub fn words(&self) -> Vec<u16> {
        self.head.iter().chain(self.rules.iter().flatten()).map(|field| field.word).collect()
    }

    /// The field of a word.
    pub fn get(&self, word: usize) -> Option<&Field> {
        self.head.iter().chain(self.rules.iter().flatten()).nth(word)
    }
}

impl Text {
    /// The fields of the sheet. A count stands where the first symbol or rule too many does.
    fn fields(&self) -> Fields {
        let first = Place { line: 1, column: 1 };
        let symbol = self.symbols.get(MAX_SYMBOLS).map(|entry| entry.place);
        let rule = self.rules.get(MAX_RULES).map(|rule| rule.place);
        let mut head = vec![Field { word: FORM, place: first }];
        head.push(Field { word: saturated(self.symbols.len()), place: symbol.unwrap_or(self.end) });
        head.extend(self.w0);
        head.push(Field { word: saturated(self.rules.len()), place: rule.unwrap_or(self.end) });
        for entry in &self.symbols {
            head.extend([entry.arity, entry.ac, entry.weight]);
            head.extend(entry.rank);
        }
        Fields { head, rules: self.rules.iter().map(|rule| rule.nodes.clone()).collect() }
    }

    /// The book of the text, or why the library refuses it.
    pub fn assemble(&self) -> Result<Vec<u8>, Complaint> {
        let fields = self.fields();
        sheet::encode(&fields.words()).map_err(|error| mend::refusals(self, fields, error).shown(&self.source))
    }
}

/// A count as a word; one that is too great for a word is too great for its field as well.
fn saturated(count: usize) -> u16 {
    count.min(usize::from(u16::MAX)) as u16
}
