//! The files of the program: texts, and books with their names.

use std::io;

use crate::complaint::Complaint;
use crate::look;
use crate::names::Names;
use crate::options::{Options, Taken};
use crate::parse::parse;
use crate::print::Printer;
use crate::refusal;
use crate::sheet::Sheet;
use crate::text::Text;

/// The most bytes that are read of a file; a text that has more is refused.
pub const MAX_INPUT: usize = 4 << 20;

/// Reads at most `MAX_INPUT` bytes and one more of a file, `-` for the standard input.
pub type Read<'a> = &'a mut dyn FnMut(&str) -> io::Result<Vec<u8>>;

/// A book with its names; of a text, also the variables and the line of each rule.
pub struct Loaded {
    pub book: Vec<u8>,
    pub sheet: Sheet,
    pub names: Names,
    variables: Vec<Vec<String>>,
    pub lines: Vec<usize>,
}

impl Loaded {
    /// Writes the terms of a rule.
    pub fn printer(&self, rule: usize) -> Printer<'_> {
        let variables = self.variables.get(rule).unwrap_or(&self.names.variables);
        Printer { sheet: &self.sheet, names: &self.names, variables }
    }
}

/// The bytes of a file.
pub fn bytes(read: Read, file: &str) -> Result<Vec<u8>, Complaint> {
    read(file).map_err(|error| Complaint::of_use(format!("{file}: {error}")))
}

/// The text of a file.
pub fn text(read: Read, file: &str) -> Result<Text, Complaint> {
    text_of(&bytes(read, file)?).map_err(|complaint| complaint.of(file))
}

fn text_of(bytes: &[u8]) -> Result<Text, Complaint> {
    let source = look::source(bytes)?;
    let text = parse(source).map_err(|complaint| complaint.shown(source))?;
    Ok(Text { source: source.into(), ..text })
}

/// The book of a file, or of the text in it.
pub fn load(read: Read, file: &str, options: &Options) -> Result<Loaded, Complaint> {
    let bytes = bytes(read, file)?;
    let is_text = match options.taken {
        Taken::AsItLooks => look::like_text(&bytes),
        Taken::ForText => true,
        Taken::ForBook => false,
    };
    let other = match options.taken {
        Taken::AsItLooks => taken_for(&bytes, is_text),
        _ => None,
    };
    let loaded = if is_text { loaded_text(&bytes) } else { loaded_book(bytes) };
    let mut loaded = loaded.map_err(|fault| fault.hinted(other).of(file))?;
    if let Some(names_file) = &options.names {
        let names = text(read, names_file)?.names;
        loaded.names = names.suited(&loaded.sheet).map_err(|complaint| complaint.of(names_file))?;
        loaded.variables.clear();
    }
    Ok(loaded)
}

fn loaded_text(bytes: &[u8]) -> Result<Loaded, Complaint> {
    let text = text_of(bytes)?;
    let book = text.assemble()?;
    let sheet = open(&book)?;
    let lines = text.rules.iter().map(|rule| rule.place.line).collect();
    let mut names = text.names;
    let own = |numbers: &[usize]| numbers.iter().map(|&number| names.variables[number].clone()).collect();
    let variables = text.rules.iter().map(|rule| own(&rule.variables)).collect();
    names.invent_variables(sheet.most_variables());
    Ok(Loaded { book, sheet, names, variables, lines })
}

/// What a file with a fault was taken for, if it may be something else.
fn taken_for(bytes: &[u8], is_text: bool) -> Option<String> {
    let (taken, option, other) = match is_text {
        true if look::may_be_book(bytes) && std::str::from_utf8(bytes).is_err() => ("text", "--book", "book"),
        false if !bytes.contains(&0) => ("book", "--text", "text"),
        _ => return None,
    };
    Some(format!("it was taken for a {taken}, and {option} takes it for a {other}"))
}

/// A book with invented names.
fn loaded_book(book: Vec<u8>) -> Result<Loaded, Complaint> {
    let sheet = open(&book)?;
    let names = Names::invented(&sheet);
    Ok(Loaded { book, sheet, names, variables: Vec::new(), lines: Vec::new() })
}

fn open(book: &[u8]) -> Result<Sheet, Complaint> {
    Sheet::open(book).map_err(|error| refusal::of_book(error, book))
}
