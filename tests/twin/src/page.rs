//! The page for the notice board: a line for each rule of a rule file, and the text that the program `board` prints.

use std::io::Write;

use crate::error::{Error, PAGE_TOO_SHORT};
use crate::format::System;
use crate::marking::orientations;
use crate::order::Orientation;

/// 64 characters and byte 10.
pub const LINE_BYTES: usize = 65;

/// 02: the page. Writes one line for each rule of a packed rule file, and gives the count of bytes.
pub fn page(book: &[u8], page: &mut [u8]) -> Result<usize, Error> {
    let system = System::from_packed(book)?;
    let count = LINE_BYTES * system.rule_count();
    let lines = page.get_mut(..count).ok_or(Error::output(PAGE_TOO_SHORT))?.chunks_exact_mut(LINE_BYTES);
    for ((number, (orientation, margin)), mut line) in orientations(&system).enumerate().zip(lines) {
        writeln!(line, "{number:>4} {:<40} {margin:>12}{:6}", words(orientation), "").expect("a line has 65 bytes");
    }
    Ok(count)
}

/// The bytes that `board` prints for a packed rule file.
pub fn board(book: &[u8]) -> Vec<u8> {
    let rules = System::from_packed(book).map_or(0, |system| system.rule_count());
    let mut text = vec![0; LINE_BYTES * rules];
    match page(book, &mut text) {
        Ok(_) => text,
        Err(error) => format!("refusal {} {}\n", error.code, error.offset).into_bytes(),
    }
}

/// 02: the words for a mark.
fn words(orientation: Orientation) -> &'static str {
    match orientation {
        Orientation::Weight => "falls by weight",
        Orientation::Precedence => "falls by rank",
        Orientation::Lexicographic => "falls by arguments",
        Orientation::RootsAbove => "falls by high terms",
        Orientation::Cardinality => "falls by count",
        Orientation::RootsBelow => "falls by low terms",
        Orientation::Variables => "variable added",
        Orientation::Lighter => "left lighter",
        Orientation::Equivalent => "sides equal",
        Orientation::Unrelated => "no case",
        Orientation::Wrapping => "falls by wrapping",
    }
}
