//! Where the fields of a rule file are read from, packed bits or words, and how wide they are.

use crate::bits::BitCursor;
use crate::error::*;
use crate::table::{FIRST_VARIABLE, VARIABLES};

/// The widths of the fields in bits.
pub mod width {
    pub const FORM: u32 = 4;
    pub const SYMBOL_COUNT: u32 = 8;
    pub const W0: u32 = 16;
    pub const RULE_COUNT: u32 = 10;
    pub const ARITY: u32 = 3;
    pub const AC: u32 = 1;
    pub const WEIGHT: u32 = 16;
    pub const RANK: u32 = 8;
    pub const TAG: u32 = 1;
    pub const SYMBOL: u32 = 8;
    pub const VARIABLE: u32 = 4;
    /// All fields of the header.
    pub const HEADER: u32 = FORM + SYMBOL_COUNT + W0 + RULE_COUNT;
    /// All fields of a symbol.
    pub const SYMBOL_ENTRY: u32 = ARITY + AC + WEIGHT + RANK;
}

/// The bits by which a variable number is narrower than a symbol number.
const NARROWER: u32 = width::SYMBOL - width::VARIABLE;
/// The node word of variable 0 less its packed value, a set tag before four zeros.
const VARIABLE_EXCESS: u16 = FIRST_VARIABLE - (1 << width::VARIABLE);

/// The tag and the number of a node in one value, with their width.
pub fn packed_node(node: u16) -> (u16, u32) {
    let tag = node >> width::SYMBOL;
    (node - tag * VARIABLE_EXCESS, width::TAG + width::SYMBOL - u32::from(tag) * NARROWER)
}

/// The node that starts the bits of a tag and a symbol number, with its width.
fn unpacked_node(bits: u16) -> (u16, u32) {
    let tag = bits >> width::SYMBOL;
    let unused = u32::from(tag) * NARROWER;
    ((bits >> unused) + tag * VARIABLE_EXCESS, width::TAG + width::SYMBOL - unused)
}

/// Where fields are read from: packed bits or words.
pub trait Source {
    /// The offset of the next field.
    fn offset(&self) -> usize;
    /// The error of a code at an offset.
    fn error(&self, code: u8, offset: usize) -> Error;
    /// The next field, of `width` bits.
    fn field(&mut self, width: u32) -> Result<u16, Error>;
    /// The next node word, and the offset of the number in it.
    fn node(&mut self) -> Result<(u16, usize), Error>;
    /// Refuses what is left after the last field.
    fn finish(&self) -> Result<(), Error>;
}

impl Source for BitCursor<'_> {
    fn offset(&self) -> usize {
        self.position()
    }

    fn error(&self, code: u8, offset: usize) -> Error {
        Error { code, input: 0, offset }
    }

    fn field(&mut self, width: u32) -> Result<u16, Error> {
        if self.left() < width as usize {
            return Err(self.error(MISSING, self.offset()));
        }
        let value = self.peek(width);
        self.skip(width);
        Ok(value)
    }

    fn node(&mut self) -> Result<(u16, usize), Error> {
        let (node, width) = unpacked_node(self.peek(width::TAG + width::SYMBOL));
        let tag = self.offset();
        let number = tag + width::TAG as usize;
        if self.left() < width as usize {
            return Err(self.error(MISSING, if self.left() == 0 { tag } else { number }));
        }
        self.skip(width);
        Ok((node, number))
    }

    fn finish(&self) -> Result<(), Error> {
        if self.left() >= 8 || self.peek(8) != 0 {
            return Err(self.error(TRAILING_BITS, self.offset()));
        }
        Ok(())
    }
}

/// A reading position in the words of one input.
pub struct WordCursor<'a> {
    words: &'a [u16],
    position: usize,
    input: u8,
}

impl<'a> WordCursor<'a> {
    /// The position before the first word.
    pub fn new(words: &'a [u16], input: u8) -> Self {
        WordCursor { words, position: 0, input }
    }

    /// The next word, no greater than `max`.
    fn word(&mut self, max: u16) -> Result<u16, Error> {
        let offset = self.position;
        let word = *self.words.get(offset).ok_or(self.error(MISSING, offset))?;
        if word > max {
            return Err(self.error(TOO_WIDE, offset));
        }
        self.position += 1;
        Ok(word)
    }
}

impl Source for WordCursor<'_> {
    fn offset(&self) -> usize {
        self.position
    }

    fn error(&self, code: u8, offset: usize) -> Error {
        Error { code, input: self.input, offset }
    }

    fn field(&mut self, width: u32) -> Result<u16, Error> {
        self.word(u16::MAX >> (u16::BITS - width))
    }

    fn node(&mut self) -> Result<(u16, usize), Error> {
        let offset = self.position;
        Ok((self.word(FIRST_VARIABLE + VARIABLES as u16 - 1)?, offset))
    }

    fn finish(&self) -> Result<(), Error> {
        if self.position < self.words.len() {
            return Err(self.error(TRAILING_WORDS, self.position));
        }
        Ok(())
    }
}
