//! Opening, closing and converting rule files.

use crate::error::*;
use crate::format::{System, MAX_BYTES};

/// The words of the header, and of a symbol.
const HEADER_WORDS: usize = 4;
const SYMBOL_WORDS: usize = 4;

/// 01: opening. Writes the words of a packed rule file; hands back their count.
pub fn decode(book: &[u8], words: &mut [u16]) -> Result<usize, Error> {
    let system = System::from_packed(book)?;
    let nodes_at = HEADER_WORDS + SYMBOL_WORDS * system.table.symbols().len();
    let len = nodes_at + system.nodes.len();
    let words = words.get_mut(..len).ok_or(Error::output(WORDS_TOO_SHORT))?;
    for (word, (value, _)) in words.iter_mut().zip(system.fields()) {
        *word = value;
    }
    words[nodes_at..].copy_from_slice(&system.nodes);
    Ok(len)
}

/// 01: closing. Writes the packed rule file of its words; hands back the count of bytes.
pub fn encode(words: &[u16], book: &mut [u8]) -> Result<usize, Error> {
    let system = System::from_words(words)?;
    let len = system.packed_len();
    if len > MAX_BYTES {
        return Err(Error { code: FILE_TOO_LONG, input: 0, offset: 0 });
    }
    let bytes = book.get_mut(..len).ok_or(Error::output(BYTES_TOO_SHORT))?;
    Ok(system.pack(bytes))
}

/// 02, order 4: the converter. Writes the rule file of form 2 for one of form 1; hands back the count of bytes, which
/// is the same for both.
pub fn convert(book: &[u8], converted: &mut [u8]) -> Result<usize, Error> {
    let mut system = System::from_old(book)?;
    let bytes = converted.get_mut(..book.len()).ok_or(Error::output(BYTES_TOO_SHORT))?;
    system.renumber();
    Ok(system.pack(bytes))
}
