//! Opening and closing of books, and converting stored ones.

use crate::error::call;
use crate::{sys, Error};

/// Opens a book to a sheet: writes its words at the front of `words`, and gives their number. Later words are as they
/// were. [`decoded`](crate::decoded) makes its own room.
///
/// # Errors
/// The first that holds: of the book, input 0, refusals 1 to 11, 17 and 18; then 13, of input 1 at 0, where the words
/// are fewer than those of the sheet.
pub fn decode(book: &[u8], words: &mut [u16]) -> Result<usize, Error> {
    call(|reply| unsafe { sys::ackbo_decode(book.as_ptr(), book.len(), words.as_mut_ptr(), words.len(), reply) })
        .map(|[count, _, _]| count as usize)
}

/// Closes a sheet to a book: writes its bytes at the front of `book`, and gives their number. Later bytes are as they
/// were. [`encoded`](crate::encoded) makes its own room.
///
/// # Errors
/// The first that holds: of the sheet, input 0, refusals 2 to 10, 14, 15, 17 and 18 at their words, then 1 at 0; then
/// 16, of input 1 at 0, where `book` is shorter than the book.
pub fn encode(words: &[u16], book: &mut [u8]) -> Result<usize, Error> {
    call(|reply| unsafe { sys::ackbo_encode(words.as_ptr(), words.len(), book.as_mut_ptr(), book.len(), reply) })
        .map(|[count, _, _]| count as usize)
}

/// Converts a stored book of form 1 to one of form 2: writes its bytes at the front of `converted`, and gives their
/// number, which is the length of `book`.
///
/// In each rule a variable gets the number of its first appearance, left side first. No other bit changes but the form,
/// and the converted book has the marks that the old one had. Every other operation refuses a book of form 1 with 17,
/// and reads what this one writes.
///
/// # Errors
/// The first that holds: of the book, input 0, refusals 1 to 11, where 3 is for every form but 1; then 16, `converted`
/// is shorter than the book, input 1 at 0.
///
/// # Cost
/// That of [`decode`] and of writing the bytes.
///
/// ```
/// // 01's sample in form 1 with the rule v+u -> u, and in form 2 with the rule u+v -> v.
/// let old = [
///     0x10, 0x60, 0x00, 0x10, 0x04, 0x00, 0x00, 0x40, 0x00, 0x00, 0x04, 0x04, 0x00, 0x00, 0xc0, 0x94, 0x00, 0x04,
///     0x0c, 0x80, 0x00, 0x41, 0x10, 0x00, 0x04, 0x14, 0x07, 0x18, 0x40,
/// ];
/// let mut book = [0xff; 32];
/// assert_eq!(ackbo::convert(&old, &mut book), Ok(29));
/// assert_eq!((book[0], &book[1..27], &book[27..29]), (0x20, &old[1..27], &[0x08, 0xc4][..]));
/// assert_eq!(ackbo::mark(&book[..29], &mut [0]).unwrap().falling, 1);
///
/// // No other operation reads the old one, and the converter does not read the new one.
/// assert_eq!(ackbo::mark(&old, &mut [0]).unwrap_err().code, 17);
/// assert_eq!(ackbo::convert(&book[..29], &mut [0; 29]).unwrap_err().code, 3);
/// let error = ackbo::convert(&old, &mut [0; 28]).unwrap_err();
/// assert_eq!((error.code, error.input, error.offset), (16, 1, 0));
/// ```
pub fn convert(book: &[u8], converted: &mut [u8]) -> Result<usize, Error> {
    let (output, room) = (converted.as_mut_ptr(), converted.len());
    call(|reply| unsafe { sys::ackbo_convert(book.as_ptr(), book.len(), output, room, reply) })
        .map(|[count, _, _]| count as usize)
}
