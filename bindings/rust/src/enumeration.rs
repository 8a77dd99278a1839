//! Counting and listing small terms.

use crate::error::call;
use crate::{sys, Error};

/// How many terms there are.
#[derive(Clone, Copy, Debug, PartialEq, Eq, Hash)]
pub enum TermCount {
    /// So many, 0 to 65,535.
    Exactly(usize),
    /// More than 65,535.
    More,
}

/// How many variable-free terms of `n` nodes there are under a book, without listing them. Terms whose words differ are
/// different ones, AC-equal or not, and their weight plays no part.
///
/// # Errors
/// The first that holds: of the book, input 0, refusals 1 to 11, 17 and 18; then 22, of input 0 at 0, where `n` is not
/// 1 to 7.
///
/// # Cost
/// Each call reads its whole book; past that, the cost grows with the symbols, not with the terms.
///
/// ```
/// use ackbo::TermCount;
///
/// // 01's sample: the constants o, z, b are 0, 1, 2; + is 3, neg 4 and sub 5.
/// let sheet = [2, 6, 1, 0, 0, 0, 1, 0, 0, 0, 1, 1, 0, 0, 3, 2, 2, 1, 1, 3, 1, 0, 1, 4, 2, 0, 1, 5];
/// let mut book = [0; 26];
/// assert_eq!(ackbo::encode(&sheet, &mut book), Ok(26));
///
/// assert_eq!(ackbo::count(&book, 3), Ok(TermCount::Exactly(21)));
/// assert_eq!(ackbo::count(&book, 8).unwrap_err().code, 22);
/// ```
pub fn count(book: &[u8], n: usize) -> Result<TermCount, Error> {
    call(|reply| unsafe { sys::ackbo_count(book.as_ptr(), book.len(), n, reply) }).map(|[told, number, _]| match told {
        1 => TermCount::Exactly(number as usize),
        _ => TermCount::More,
    })
}

/// Lists the variable-free terms of `n` nodes under a book: writes their words at the front of `words`, `n` for each
/// term, one term after another, ordered by their words from the first on, and gives the count of words written. Later
/// words are as they were.
///
/// # Errors
/// The first that holds: of the book, input 0, refusals 1 to 11, 17 and 18; 22, of input 0 at 0, where `n` is not 1 to
/// 7; then 23, of input 1 at 0, where there are fewer words than `n` times the number that [`count`] gives, or where it
/// gives [`TermCount::More`]. [`listed`](crate::listed) makes its own room.
///
/// # Cost
/// Each call reads its whole book; past that, the cost grows with the words written.
///
/// ```
/// // 01's sample: the constants o, z, b are 0, 1, 2; + is 3, neg 4 and sub 5.
/// let sheet = [2, 6, 1, 0, 0, 0, 1, 0, 0, 0, 1, 1, 0, 0, 3, 2, 2, 1, 1, 3, 1, 0, 1, 4, 2, 0, 1, 5];
/// let mut book = [0; 26];
/// assert_eq!(ackbo::encode(&sheet, &mut book), Ok(26));
///
/// // neg(o), neg(z), neg(b).
/// let mut words = [99; 8];
/// assert_eq!(ackbo::list(&book, &mut words, 2), Ok(6));
/// assert_eq!(words, [4, 0, 4, 1, 4, 2, 99, 99]);
/// let error = ackbo::list(&book, &mut words[..5], 2).unwrap_err();
/// assert_eq!((error.code, error.input, error.offset), (23, 1, 0));
/// ```
pub fn list(book: &[u8], words: &mut [u16], n: usize) -> Result<usize, Error> {
    let (output, room) = (words.as_mut_ptr(), words.len());
    call(|reply| unsafe { sys::ackbo_list(book.as_ptr(), book.len(), output, room, n, reply) })
        .map(|[count, _, _]| count as usize)
}
