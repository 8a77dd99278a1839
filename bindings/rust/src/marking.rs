//! Marking the rules of a book, and the page for the notice board.

use crate::error::call;
use crate::{sys, Error};

/// The bytes of a line of a page: 64 characters and byte 10.
pub const LINE_BYTES: usize = 65;

/// The count of rules, of those that fall, and the score: the percentage of rules that fall, rounded to the nearest
/// whole number, an exact half to the even one; 100 without rules. All rules fall exactly if the counts are equal:
/// 1,022 of 1,023 score 100 too.
#[derive(Clone, Copy, Debug, PartialEq, Eq, Hash)]
pub struct Marked {
    /// The count of rules.
    pub rules: usize,
    /// The count of those that fall.
    pub falling: usize,
    /// The percentage, 0 to 100.
    pub score: usize,
}

/// Marks the rules of a book: writes a mark, 1 to 11, for each at the front of `marks`. Later bytes are as they were.
/// [`marked`](crate::marked) makes its own room.
///
/// # Errors
/// The first that holds: of the book, input 0, refusals 1 to 11, 17 and 18; then 12, of input 1 at 0, where there are
/// fewer marks than rules.
pub fn mark(book: &[u8], marks: &mut [u8]) -> Result<Marked, Error> {
    call(|reply| unsafe { sys::ackbo_mark(book.as_ptr(), book.len(), marks.as_mut_ptr(), marks.len(), reply) }).map(
        |[rules, falling, score]| Marked { rules: rules as usize, falling: falling as usize, score: score as usize },
    )
}

/// Puts the marks and margins of a book's rules on a page: writes a line of [`LINE_BYTES`] bytes for each rule at the
/// front of `page`, and gives the count of bytes written. Later bytes are as they were.
///
/// A line has 64 characters and byte 10. Columns 1 to 4 hold the number of the rule, from 0, and 47 to 58 the margin,
/// both right-set; 6 to 45 hold words for the mark, left-set; the rest are spaces. Books whose marks or margins differ
/// never have the same page.
///
/// # Errors
/// The first that holds: of the book, input 0, refusals 1 to 11, 17 and 18; then 19, of input 1 at 0, where the page is
/// shorter than 65 times the count of rules.
///
/// # Cost
/// That of [`mark`], and of writing the lines.
///
/// ```
/// // Two constants of weight 1 with ranks 1 and 0; the rules 0 -> 1 and 1 -> 0.
/// let sheet = [2, 2, 1, 2, 0, 0, 1, 1, 0, 0, 1, 0, 0, 1, 1, 0];
/// let mut book = [0; 17];
/// assert_eq!(ackbo::encode(&sheet, &mut book), Ok(17));
///
/// let mut page = [0; 2 * ackbo::LINE_BYTES];
/// assert_eq!(ackbo::page(&book, &mut page), Ok(130));
/// assert_eq!(page[..65], *b"   0 falls by rank                                       0      \n");
/// assert_eq!(page[65..], *b"   1 no case                                             0      \n");
///
/// let error = ackbo::page(&book, &mut page[..129]).unwrap_err();
/// assert_eq!((error.code, error.input, error.offset), (19, 1, 0));
/// ```
pub fn page(book: &[u8], page: &mut [u8]) -> Result<usize, Error> {
    call(|reply| unsafe { sys::ackbo_page(book.as_ptr(), book.len(), page.as_mut_ptr(), page.len(), reply) })
        .map(|[count, _, _]| count as usize)
}
