//! Picking the greater of two terms.

use crate::error::call;
use crate::{sys, Error};

/// Which of two terms is greater, with its words, a part of the caller's own; or why neither is.
#[derive(Clone, Copy, Debug, PartialEq, Eq, Hash)]
pub enum Side<'a> {
    /// The left term is greater; its words are the front of the left ones.
    Left(&'a [u16]),
    /// The right term is greater; its words are the front of the right ones.
    Right(&'a [u16]),
    /// The terms are AC-equal.
    Equivalent,
    /// Neither is greater, and they are not AC-equal.
    Unrelated,
}

impl<'a> Side<'a> {
    /// The words of the greater term, none if neither is greater.
    pub fn part(self) -> &'a [u16] {
        match self {
            Side::Left(part) | Side::Right(part) => part,
            Side::Equivalent | Side::Unrelated => &[],
        }
    }
}

/// Picks the greater of two terms under a book. Each term stands at the front of its words, in prefix order; what
/// follows it is never looked at.
///
/// The part that comes back is the front of `left` or of `right`, not a copy. An author's equation `s = t` becomes the
/// rule from the picked part to the other term. No part is picked where the terms are AC-equal or unrelated.
///
/// # Errors
/// The first that holds: of the book, input 0, refusals 1 to 11, 17 and 18; of `left`, input 1, then of `right`, input
/// 2, at the word of each node: 10, a 129th node is called for; 2, the word is missing; 14, it is above 271; 9, it is a
/// symbol number too great for the book.
///
/// # Cost
/// That of [`compare`](crate::compare) on the two terms: each call reads its whole book, then each term, and compares
/// them. What follows a term costs nothing.
///
/// ```
/// use ackbo::Side;
///
/// // 01's sample: o, z, b are 0, 1, 2; + is 3 and AC; neg is 4 and sub 5; the variable u is 256.
/// let sheet = [2, 6, 1, 0, 0, 0, 1, 0, 0, 0, 1, 1, 0, 0, 3, 2, 2, 1, 1, 3, 1, 0, 1, 4, 2, 0, 1, 5];
/// let mut book = [0; 26];
/// assert_eq!(ackbo::encode(&sheet, &mut book), Ok(26));
///
/// // u+z is greater than u; the words after both are not looked at.
/// let (sum, u) = ([3, 256, 1, 9999], [256, 0]);
/// assert_eq!(ackbo::pick(&book, &sum, &u), Ok(Side::Left(&sum[..3])));
/// assert_eq!(ackbo::pick(&book, &u, &sum), Ok(Side::Right(&sum[..3])));
/// assert_eq!(ackbo::pick(&book, &u, &sum).unwrap().part(), [3, 256, 1]);
///
/// // z+o and o+z are AC-equal; b and u are unrelated, since u occurs in one alone.
/// assert_eq!(ackbo::pick(&book, &[3, 1, 0], &[3, 0, 1]), Ok(Side::Equivalent));
/// assert_eq!(ackbo::pick(&book, &[2], &u), Ok(Side::Unrelated));
///
/// // The second argument of the right term is missing.
/// let error = ackbo::pick(&book, &sum, &[3, 256]).unwrap_err();
/// assert_eq!((error.code, error.input, error.offset), (2, 2, 2));
/// ```
pub fn pick<'a>(book: &[u8], left: &'a [u16], right: &'a [u16]) -> Result<Side<'a>, Error> {
    call(|reply| unsafe {
        sys::ackbo_pick(book.as_ptr(), book.len(), left.as_ptr(), left.len(), right.as_ptr(), right.len(), reply)
    })
    .map(|[side, count, _]| match side {
        1 => Side::Left(&left[..count as usize]),
        2 => Side::Right(&right[..count as usize]),
        3 => Side::Equivalent,
        4 => Side::Unrelated,
        number => unreachable!("{number} is no side"),
    })
}
