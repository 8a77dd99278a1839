//! Fingerprints of terms.

use crate::error::call;
use crate::{sys, Error};

/// The fingerprint of a term, given as its node words in prefix order, under a book. AC-equal terms always agree.
///
/// A leaf's is its word plus 1. A symbol q that is not AC starts at q + 1; for each argument the value becomes 31 times
/// itself plus the argument's fingerprint. An AC symbol q gives 65,599 times (q + 1) plus the fingerprints of its bag.
/// All of it wraps at 32 bits. Terms that are not AC-equal may share a fingerprint: a cache that finds a term in its
/// drawer asks [`compare`](crate::compare) whether it is the one.
///
/// # Errors
/// The first that holds: of the book, input 0, refusals 1 to 11, 17 and 18; of the term, input 1, at the word of each
/// node: 10, a 129th node is called for; 2, the word is missing; 14, it is above 271; 9, it is a symbol number too
/// great for the book; then 15, words are left over, at the first of them.
///
/// # Cost
/// Each call reads its whole book; past that, the cost grows with the nodes of the term, however its bags nest.
///
/// ```
/// // 01's sample: o, z, b are 0, 1, 2; + is 3 and AC; neg is 4 and sub 5; the variable u is 256.
/// let sheet = [2, 6, 1, 0, 0, 0, 1, 0, 0, 0, 1, 1, 0, 0, 3, 2, 2, 1, 1, 3, 1, 0, 1, 4, 2, 0, 1, 5];
/// let mut book = [0; 26];
/// assert_eq!(ackbo::encode(&sheet, &mut book), Ok(26));
///
/// // o+z and z+o; sub(z,o).
/// assert_eq!(ackbo::fingerprint(&book, &[3, 0, 1]), Ok(262_399));
/// assert_eq!(ackbo::fingerprint(&book, &[3, 1, 0]), Ok(262_399));
/// assert_eq!(ackbo::fingerprint(&book, &[5, 1, 0]), Ok(5_829));
///
/// // neg(u)+o and u+neg(o) share one, and are unrelated.
/// let (left, right) = ([3, 4, 256, 0], [3, 256, 4, 0]);
/// assert_eq!(ackbo::fingerprint(&book, &left), ackbo::fingerprint(&book, &right));
/// assert_eq!(ackbo::compare(&book, &left, &right).unwrap().relation, ackbo::Relation::Unrelated);
///
/// // A word after the term.
/// let error = ackbo::fingerprint(&book, &[256, 0]).unwrap_err();
/// assert_eq!((error.code, error.input, error.offset), (15, 1, 1));
/// ```
pub fn fingerprint(book: &[u8], term: &[u16]) -> Result<u32, Error> {
    call(|reply| unsafe { sys::ackbo_fingerprint(book.as_ptr(), book.len(), term.as_ptr(), term.len(), reply) })
        .map(|[value, _, _]| value as u32)
}
