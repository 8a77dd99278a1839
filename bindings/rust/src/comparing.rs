//! Comparing two terms, and the variable test.

use core::cmp::Ordering;

use crate::error::call;
use crate::{sys, Error};

/// The count of variables, which is the number that `ackbo_oftener` replies for none.
const VARIABLES: i64 = 16;

/// How the left term stands to the right one.
#[derive(Clone, Copy, Debug, PartialEq, Eq, Hash)]
pub enum Relation {
    /// The left term is greater.
    Greater,
    /// The right term is greater.
    Less,
    /// The terms are AC-equal.
    Equivalent,
    /// None of these.
    Unrelated,
}

impl Relation {
    /// The relation as an ordering, none of unrelated terms.
    ///
    /// ```
    /// use std::cmp::Ordering;
    /// use ackbo::Relation;
    ///
    /// assert_eq!(Relation::Less.ordering(), Some(Ordering::Less));
    /// assert_eq!(Relation::Equivalent.ordering(), Some(Ordering::Equal));
    /// assert_eq!(Relation::Unrelated.ordering(), None);
    /// ```
    pub fn ordering(self) -> Option<Ordering> {
        match self {
            Relation::Greater => Some(Ordering::Greater),
            Relation::Less => Some(Ordering::Less),
            Relation::Equivalent => Some(Ordering::Equal),
            Relation::Unrelated => None,
        }
    }
}

/// The relation of two terms, and the weight of the left less that of the right.
#[derive(Clone, Copy, Debug, PartialEq, Eq, Hash)]
pub struct Comparison {
    /// How the left term stands to the right one.
    pub relation: Relation,
    /// The weight of the left term less that of the right one.
    pub margin: i64,
}

/// Compares two terms, each as its node words in prefix order, under a book.
///
/// # Errors
/// The first that holds: of the book, input 0, refusals 1 to 11, 17 and 18; of `left`, input 1, then of `right`, input
/// 2, at the word of each node: 10, a 129th node is called for; 2, the word is missing; 14, it is above 271; 9, it is a
/// symbol number too great for the book; then 15, words are left over, at the first of them.
///
/// # Cost
/// Each call reads its whole book, then each term, and compares them.
pub fn compare(book: &[u8], left: &[u16], right: &[u16]) -> Result<Comparison, Error> {
    call(|reply| unsafe {
        sys::ackbo_compare(book.as_ptr(), book.len(), left.as_ptr(), left.len(), right.as_ptr(), right.len(), reply)
    })
    .map(|[relation, margin, _]| Comparison {
        relation: match relation {
            1 => Relation::Greater,
            2 => Relation::Less,
            3 => Relation::Equivalent,
            4 => Relation::Unrelated,
            number => unreachable!("{number} is no relation"),
        },
        margin,
    })
}

/// The lowest variable, 0 to 15, that occurs oftener in the right term than in the left one, if one does. The terms are
/// given as their node words in prefix order, under a book.
///
/// A rule from left to right gets mark 7 exactly if there is one, whatever its sides weigh: its author takes that
/// variable out of the right side, or puts it into the left one, and asks again for the next.
///
/// # Errors
/// Those of [`compare`], the first that holds: of the book, input 0, refusals 1 to 11, 17 and 18; of `left`, input 1,
/// then of `right`, input 2, at the word of each node: 10, a 129th node is called for; 2, the word is missing; 14, it
/// is above 271; 9, it is a symbol number too great for the book; then 15, words are left over, at the first of them.
///
/// # Cost
/// Each call reads its whole book; past that, the cost grows with the nodes of the two terms, which are not compared.
///
/// ```
/// // 01's sample: o, z, b are 0, 1, 2; + is 3 and AC; neg is 4 and sub 5; the variables u, v, w are 256, 257, 258.
/// let sheet = [2, 6, 1, 0, 0, 0, 1, 0, 0, 0, 1, 1, 0, 0, 3, 2, 2, 1, 1, 3, 1, 0, 1, 4, 2, 0, 1, 5];
/// let mut book = [0; 26];
/// assert_eq!(ackbo::encode(&sheet, &mut book), Ok(26));
///
/// // In v+w, both v and w occur oftener than in u+u; u does not.
/// assert_eq!(ackbo::oftener(&book, &[3, 256, 256], &[3, 257, 258]), Ok(Some(1)));
/// // u occurs once in u+z and twice in u+u, but not the other way.
/// assert_eq!(ackbo::oftener(&book, &[3, 256, 1], &[3, 256, 256]), Ok(Some(0)));
/// assert_eq!(ackbo::oftener(&book, &[3, 256, 256], &[3, 256, 1]), Ok(None));
///
/// // The left term has the symbol 6.
/// let error = ackbo::oftener(&book, &[4, 6], &[256]).unwrap_err();
/// assert_eq!((error.code, error.input, error.offset), (9, 1, 1));
/// ```
pub fn oftener(book: &[u8], left: &[u16], right: &[u16]) -> Result<Option<u8>, Error> {
    call(|reply| unsafe {
        sys::ackbo_oftener(book.as_ptr(), book.len(), left.as_ptr(), left.len(), right.as_ptr(), right.len(), reply)
    })
    .map(|[variable, _, _]| (variable < VARIABLES).then_some(variable as u8))
}
