//! The layout of a sheet, and the limits of books and sheets.
//!
//! A sheet holds the fields of a book in their order, a 16-bit word each:
//!
//! | words | field | values |
//! |---|---|---|
//! | 0 | the form | 2 |
//! | 1 | K, the count of symbols | 1 to 255 |
//! | 2 | w0, the weight of a variable | 1 to 65,535 |
//! | 3 | N, the count of rules | 0 to 1,023 |
//! | 4 + 4s | the arity of symbol s, from 0 | 0 to 7 |
//! | 5 + 4s | its AC mark | 1 for an AC symbol, else 0 |
//! | 6 + 4s | its weight | 0 to 65,535 |
//! | 7 + 4s | its rank, the greater the higher | 0 to 255, each once |
//! | from 4 + 4K on | the nodes of each rule, left side first | 0 to K - 1 a symbol, 256 to 271 a variable |
//!
//! A side is a term in prefix order: a symbol, then its arguments. It ends where every symbol has them, so nothing
//! stands between sides. Within a rule, left side first, a variable's first appearance takes the lowest unused number,
//! so the first one is 256. A term, as [`compare`](crate::compare) takes it, is the words of its nodes alone, with
//! variables of any numbers.
//!
//! A constant weighs at least w0, a symbol of arity 1 at least 1 unless its rank is above every other, and an AC symbol
//! has arity 2. `docs/FORMAT.md` in the repository has the bits of a book, and what the fields mean.
//!
//! ```
//! use ackbo::layout::{rules, FIRST_VARIABLE};
//!
//! let u = FIRST_VARIABLE;
//! // Form 2, two symbols, w0 = 1, one rule; a constant, weight 1, rank 0; an AC symbol, weight 1, rank 1.
//! let head = [2, 2, 1, 1, 0, 0, 1, 0, 2, 1, 1, 1];
//! // The rule u+z -> u.
//! let sheet = [&head[..], &[1, u, 0], &[u]].concat();
//! assert_eq!(rules(&sheet).collect::<Vec<_>>(), [(&[1, u, 0][..], &[u][..])]);
//!
//! let book = ackbo::encoded(&sheet).unwrap();
//! assert_eq!(ackbo::decoded(&book).unwrap(), sheet);
//! ```

use core::iter;

/// The most bytes of a book.
pub const MAX_BYTES: usize = 32_768;
/// The most words of a sheet: one symbol, of arity 7, and 1,021 rules whose other nodes are variables.
pub const MAX_WORDS: usize = 47_256;
/// The most symbols of a book.
pub const MAX_SYMBOLS: usize = 255;
/// The most rules of a book.
pub const MAX_RULES: usize = 1_023;
/// The most nodes of a side, and of a term.
pub const MAX_NODES: usize = 128;
/// The count of variables.
pub const VARIABLES: usize = 16;
/// The node word of variable 0.
pub const FIRST_VARIABLE: u16 = 256;
/// The words before the first symbol.
pub const HEADER_WORDS: usize = 4;
/// The words of a symbol.
pub const SYMBOL_WORDS: usize = 4;

/// The left and right side of each rule of a sheet, in order. Of words that no book opens to, it gives the rules up to
/// the first that does not end, or has a symbol that is not there.
pub fn rules(sheet: &[u16]) -> impl Iterator<Item = (&[u16], &[u16])> {
    let (head, mut rest) = sheet.split_at(head_len(sheet));
    let count = head.get(3).copied().unwrap_or(0);
    iter::from_fn(move || Some((first_term(head, &mut rest)?, first_term(head, &mut rest)?))).take(usize::from(count))
}

/// The count of words of the term at the front of words, under the symbols of a sheet; none where the term does not
/// end, or has a symbol that is not there.
///
/// ```
/// use ackbo::layout::{term_len, FIRST_VARIABLE};
///
/// // Form 2, two symbols, w0 = 1, no rule; a constant, weight 1, rank 0; an AC symbol, weight 1, rank 1.
/// let sheet = [2, 2, 1, 0, 0, 0, 1, 0, 2, 1, 1, 1];
/// assert_eq!(term_len(&sheet, &[1, FIRST_VARIABLE, 0, 0, 0]), Some(3));
/// assert_eq!(term_len(&sheet, &[1, FIRST_VARIABLE]), None);
/// assert_eq!(term_len(&sheet, &[2]), None);
/// ```
pub fn term_len(sheet: &[u16], words: &[u16]) -> Option<usize> {
    first_term(&sheet[..head_len(sheet)], &mut { words }).map(<[u16]>::len)
}

/// The count of words before the first rule.
pub(crate) fn head_len(sheet: &[u16]) -> usize {
    let symbols = sheet.get(1).copied().unwrap_or(0);
    (HEADER_WORDS + SYMBOL_WORDS * usize::from(symbols)).min(sheet.len())
}

/// Takes the first term off the nodes of a sheet with this head, if there is one.
fn first_term<'a>(head: &[u16], nodes: &mut &'a [u16]) -> Option<&'a [u16]> {
    let (mut owed, mut len) = (1, 0);
    while owed > 0 {
        let node = *nodes.get(len)?;
        let symbol = HEADER_WORDS + SYMBOL_WORDS * usize::from(node);
        let arity = if node < FIRST_VARIABLE { *head.get(symbol)? } else { 0 };
        owed = owed - 1 + usize::from(arity);
        len += 1;
    }
    let (term, rest) = nodes.split_at(len);
    *nodes = rest;
    Some(term)
}
