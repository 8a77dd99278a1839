//! The operations with room of their own: what they write comes back in a vector.

use alloc::vec;
use alloc::vec::Vec;

use crate::layout::{head_len, rules, HEADER_WORDS, MAX_BYTES, MAX_RULES, MAX_WORDS};
use crate::{compare, convert, count, decode, encode, list, mark, page, Error, Mark, Marked, TermCount, LINE_BYTES};

/// The fewest bits of a book, on the whole, for a word of its sheet: those of a variable.
const LEAST_BITS: usize = 5;

/// The sheet of a book, by [`decode`].
///
/// # Errors
/// Those of the book, input 0.
pub fn decoded(book: &[u8]) -> Result<Vec<u16>, Error> {
    let mut words = vec![0; (book.len() * 8 / LEAST_BITS).min(MAX_WORDS)];
    let count = decode(book, &mut words)?;
    words.truncate(count);
    Ok(words)
}

/// The book of a sheet, by [`encode`].
///
/// # Errors
/// Those of the sheet, input 0.
pub fn encoded(sheet: &[u16]) -> Result<Vec<u8>, Error> {
    let mut book = vec![0; size_of_val(sheet).min(MAX_BYTES)];
    let count = encode(sheet, &mut book)?;
    book.truncate(count);
    Ok(book)
}

/// The book of form 2 that a stored one of form 1 becomes, by [`convert`].
///
/// # Errors
/// Those of the book, input 0.
pub fn converted(book: &[u8]) -> Result<Vec<u8>, Error> {
    let mut converted = vec![0; book.len().min(MAX_BYTES)];
    convert(book, &mut converted)?;
    Ok(converted)
}

/// The words of the variable-free terms of `n` nodes under a book, `n` for each, by [`list`].
///
/// # Errors
/// Those of [`count`], input 0; then 23, of input 1 at 0, where there are more terms than 65,535.
///
/// ```
/// // 01's sample: the constants o, z, b are 0, 1, 2; + is 3, neg 4 and sub 5.
/// let sheet = [2, 6, 1, 0, 0, 0, 1, 0, 0, 0, 1, 1, 0, 0, 3, 2, 2, 1, 1, 3, 1, 0, 1, 4, 2, 0, 1, 5];
/// let book = ackbo::encoded(&sheet).unwrap();
/// assert_eq!(ackbo::listed(&book, 2).unwrap(), [4, 0, 4, 1, 4, 2]);
/// assert_eq!(ackbo::listed(&book, 7).unwrap().len(), 7 * 6_753);
/// ```
pub fn listed(book: &[u8], n: usize) -> Result<Vec<u16>, Error> {
    let room = match count(book, n)? {
        TermCount::Exactly(terms) => n * terms,
        TermCount::More => 0,
    };
    let mut words = vec![0; room];
    list(book, &mut words, n)?;
    Ok(words)
}

/// The marks of a book's rules, by [`mark`], and what it replies. The book is accepted if as many rules fall as there
/// are.
///
/// # Errors
/// Those of the book, input 0.
///
/// ```
/// use ackbo::Mark;
///
/// // Two constants of weight 1 with ranks 1 and 0; the rules 0 -> 1 and 1 -> 0.
/// let book = ackbo::encoded(&[2, 2, 1, 2, 0, 0, 1, 1, 0, 0, 1, 0, 0, 1, 1, 0]).unwrap();
/// let (marked, marks) = ackbo::marked(&book).unwrap();
/// assert_eq!((marked.rules, marked.falling, marked.score), (2, 1, 50));
/// assert_eq!(marks, [Mark::FallsByRank, Mark::NoCase]);
/// ```
pub fn marked(book: &[u8]) -> Result<(Marked, Vec<Mark>), Error> {
    let mut marks = [0; MAX_RULES];
    let reply = mark(book, &mut marks)?;
    let known = |&number: &u8| Mark::new(number).unwrap_or_else(|| unreachable!("{number} is no mark"));
    Ok((reply, marks[..reply.rules].iter().map(known).collect()))
}

/// The mark and the margin of each rule of a book, and what [`mark`] replies. A margin is the weight of the left side
/// less that of the right one.
///
/// # Errors
/// Those of the book, input 0.
///
/// # Cost
/// That of [`decode`] and [`mark`], and of a [`compare`] for each rule, under a book of the same symbols without rules.
///
/// ```
/// use ackbo::Mark;
///
/// // w0 = 1, a constant z, an AC symbol +, both of weight 1; the rule u+z -> u.
/// let book = ackbo::encoded(&[2, 2, 1, 1, 0, 0, 1, 0, 2, 1, 1, 1, 1, 256, 0, 256]).unwrap();
/// assert_eq!(ackbo::marked_with_margins(&book).unwrap().1, [(Mark::FallsByWeight, 2)]);
/// ```
pub fn marked_with_margins(book: &[u8]) -> Result<(Marked, Vec<(Mark, i64)>), Error> {
    let (reply, marks) = marked(book)?;
    let sheet = decoded(book)?;
    let mut symbols = sheet[..head_len(&sheet)].to_vec();
    symbols[HEADER_WORDS - 1] = 0;
    let symbols = encoded(&symbols)?;
    let margin = |(left, right)| compare(&symbols, left, right).map(|comparison| comparison.margin);
    let margins = rules(&sheet).map(margin).collect::<Result<Vec<_>, _>>()?;
    Ok((reply, marks.into_iter().zip(margins).collect()))
}

/// The page of a book, by [`page`].
///
/// # Errors
/// Those of the book, input 0.
///
/// ```
/// // Two constants of weight 1 with ranks 1 and 0; the rules 0 -> 1 and 1 -> 0.
/// let book = ackbo::encoded(&[2, 2, 1, 2, 0, 0, 1, 1, 0, 0, 1, 0, 0, 1, 1, 0]).unwrap();
/// let page = ackbo::paged(&book).unwrap();
/// assert!(page.starts_with(b"   0 falls by rank "));
/// assert_eq!(page.len(), 2 * ackbo::LINE_BYTES);
/// ```
pub fn paged(book: &[u8]) -> Result<Vec<u8>, Error> {
    let mut text = vec![0; MAX_RULES * LINE_BYTES];
    let count = page(book, &mut text)?;
    text.truncate(count);
    Ok(text)
}

/// The example of `README.md` compiles.
#[cfg(doctest)]
#[doc = include_str!("../README.md")]
struct Readme;
