//! Whole calls of the operations, with outputs of every length.

use super::{damaged_packed, damaged_term, damaged_words, followed, Book, Random};
use crate::page::LINE_BYTES;
use crate::table::{MAX_NODES, VARIABLES};
use crate::{compare, convert, decode, encode, fingerprint, mark, oftener, page, pick};
use crate::{Comparison, Error, Marked, Pick};

/// The rules of most generated rule files.
const FEW_RULES: usize = 24;
/// What outputs hold before a call.
pub const UNTOUCHED: u8 = 0xa5;

/// A call with its inputs; `room` is the length of the output.
#[derive(Clone, Debug)]
pub enum Call {
    Decode { book: Vec<u8>, room: usize },
    Encode { words: Vec<u16>, room: usize },
    Compare { book: Vec<u8>, left: Vec<u16>, right: Vec<u16> },
    Mark { book: Vec<u8>, room: usize },
    Pick { book: Vec<u8>, left: Vec<u16>, right: Vec<u16> },
    Fingerprint { book: Vec<u8>, term: Vec<u16> },
    Oftener { book: Vec<u8>, left: Vec<u16>, right: Vec<u16> },
    Convert { book: Vec<u8>, room: usize },
    Page { book: Vec<u8>, room: usize },
}

/// The reply to a call, and the output after it; the output held `UNTOUCHED` in each place before.
#[derive(Clone, Debug, PartialEq, Eq)]
pub enum Reply {
    Decode(Result<usize, Error>, Vec<u16>),
    Encode(Result<usize, Error>, Vec<u8>),
    Compare(Result<Comparison, Error>),
    Mark(Result<Marked, Error>, Vec<u8>),
    Pick(Result<Pick, Error>),
    Fingerprint(Result<u32, Error>),
    Oftener(Result<usize, Error>),
    Convert(Result<usize, Error>, Vec<u8>),
    Page(Result<usize, Error>, Vec<u8>),
}

impl Call {
    /// This crate's reply.
    pub fn run(&self) -> Reply {
        match self {
            Call::Decode { book, room } => {
                let mut words = vec![u16::from(UNTOUCHED); *room];
                Reply::Decode(decode(book, &mut words), words)
            }
            Call::Encode { words, room } => {
                let mut book = vec![UNTOUCHED; *room];
                Reply::Encode(encode(words, &mut book), book)
            }
            Call::Compare { book, left, right } => Reply::Compare(compare(book, left, right)),
            Call::Mark { book, room } => {
                let mut marks = vec![UNTOUCHED; *room];
                Reply::Mark(mark(book, &mut marks), marks)
            }
            Call::Pick { book, left, right } => Reply::Pick(pick(book, left, right)),
            Call::Fingerprint { book, term } => Reply::Fingerprint(fingerprint(book, term)),
            Call::Oftener { book, left, right } => Reply::Oftener(oftener(book, left, right)),
            Call::Convert { book, room } => {
                let mut converted = vec![UNTOUCHED; *room];
                Reply::Convert(convert(book, &mut converted), converted)
            }
            Call::Page { book, room } => {
                let mut lines = vec![UNTOUCHED; *room];
                Reply::Page(page(book, &mut lines), lines)
            }
        }
    }
}

impl Reply {
    /// The error, if the call was refused.
    pub fn error(&self) -> Option<Error> {
        match self {
            Reply::Decode(result, _) | Reply::Oftener(result) => result.err(),
            Reply::Encode(result, _) | Reply::Convert(result, _) | Reply::Page(result, _) => result.err(),
            Reply::Compare(result) => result.err(),
            Reply::Mark(result, _) => result.err(),
            Reply::Pick(result) => result.err(),
            Reply::Fingerprint(result) => result.err(),
        }
    }
}

/// A call of any operation: half of them on valid inputs, half on damaged ones or with too short an output.
pub fn call(random: &mut Random) -> Call {
    let many_rules = random.one_in(2);
    let book = if random.one_in(256) { Book::largest(random, many_rules) } else { Book::random(random, FEW_RULES) };
    let intact = random.one_in(2);
    match random.below(9) {
        0 => {
            let packed = if intact { book.packed() } else { damaged_packed(random, &book) };
            Call::Decode { book: packed, room: room(random, book.words().len()) }
        }
        1 => encode_call(random, &book, intact),
        2 => {
            let (book, left, right) = terms(random, &book, intact);
            Call::Compare { book, left, right }
        }
        3 => {
            let packed = if intact { book.packed() } else { damaged_packed(random, &book) };
            Call::Mark { book: packed, room: room(random, book.rules.len()) }
        }
        4 => pick_call(random, &book, intact),
        5 => {
            let (book, term, _) = terms(random, &book, intact);
            Call::Fingerprint { book, term }
        }
        6 => {
            let (book, left, right) = terms(random, &book, intact);
            Call::Oftener { book, left, right }
        }
        7 => {
            let old = book.aged(random);
            let packed = if intact { old.packed() } else { damaged_packed(random, &old) };
            let room = room(random, packed.len());
            Call::Convert { book: packed, room }
        }
        _ => {
            let packed = if intact { book.packed() } else { damaged_packed(random, &book) };
            Call::Page { book: packed, room: room(random, LINE_BYTES * book.rules.len()) }
        }
    }
}

/// A length of an output that needs `len` places: mostly just enough or a few more, at times too short.
fn room(random: &mut Random, len: usize) -> usize {
    match random.below(8) {
        0 => random.below(len + 1),
        1 => len.saturating_sub(1),
        2..=4 => len + random.below(5),
        _ => len,
    }
}

fn encode_call(random: &mut Random, book: &Book, intact: bool) -> Call {
    if random.one_in(64) {
        return Call::Encode { words: overlong_words(random), room: room(random, 1 << 15) };
    }
    let words = if intact { book.words() } else { damaged_words(random, book) };
    Call::Encode { words, room: room(random, book.packed().len()) }
}

/// The words of a rule file with more bytes than it may have.
fn overlong_words(random: &mut Random) -> Vec<u16> {
    let mut book = Book::largest(random, false);
    let rule = book.rules[0].clone();
    book.rules.push(rule);
    book.words()
}

/// Terms at times followed by other words.
fn pick_call(random: &mut Random, book: &Book, intact: bool) -> Call {
    let (book, mut left, mut right) = terms(random, book, intact);
    for term in [&mut left, &mut right] {
        if random.one_in(2) {
            *term = followed(random, term);
        }
    }
    Call::Pick { book, left, right }
}

/// A packed rule file and two terms: aimed at a mark or at a variable that occurs oftener on the right, or random ones,
/// at times too long or otherwise at fault.
fn terms(random: &mut Random, book: &Book, intact: bool) -> (Vec<u8>, Vec<u16>, Vec<u16>) {
    let size = if random.one_in(8) { MAX_NODES / 4 } else { 8 };
    let (left, right) = if random.one_in(4) {
        let lowest = random.between(0, VARIABLES);
        book.signature.oftener_pair(random, lowest, size)
    } else {
        let mark = random.between(1, 12) as u8;
        book.signature.pair_in_context(random, mark, size)
    };
    let (mut left, mut right) = (left.words(), right.words());
    if random.one_in(16) {
        left = book.signature.sized_words(random, MAX_NODES);
        right = book.signature.sized_words(random, MAX_NODES);
    }
    let mut packed = book.packed();
    if !intact {
        match random.below(4) {
            0 => packed = damaged_packed(random, book),
            1 => left = damaged_term(random, book, &left),
            2 => right = damaged_term(random, book, &right),
            _ => {
                left = damaged_term(random, book, &left);
                right = damaged_term(random, book, &right);
            }
        }
    }
    (packed, left, right)
}
