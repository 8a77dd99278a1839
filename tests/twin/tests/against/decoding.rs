//! Opening books.

use twin::generate::{damaged_packed, Book, Random, Signature};

use crate::check::decode;
use crate::counts::{Counts, BOOK_ERRORS};
use crate::SEED;

const MIN_CALLS: usize = 110_000;
/// Small books that are cut and changed at every place.
const SMALL_BOOKS: usize = 60;
const BOOKS: usize = 3_500;
/// The damaged copies of each book.
const DAMAGED: usize = 18;
const LARGEST_BOOKS: usize = 32;
/// The most bytes of a book.
const MAX_BYTES: usize = 32_768;

#[test]
fn decoding_agrees_with_the_twin() {
    let mut random = Random::new(SEED);
    let mut counts = Counts::default();
    decode_lengths(&mut counts);
    for _ in 0..SMALL_BOOKS {
        let book = Book::random(&mut random, 2);
        decode_everywhere(&mut counts, &book);
        decode_everywhere(&mut counts, &Book::empty(book.signature));
    }
    for _ in 0..BOOKS {
        let book = Book::any(&mut random, 24);
        decode_some(&mut random, &mut counts, &book);
    }
    for round in 0..LARGEST_BOOKS {
        decode_largest(&mut random, &mut counts, round % 2 == 0);
    }
    counts.print("decoding");
    counts.require(0, &BOOK_ERRORS);
    counts.require(1, &[13]);
    counts.require(2, &[]);
    assert!(counts.calls() >= MIN_CALLS, "{}", counts.calls());
}

/// Books of one repeated byte, from none to more than any book has.
fn decode_lengths(counts: &mut Counts) {
    for byte in [0x00, 0x10, 0x20, 0x30, 0xff] {
        for len in [0, 1, 2, 3, 4, 5, 8, 9, MAX_BYTES - 1, MAX_BYTES, MAX_BYTES + 1, 2 * MAX_BYTES] {
            counts.add(&decode(&vec![byte; len], 0));
            counts.add(&decode(&vec![byte; len], 8));
        }
    }
}

/// Every room, every cut and every flipped bit.
fn decode_everywhere(counts: &mut Counts, book: &Book) {
    let (packed, words) = (book.packed(), book.words().len());
    for room in 0..=words + 2 {
        counts.add(&decode(&packed, room));
    }
    for len in 0..packed.len() {
        counts.add(&decode(&packed[..len], words));
    }
    for bit in 0..8 * packed.len() {
        let mut flipped = packed.clone();
        flipped[bit / 8] ^= 0x80 >> (bit % 8);
        counts.add(&decode(&flipped, words + bit % 2));
    }
}

fn decode_some(random: &mut Random, counts: &mut Counts, book: &Book) {
    let (packed, words) = (book.packed(), book.words().len());
    for room in [0, words.saturating_sub(1), words, words + 1, random.below(2 * words)] {
        counts.add(&decode(&packed, room));
    }
    for _ in 0..DAMAGED {
        counts.add(&decode(&damaged_packed(random, book), words + random.below(200)));
    }
    counts.add(&decode(&book.aged(random).packed(), words));
}

fn decode_largest(random: &mut Random, counts: &mut Counts, many_rules: bool) {
    let book = Book::largest(random, many_rules);
    let (packed, words) = (book.packed(), book.words().len());
    for room in [0, words - 1, words, words + 1, 2 * words] {
        counts.add(&decode(&packed, room));
    }
    for _ in 0..20 {
        let mut changed = packed.clone();
        let at = random.below(changed.len());
        changed[at] ^= 1 << random.below(8);
        counts.add(&decode(&changed, 2 * words));
        counts.add(&decode(&packed[..at], words));
    }
    counts.add(&decode(&[packed.as_slice(), &[0]].concat(), words));
    counts.add(&decode(&Book::empty(Signature::complete(random, true)).packed(), words));
}
