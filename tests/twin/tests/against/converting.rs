//! Converting books of form 1.

use twin::format::System;
use twin::generate::{damaged_packed, Book, Random, Signature};
use twin::marking::orientations;

use crate::check::{convert, decode, mark};
use crate::counts::{Counts, OLD_BOOK_ERRORS};
use crate::SEED;

/// The valid books of form 1.
const BOOKS: usize = 100_000;
/// Small books that are cut and changed at every place.
const SMALL_BOOKS: usize = 40;
const DAMAGED_BOOKS: usize = 40_000;
const LARGEST_BOOKS: usize = 32;
/// The least count of variable numbers that change.
const MIN_RENUMBERED: usize = 1_000_000;

#[derive(Default)]
struct Tally {
    counts: Counts,
    /// The rules of converted books, and their variables whose number changes.
    rules: usize,
    renumbered: usize,
}

impl Tally {
    fn convert(&mut self, packed: &[u8], room: usize) {
        self.counts.add(&convert(packed, room));
    }

    /// Converts a book of form 1 with room enough: the result is the book in turn, it opens, and it has the marks of
    /// the old one as the twin reads that.
    fn convert_valid(&mut self, random: &mut Random, book: &Book) {
        let old = book.aged(random);
        let packed = old.packed();
        let result = convert(&packed, packed.len() + random.below(3));
        self.counts.add(&result);
        let converted = result.expect("an aged book is of form 1");
        assert_eq!(converted, book.packed());
        let words = decode(&converted, book.words().len());
        assert!(words.is_ok(), "{words:?}");
        let system = System::from_old(&packed).expect("an aged book is of form 1");
        let old_marks: Vec<u8> = orientations(&system).map(|(orientation, _)| orientation as u8).collect();
        let marked = mark(&converted, old_marks.len());
        assert_eq!(marked.map(|(_, marks)| marks), Ok(old_marks));
        self.rules += book.rules.len();
        self.renumbered += old.words().iter().zip(book.words()).skip(1).filter(|(old, new)| *old != new).count();
    }
}

#[test]
fn converting_agrees_with_the_twin() {
    let mut random = Random::new(SEED + 7);
    let mut tally = Tally::default();
    for _ in 0..BOOKS {
        let book = Book::any(&mut random, 12).without_wrapper();
        tally.convert_valid(&mut random, &book);
    }
    for _ in 0..SMALL_BOOKS {
        let book = Book::of_all_variables(&mut random, 2, 16);
        convert_everywhere(&mut tally, &book.aged(&mut random));
        convert_everywhere(&mut tally, &Book::empty(book.signature).aged(&mut random));
    }
    for _ in 0..DAMAGED_BOOKS {
        convert_damaged(&mut random, &mut tally);
    }
    for round in 0..LARGEST_BOOKS {
        convert_largest(&mut random, &mut tally, round % 2 == 0);
    }
    tally.counts.print("converting");
    println!("  rules converted: {}, variables renumbered: {}", tally.rules, tally.renumbered);
    tally.counts.require(0, &OLD_BOOK_ERRORS);
    tally.counts.require(1, &[16]);
    tally.counts.require(2, &[]);
    assert!(tally.renumbered >= MIN_RENUMBERED, "{}", tally.renumbered);
}

/// Every room, every cut and every flipped bit.
fn convert_everywhere(tally: &mut Tally, old: &Book) {
    let packed = old.packed();
    for room in 0..=packed.len() + 2 {
        tally.convert(&packed, room);
    }
    for len in 0..packed.len() {
        tally.convert(&packed[..len], packed.len());
    }
    for bit in 0..8 * packed.len() {
        let mut flipped = packed.clone();
        flipped[bit / 8] ^= 0x80 >> (bit % 8);
        tally.convert(&flipped, packed.len() + bit % 2);
    }
}

/// A damaged book with room enough or too little, and a book of form 2.
fn convert_damaged(random: &mut Random, tally: &mut Tally) {
    let book = Book::random(random, 6);
    let old = book.aged(random);
    let packed = damaged_packed(random, &old);
    tally.convert(&packed, packed.len() + random.below(3));
    tally.convert(&packed, random.below(packed.len() + 1));
    if random.one_in(8) {
        tally.convert(&book.packed(), packed.len());
    }
}

fn convert_largest(random: &mut Random, tally: &mut Tally, many_rules: bool) {
    let book = Book::largest(random, many_rules).without_wrapper();
    tally.convert_valid(random, &book);
    let all_symbols = Book::empty(Signature::complete(random, true)).without_wrapper();
    tally.convert_valid(random, &all_symbols);
    let packed = book.aged(random).packed();
    for room in [0, packed.len() - 1, packed.len(), 2 * packed.len()] {
        tally.convert(&packed, room);
    }
    for _ in 0..20 {
        let mut changed = packed.clone();
        let at = random.below(changed.len());
        changed[at] ^= 1 << random.below(8);
        tally.convert(&changed, packed.len());
        tally.convert(&packed[..at], packed.len());
    }
    tally.convert(&[packed.as_slice(), &[0]].concat(), packed.len() + 1);
}
