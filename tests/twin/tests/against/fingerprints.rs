//! Fingerprints of terms.

use twin::format::System;
use twin::generate::{damaged_packed, damaged_term, families, Book, Random, Tree};
use twin::table::{Symbol, MAX_NODES};
use twin::Error;

use crate::check::fingerprint;
use crate::comparing::large_pair;
use crate::counts::{Counts, BOOK_ERRORS, TERM_ERRORS};
use crate::SEED;

const MIN_ACCEPTED: usize = 100_000;
const MIN_EQUIVALENT: usize = 8_000;
const MIN_WRAPPED: usize = 10_000;
const MIN_FULL: usize = 5_000;
const BOOKS: usize = 1_600;
/// The pairs of terms for each book: small ones, ones of up to 128 nodes; damaged terms, and terms under damaged books.
const SMALL_PAIRS: usize = 24;
const LARGE_PAIRS: usize = 4;
const DAMAGED_TERMS: usize = 12;
const DAMAGED_BOOKS: usize = 6;

#[derive(Default)]
struct Tally {
    counts: Counts,
    /// The pairs of AC-equivalent terms, in different words.
    equivalent: usize,
    /// The terms whose fingerprint is past 32 bits before it wraps.
    wrapped: usize,
    /// The terms of 128 nodes.
    full: usize,
}

impl Tally {
    fn add(&mut self, result: Result<u32, Error>) {
        self.counts.add(&result);
    }

    /// A term under a book of these symbols.
    fn add_term(&mut self, book: &[u8], symbols: &[Symbol], term: &[u16]) -> Result<u32, Error> {
        let result = fingerprint(book, term);
        self.add(result);
        if let Ok(value) = result {
            let unwrapped = unwrapped(symbols, &Tree::from_words(symbols, term));
            assert!(unwrapped == u64::MAX || unwrapped as u32 == value, "{unwrapped} wraps to {value}: {term:?}");
            self.wrapped += usize::from(unwrapped > u32::MAX.into());
            self.full += usize::from(term.len() == MAX_NODES);
        }
        result
    }

    /// Two terms under a book of these symbols; if they are AC-equivalent, they agree.
    fn add_pair(&mut self, book: &[u8], symbols: &[Symbol], left: &[u16], right: &[u16]) {
        let values = [left, right].map(|term| self.add_term(book, symbols, term));
        let relation = twin::compare(book, left, right).map(|comparison| comparison.relation);
        if relation == Ok(twin::Relation::Equivalent) {
            assert_eq!(values[0], values[1], "{left:?} and {right:?} are AC-equivalent");
            self.equivalent += usize::from(left != right);
        }
    }
}

/// The value of a term before it wraps, or the greatest one that 64 bits hold.
fn unwrapped(symbols: &[Symbol], tree: &Tree) -> u64 {
    match tree {
        Tree::Variable(_) => u64::from(tree.words()[0]) + 1,
        Tree::Application(symbol, _) if symbols[usize::from(*symbol)].ac => {
            let members = tree.flattening(*symbol).into_iter().map(|member| unwrapped(symbols, member));
            members.fold(65_599 * (u64::from(*symbol) + 1), u64::saturating_add)
        }
        Tree::Application(symbol, arguments) => {
            let arguments = arguments.iter().map(|argument| unwrapped(symbols, argument));
            arguments.fold(u64::from(*symbol) + 1, |value, argument| value.saturating_mul(31).saturating_add(argument))
        }
    }
}

#[test]
fn fingerprints_agree_with_the_twin() {
    let mut random = Random::new(SEED + 5);
    let mut tally = Tally::default();
    fingerprints_of_families(&mut tally);
    for _ in 0..BOOKS {
        let book = Book::random(&mut random, 3);
        fingerprints_of_terms(&mut random, &mut tally, &book);
        fingerprints_of_damaged(&mut random, &mut tally, &book);
    }
    fingerprints_under_largest(&mut random, &mut tally);
    tally.counts.print("fingerprints");
    println!("  AC-equivalent pairs: {}", tally.equivalent);
    println!("  past 32 bits: {}, of terms of 128 nodes: {}", tally.wrapped, tally.full);
    tally.counts.require(0, &BOOK_ERRORS);
    tally.counts.require(1, &TERM_ERRORS);
    tally.counts.require(2, &[]);
    assert!(tally.counts.accepted() >= MIN_ACCEPTED, "{}", tally.counts.accepted());
    assert!(tally.equivalent >= MIN_EQUIVALENT, "{}", tally.equivalent);
    assert!(tally.wrapped >= MIN_WRAPPED, "{}", tally.wrapped);
    assert!(tally.full >= MIN_FULL, "{}", tally.full);
}

/// Every family at every count of nodes.
fn fingerprints_of_families(tally: &mut Tally) {
    for family in families() {
        let book = family.book();
        let table = System::from_packed(&book).expect("the book is read").table;
        for nodes in 1..=MAX_NODES {
            let (left, right) = family.pair(nodes);
            tally.add_pair(&book, table.symbols(), &left, &right);
        }
    }
}

/// Pairs aimed at each mark, among them many of AC-equivalent terms, and large ones.
fn fingerprints_of_terms(random: &mut Random, tally: &mut Tally, book: &Book) {
    let (packed, symbols) = (book.packed(), &book.signature.symbols);
    for round in 0..SMALL_PAIRS {
        let (mark, size) = if round % 2 == 0 { (9, MAX_NODES / 4) } else { (random.between(1, 12) as u8, 8) };
        let (left, right) = book.signature.pair_in_context(random, mark, size);
        tally.add_pair(&packed, symbols, &left.words(), &right.words());
    }
    for _ in 0..LARGE_PAIRS {
        let (left, right) = large_pair(random, &book.signature);
        tally.add_pair(&packed, symbols, &left, &right);
    }
}

fn fingerprints_of_damaged(random: &mut Random, tally: &mut Tally, book: &Book) {
    let packed = book.packed();
    let draw = |random: &mut Random| book.signature.pair_in_context(random, 12, 8).0.words();
    for _ in 0..DAMAGED_TERMS {
        let term = draw(random);
        tally.add(fingerprint(&packed, &damaged_term(random, book, &term)));
    }
    for _ in 0..DAMAGED_BOOKS {
        let mut term = draw(random);
        if random.one_in(3) {
            term = damaged_term(random, book, &term);
        }
        tally.add(fingerprint(&damaged_packed(random, book), &term));
    }
    tally.add(fingerprint(&packed, &[]));
    tally.add(fingerprint(&[], &draw(random)));
}

/// The rules of a largest book, each side under its book.
fn fingerprints_under_largest(random: &mut Random, tally: &mut Tally) {
    let book = Book::largest(random, false);
    let packed = book.packed();
    for (left, right) in &book.rules {
        tally.add_pair(&packed, &book.signature.symbols, left, right);
    }
}
