//! Comparing terms.

use twin::generate::{damaged_packed, damaged_term, families, Book, Random, Signature, Tree};
use twin::table::MAX_NODES;
use twin::{Comparison, Error};

use crate::check::compare;
use crate::counts::{Counts, BOOK_ERRORS, TERM_ERRORS};
use crate::SEED;

const MIN_ACCEPTED: usize = 300_000;
const MIN_RELATIONS: usize = 20_000;
const BOOKS: usize = 3_200;
/// The pairs of terms for each book: small ones, ones of up to 128 nodes, damaged ones, and ones under damaged books.
const SMALL_PAIRS: usize = 44;
const LARGE_PAIRS: usize = 3;
const DAMAGED_PAIRS: usize = 12;
const DAMAGED_BOOKS: usize = 6;

#[derive(Default)]
struct Tally {
    counts: Counts,
    /// Greater, less, equivalent and unrelated.
    relations: [usize; 4],
}

impl Tally {
    fn add(&mut self, result: Result<Comparison, Error>) {
        self.counts.add(&result);
        if let Ok(comparison) = result {
            self.relations[comparison.relation as usize] += 1;
        }
    }

    fn add_both_ways(&mut self, book: &[u8], left: &[u16], right: &[u16]) {
        self.add(compare(book, left, right));
        self.add(compare(book, right, left));
    }
}

#[test]
fn comparing_agrees_with_the_twin() {
    let mut random = Random::new(SEED + 2);
    let mut tally = Tally::default();
    compare_families(&mut tally);
    for _ in 0..BOOKS {
        let book = Book::random(&mut random, 3);
        compare_terms(&mut random, &mut tally, &book);
        compare_damaged(&mut random, &mut tally, &book);
    }
    compare_under_largest(&mut random, &mut tally);
    tally.counts.print("comparing");
    println!("  greater, less, equivalent, unrelated: {:?}", tally.relations);
    tally.counts.require(0, &BOOK_ERRORS);
    tally.counts.require(1, &TERM_ERRORS);
    tally.counts.require(2, &TERM_ERRORS);
    assert!(tally.counts.accepted() >= MIN_ACCEPTED, "{}", tally.counts.accepted());
    assert!(tally.relations.iter().all(|&count| count >= MIN_RELATIONS), "{:?}", tally.relations);
}

/// Every family at every count of nodes.
fn compare_families(tally: &mut Tally) {
    for family in families() {
        let book = family.book();
        for nodes in 1..=MAX_NODES {
            let (left, right) = family.pair(nodes);
            tally.add_both_ways(&book, &left, &right);
        }
    }
}

fn compare_terms(random: &mut Random, tally: &mut Tally, book: &Book) {
    let packed = book.packed();
    for _ in 0..SMALL_PAIRS {
        let mark = random.between(1, 12) as u8;
        let size = if random.one_in(8) { MAX_NODES / 4 } else { 8 };
        let (left, right) = book.signature.pair_in_context(random, mark, size);
        tally.add_both_ways(&packed, &left.words(), &right.words());
    }
    for _ in 0..LARGE_PAIRS {
        let (left, right) = large_pair(random, &book.signature);
        tally.add_both_ways(&packed, &left, &right);
    }
}

/// A term of 128 nodes or a few less or more, and one that is equivalent, lowered by a symbol, or unlike it.
pub fn large_pair(random: &mut Random, signature: &Signature) -> (Vec<u16>, Vec<u16>) {
    let size = if random.one_in(8) { MAX_NODES + random.between(1, 80) } else { MAX_NODES };
    let left = signature.sized_words(random, size);
    let tree = Tree::from_words(&signature.symbols, &left);
    let right = match random.below(5) {
        0 => return (left, signature.sized_words(random, size)),
        1 => signature.variant(random, &tree),
        2 => signature.lowered(random, &tree),
        _ => {
            let variant = signature.variant(random, &tree);
            signature.lowered(random, &variant)
        }
    };
    (left, right.words())
}

fn compare_damaged(random: &mut Random, tally: &mut Tally, book: &Book) {
    let packed = book.packed();
    let pair = |random: &mut Random| {
        let (left, right) = book.signature.pair_in_context(random, 12, 8);
        (left.words(), right.words())
    };
    for round in 0..DAMAGED_PAIRS {
        let (mut left, mut right) = pair(random);
        if round % 3 != 0 {
            left = damaged_term(random, book, &left);
        }
        if round % 3 != 1 {
            right = damaged_term(random, book, &right);
        }
        tally.add(compare(&packed, &left, &right));
    }
    for _ in 0..DAMAGED_BOOKS {
        let (left, mut right) = pair(random);
        if random.one_in(3) {
            right = damaged_term(random, book, &right);
        }
        tally.add(compare(&damaged_packed(random, book), &left, &right));
    }
    let (left, right) = pair(random);
    tally.add_both_ways(&packed, &left, &[]);
    tally.add(compare(&packed, &[], &[]));
    tally.add(compare(&[], &left, &right));
}

/// The rules of largest books, each as a pair of terms under its book.
fn compare_under_largest(random: &mut Random, tally: &mut Tally) {
    for many_rules in [false, true] {
        let book = Book::largest(random, many_rules);
        let packed = book.packed();
        for (left, right) in &book.rules {
            tally.add_both_ways(&packed, left, right);
        }
    }
}
