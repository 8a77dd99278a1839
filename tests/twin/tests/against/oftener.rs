//! The variable test.

use twin::generate::{damaged_packed, damaged_term, families, Book, Random};
use twin::table::{MAX_NODES, VARIABLES};
use twin::Error;

use crate::check::oftener;
use crate::comparing::large_pair;
use crate::counts::{Counts, BOOK_ERRORS, TERM_ERRORS};
use crate::SEED;

const MIN_ACCEPTED: usize = 100_000;
const MIN_OF_EACH_ANSWER: usize = 4_000;
/// The least count of pairs of 128 nodes on both sides.
const MIN_FULL: usize = 15_000;
const BOOKS: usize = 1_000;
/// The pairs of terms for each book: aimed at each answer, of each mark, of up to 128 nodes, damaged ones, and ones under
/// damaged books.
const PAIRS_OF_EACH_ANSWER: usize = 3;
const PAIRS_OF_MARKS: usize = 6;
const LARGE_PAIRS: usize = 3;
const DAMAGED_PAIRS: usize = 18;
const DAMAGED_BOOKS: usize = 8;

#[derive(Default)]
struct Tally {
    counts: Counts,
    /// Variables 0 to 15, and none.
    answers: [usize; VARIABLES + 1],
    full: usize,
}

impl Tally {
    fn add(&mut self, result: Result<usize, Error>) {
        self.counts.add(&result);
        if let Ok(variable) = result {
            self.answers[variable] += 1;
        }
    }

    /// Two terms both ways; a variable that occurs oftener one way does not occur oftener the other way.
    fn add_both_ways(&mut self, book: &[u8], left: &[u16], right: &[u16]) {
        let (there, back) = (oftener(book, left, right), oftener(book, right, left));
        self.add(there);
        self.add(back);
        if let (Ok(there), Ok(back)) = (there, back) {
            assert!(there != back || there == VARIABLES, "{there} occurs oftener in both {left:?} and {right:?}");
            self.full += usize::from(left.len() == MAX_NODES && right.len() == MAX_NODES);
        }
    }
}

#[test]
fn the_variable_test_agrees_with_the_twin() {
    let mut random = Random::new(SEED + 6);
    let mut tally = Tally::default();
    test_families(&mut tally);
    for _ in 0..BOOKS {
        let book = Book::random(&mut random, 3);
        test_terms(&mut random, &mut tally, &book);
        test_damaged(&mut random, &mut tally, &book);
    }
    test_under_largest(&mut random, &mut tally);
    tally.counts.print("the variable test");
    println!("  variables 0 to 15, and none: {:?}", tally.answers);
    println!("  both terms of 128 nodes: {}", tally.full);
    tally.counts.require(0, &BOOK_ERRORS);
    tally.counts.require(1, &TERM_ERRORS);
    tally.counts.require(2, &TERM_ERRORS);
    assert!(tally.counts.accepted() >= MIN_ACCEPTED, "{}", tally.counts.accepted());
    assert!(tally.answers.iter().all(|&count| count >= MIN_OF_EACH_ANSWER), "{:?}", tally.answers);
    assert!(tally.full >= MIN_FULL, "{}", tally.full);
}

/// Every family at every count of nodes.
fn test_families(tally: &mut Tally) {
    for family in families() {
        let book = family.book();
        for nodes in 1..=MAX_NODES {
            let (left, right) = family.pair(nodes);
            tally.add_both_ways(&book, &left, &right);
        }
    }
}

fn test_terms(random: &mut Random, tally: &mut Tally, book: &Book) {
    let packed = book.packed();
    for answer in 0..=VARIABLES {
        for _ in 0..PAIRS_OF_EACH_ANSWER {
            let size = [random.between(1, 8), random.between(1, MAX_NODES), MAX_NODES][random.below(3)];
            let (left, right) = book.signature.oftener_pair(random, answer, size);
            tally.add_both_ways(&packed, &left.words(), &right.words());
        }
    }
    for _ in 0..PAIRS_OF_MARKS {
        let mark = random.between(1, 12) as u8;
        let (left, right) = book.signature.pair_in_context(random, mark, 8);
        tally.add_both_ways(&packed, &left.words(), &right.words());
    }
    for _ in 0..LARGE_PAIRS {
        let (left, right) = large_pair(random, &book.signature);
        tally.add_both_ways(&packed, &left, &right);
    }
}

fn test_damaged(random: &mut Random, tally: &mut Tally, book: &Book) {
    let packed = book.packed();
    let pair = |random: &mut Random| {
        let answer = random.between(0, VARIABLES);
        let (left, right) = book.signature.oftener_pair(random, answer, 8);
        [left.words(), right.words()]
    };
    for round in 0..DAMAGED_PAIRS {
        let mut terms = pair(random);
        for (_, term) in terms.iter_mut().enumerate().filter(|(side, _)| round % 3 != *side) {
            *term = damaged_term(random, book, term);
        }
        tally.add(oftener(&packed, &terms[0], &terms[1]));
    }
    for _ in 0..DAMAGED_BOOKS {
        let [left, mut right] = pair(random);
        if random.one_in(3) {
            right = damaged_term(random, book, &right);
        }
        tally.add(oftener(&damaged_packed(random, book), &left, &right));
    }
    let [left, right] = pair(random);
    for (left, right) in [(&left[..], &[][..]), (&[], &right), (&[], &[])] {
        tally.add(oftener(&packed, left, right));
    }
    tally.add(oftener(&[], &left, &right));
}

/// The rules of a largest book, each as a pair of terms under its book.
fn test_under_largest(random: &mut Random, tally: &mut Tally) {
    let book = Book::largest(random, false);
    let packed = book.packed();
    for (left, right) in &book.rules {
        tally.add_both_ways(&packed, left, right);
    }
}
