//! Picking the greater of two terms, alone in their words or with other words after them.

use twin::generate::{damaged_packed, damaged_term, families, followed, Book, Random};
use twin::table::MAX_NODES;
use twin::{Error, Pick};

use crate::check::pick;
use crate::comparing::large_pair;
use crate::counts::{Counts, BOOK_ERRORS};
use crate::SEED;

const MIN_ACCEPTED: usize = 100_000;
const MIN_OF_EACH_PICK: usize = 15_000;
/// The least count of pairs of 128 nodes on both sides that are read with words after both.
const MIN_FULL_FOLLOWED: usize = 2_500;
const BOOKS: usize = 600;
/// The pairs of terms for each book: small ones, ones of up to 128 nodes, damaged ones, and ones under damaged books.
const SMALL_PAIRS: usize = 18;
const LARGE_PAIRS: usize = 3;
const DAMAGED_PAIRS: usize = 24;
const DAMAGED_BOOKS: usize = 8;
/// The errors of a term that words may follow.
const FIRST_TERM_ERRORS: [u8; 4] = [2, 9, 10, 14];

#[derive(Default)]
struct Tally {
    counts: Counts,
    /// Left, right, equivalent and unrelated.
    picks: [usize; 4],
    /// The pairs with words after one of them or both.
    followed: usize,
    /// Those of 128 nodes on both sides, read with words after both.
    full_followed: usize,
}

impl Tally {
    fn add(&mut self, result: Result<Pick, Error>) {
        self.counts.add(&result);
        match result {
            Ok(Pick::Left(_)) => self.picks[0] += 1,
            Ok(Pick::Right(_)) => self.picks[1] += 1,
            Ok(Pick::Equivalent) => self.picks[2] += 1,
            Ok(Pick::Unrelated) => self.picks[3] += 1,
            Err(_) => {}
        }
    }

    /// Two terms both ways, alone and with words after the left, the right and both: what follows changes nothing.
    fn add_pair(&mut self, random: &mut Random, book: &[u8], left: &[u16], right: &[u16]) {
        for (left, right) in [(left, right), (right, left)] {
            let alone = pick(book, left, right);
            self.add(alone);
            let (left_followed, right_followed) = (followed(random, left), followed(random, right));
            for (s, t) in [(&left_followed[..], right), (left, &right_followed), (&left_followed, &right_followed)] {
                let result = pick(book, s, t);
                assert_eq!(result, alone, "words after a term change what is picked of {s:?} and {t:?}");
                self.add(result);
                self.followed += 1;
            }
            let full = alone.is_ok() && left.len() == MAX_NODES && right.len() == MAX_NODES;
            self.full_followed += usize::from(full);
        }
    }
}

#[test]
fn picking_agrees_with_the_twin() {
    let mut random = Random::new(SEED + 4);
    let mut tally = Tally::default();
    pick_of_families(&mut random, &mut tally);
    for _ in 0..BOOKS {
        let book = Book::random(&mut random, 3);
        pick_of_terms(&mut random, &mut tally, &book);
        pick_of_damaged(&mut random, &mut tally, &book);
    }
    pick_under_largest(&mut random, &mut tally);
    tally.counts.print("picking");
    println!("  left, right, equivalent, unrelated: {:?}", tally.picks);
    println!("  with words after: {}, both terms of 128 nodes: {}", tally.followed, tally.full_followed);
    tally.counts.require(0, &BOOK_ERRORS);
    tally.counts.require(1, &FIRST_TERM_ERRORS);
    tally.counts.require(2, &FIRST_TERM_ERRORS);
    assert!(tally.counts.accepted() >= MIN_ACCEPTED, "{}", tally.counts.accepted());
    assert!(tally.picks.iter().all(|&count| count >= MIN_OF_EACH_PICK), "{:?}", tally.picks);
    assert!(tally.full_followed >= MIN_FULL_FOLLOWED, "{}", tally.full_followed);
}

/// Every family at every count of nodes.
fn pick_of_families(random: &mut Random, tally: &mut Tally) {
    for family in families() {
        let book = family.book();
        for nodes in 1..=MAX_NODES {
            let (left, right) = family.pair(nodes);
            tally.add_pair(random, &book, &left, &right);
        }
    }
}

fn pick_of_terms(random: &mut Random, tally: &mut Tally, book: &Book) {
    let packed = book.packed();
    for _ in 0..SMALL_PAIRS {
        let mark = random.between(1, 12) as u8;
        let (left, right) = book.signature.pair_in_context(random, mark, 8);
        tally.add_pair(random, &packed, &left.words(), &right.words());
    }
    for _ in 0..LARGE_PAIRS {
        let (left, right) = large_pair(random, &book.signature);
        tally.add_pair(random, &packed, &left, &right);
    }
}

/// Damaged terms, at times with words after them, and sound ones under damaged books.
fn pick_of_damaged(random: &mut Random, tally: &mut Tally, book: &Book) {
    let packed = book.packed();
    let pair = |random: &mut Random| {
        let (left, right) = book.signature.pair_in_context(random, 12, 8);
        [left.words(), right.words()]
    };
    for round in 0..DAMAGED_PAIRS {
        let mut terms = pair(random);
        for (side, term) in terms.iter_mut().enumerate() {
            if round % 3 != side {
                *term = damaged_term(random, book, term);
            }
            if random.one_in(2) {
                *term = followed(random, term);
            }
        }
        tally.add(pick(&packed, &terms[0], &terms[1]));
    }
    for _ in 0..DAMAGED_BOOKS {
        let [left, right] = pair(random);
        let right = if random.one_in(3) { damaged_term(random, book, &right) } else { followed(random, &right) };
        tally.add(pick(&damaged_packed(random, book), &left, &right));
    }
    let [left, right] = pair(random);
    for (left, right) in [(&left[..], &[][..]), (&[], &right), (&[], &[])] {
        tally.add(pick(&packed, left, right));
    }
    tally.add(pick(&[], &left, &right));
}

/// The rules of largest books, each as a pair of terms under its book.
fn pick_under_largest(random: &mut Random, tally: &mut Tally) {
    let book = Book::largest(random, false);
    let packed = book.packed();
    for (left, right) in &book.rules {
        tally.add_pair(random, &packed, left, right);
    }
}
