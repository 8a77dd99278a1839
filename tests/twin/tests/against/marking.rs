//! Marking books.

use twin::generate::{damaged_packed, families, Book, Random, Signature, MAX_RULES};

use crate::check::mark;
use crate::counts::{Counts, BOOK_ERRORS};
use crate::SEED;

const MIN_ACCEPTED: usize = 20_000;
const MIN_OF_EACH_MARK: usize = 1_000;
const BOOKS: usize = 14_000;
const LARGEST_BOOKS: usize = 100;
const SIZES: [usize; 4] = [16, 32, 64, 128];

#[derive(Default)]
struct Tally {
    counts: Counts,
    marks: [usize; 12],
    /// The books by their score.
    all_falling: usize,
    none_falling: usize,
}

impl Tally {
    fn mark(&mut self, book: &[u8], room: usize) {
        let result = mark(book, room);
        self.counts.add(&result);
        if let Ok((marked, marks)) = result {
            marks.iter().for_each(|&mark| self.marks[usize::from(mark)] += 1);
            self.all_falling += usize::from(marked.score == 100);
            self.none_falling += usize::from(marked.score == 0);
        }
    }
}

#[test]
fn marking_agrees_with_the_twin() {
    let mut random = Random::new(SEED + 3);
    let mut tally = Tally::default();
    mark_families(&mut tally);
    for _ in 0..BOOKS {
        mark_some(&mut random, &mut tally);
    }
    for round in 0..LARGEST_BOOKS {
        let packed = Book::largest(&mut random, round % 2 == 0).packed();
        tally.mark(&packed, MAX_RULES + round % 2);
        tally.mark(&packed, random.below(MAX_RULES));
        tally.mark(&[packed.as_slice(), &[0]].concat(), MAX_RULES);
    }
    tally.counts.print("marking");
    println!("  marks 1 to 11: {:?}", &tally.marks[1..]);
    println!("  books of score 100 and 0: {}, {}", tally.all_falling, tally.none_falling);
    tally.counts.require(0, &BOOK_ERRORS);
    tally.counts.require(1, &[12]);
    tally.counts.require(2, &[]);
    assert!(tally.counts.accepted() >= MIN_ACCEPTED, "{}", tally.counts.accepted());
    assert!(tally.marks[1..].iter().all(|&count| count >= MIN_OF_EACH_MARK), "{:?}", tally.marks);
    assert!(tally.all_falling.min(tally.none_falling) >= MIN_OF_EACH_MARK);
}

fn mark_families(tally: &mut Tally) {
    tally.mark(&[], 0);
    tally.mark(&[], MAX_RULES);
    for family in families() {
        SIZES.iter().for_each(|&nodes| tally.mark(&family.rule_book(nodes), 1));
    }
}

/// A book with room for all marks, with too little, without rules, and damaged.
fn mark_some(random: &mut Random, tally: &mut Tally) {
    let most = if random.one_in(4) { 2 } else { 24 };
    let book = Book::any(random, most);
    let (packed, rules) = (book.packed(), book.rules.len());
    tally.mark(&packed, rules + random.below(4));
    tally.mark(&packed, random.below(rules + 1));
    for _ in 0..2 {
        tally.mark(&damaged_packed(random, &book), rules + random.below(4));
    }
    if random.one_in(16) {
        tally.mark(&book.aged(random).packed(), rules);
    }
    if random.one_in(16) {
        let empty = Book::empty(Signature::random(random)).packed();
        tally.mark(&empty, random.below(4));
    }
}
