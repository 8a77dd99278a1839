//! Pages of books.

use twin::generate::{damaged_packed, families, Book, Random, Signature, MAX_RULES};
use twin::page::LINE_BYTES;

use crate::check::{mark, page};
use crate::counts::{Counts, BOOK_ERRORS};
use crate::SEED;

const MIN_ACCEPTED: usize = 20_000;
const MIN_OF_EACH: usize = 1_000;
const BOOKS: usize = 14_000;
const LARGEST_BOOKS: usize = 20;
const SIZES: [usize; 4] = [16, 32, 64, 128];

#[derive(Default)]
struct Tally {
    counts: Counts,
    /// The lines by the mark of their words.
    marks: [usize; 12],
    /// The lines with a margin below 0, and those with one of more than one character.
    negative: usize,
    long: usize,
}

impl Tally {
    fn page(&mut self, book: &[u8], room: usize) {
        let result = page(book, room);
        self.counts.add(&result);
        if let Ok(lines) = result {
            let (_, marks) = mark(book, MAX_RULES).expect("a book with a page is marked");
            for (line, mark) in lines.chunks(LINE_BYTES).zip(marks) {
                let margin = String::from_utf8_lossy(&line[46..58]).trim().to_owned();
                self.marks[usize::from(mark)] += 1;
                self.negative += usize::from(margin.starts_with('-'));
                self.long += usize::from(margin.len() > 1);
            }
        }
    }
}

#[test]
fn pages_agree_with_the_twin() {
    let mut random = Random::new(SEED + 7);
    let mut tally = Tally::default();
    page_families(&mut tally);
    for _ in 0..BOOKS {
        page_some(&mut random, &mut tally);
    }
    for round in 0..LARGEST_BOOKS {
        let book = Book::largest(&mut random, round % 2 == 0);
        let (packed, enough) = (book.packed(), LINE_BYTES * book.rules.len());
        tally.page(&packed, enough + round % 2);
        tally.page(&packed, random.below(enough));
        tally.page(&[packed.as_slice(), &[0]].concat(), enough);
    }
    tally.counts.print("pages");
    println!("  lines by mark, 1 to 11: {:?}", &tally.marks[1..]);
    println!("  margins below 0: {}, of more than one character: {}", tally.negative, tally.long);
    tally.counts.require(0, &BOOK_ERRORS);
    tally.counts.require(1, &[19]);
    tally.counts.require(2, &[]);
    assert!(tally.counts.accepted() >= MIN_ACCEPTED, "{}", tally.counts.accepted());
    assert!(tally.marks[1..].iter().all(|&count| count >= MIN_OF_EACH), "{:?}", tally.marks);
    assert!(tally.negative.min(tally.long) >= MIN_OF_EACH);
}

fn page_families(tally: &mut Tally) {
    tally.page(&[], 0);
    tally.page(&[], LINE_BYTES);
    for family in families() {
        SIZES.iter().for_each(|&nodes| tally.page(&family.rule_book(nodes), LINE_BYTES));
    }
}

/// A book with room for its page, with too little, without rules, and damaged.
fn page_some(random: &mut Random, tally: &mut Tally) {
    let most = if random.one_in(4) { 2 } else { 24 };
    let book = Book::any(random, most);
    let (packed, enough) = (book.packed(), LINE_BYTES * book.rules.len());
    tally.page(&packed, enough + random.below(4));
    tally.page(&packed, enough.saturating_sub(random.below(3)));
    tally.page(&packed, random.below(enough + 1));
    tally.page(&damaged_packed(random, &book), enough + random.below(4));
    if random.one_in(16) {
        tally.page(&book.aged(random).packed(), enough);
    }
    if random.one_in(16) {
        let empty = Book::empty(Signature::random(random)).packed();
        tally.page(&empty, random.below(4));
    }
}
