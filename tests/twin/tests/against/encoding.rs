//! Closing books.

use twin::generate::{damaged_words, Book, Random};

use crate::check::encode;
use crate::counts::Counts;
use crate::SEED;

const MIN_CALLS: usize = 110_000;
/// Small books whose words are cut and changed at every place.
const SMALL_BOOKS: usize = 60;
const BOOKS: usize = 3_500;
/// The damaged copies of each book.
const DAMAGED: usize = 18;
const LARGEST_BOOKS: usize = 32;
/// The errors of the words of a book.
const WORD_ERRORS: [u8; 14] = [1, 2, 3, 4, 5, 6, 7, 8, 9, 10, 14, 15, 17, 18];
/// The greatest values of fields and nodes, and those after them.
const LIMITS: [u16; 15] = [0, 1, 2, 3, 7, 8, 15, 16, 255, 256, 271, 272, 1_023, 1_024, u16::MAX];

#[test]
fn encoding_agrees_with_the_twin() {
    let mut random = Random::new(SEED + 1);
    let mut counts = Counts::default();
    counts.add(&encode(&[], 0));
    counts.add(&encode(&[], 9));
    for _ in 0..SMALL_BOOKS {
        let book = Book::random(&mut random, 2);
        encode_everywhere(&mut counts, &book);
        encode_everywhere(&mut counts, &Book::empty(book.signature));
    }
    for _ in 0..BOOKS {
        let book = Book::any(&mut random, 24);
        encode_some(&mut random, &mut counts, &book);
    }
    for round in 0..LARGEST_BOOKS {
        encode_largest(&mut random, &mut counts, round % 2 == 0);
    }
    counts.print("encoding");
    counts.require(0, &WORD_ERRORS);
    counts.require(1, &[16]);
    counts.require(2, &[]);
    assert!(counts.calls() >= MIN_CALLS, "{}", counts.calls());
}

/// Every room and every cut; a limit in every place.
fn encode_everywhere(counts: &mut Counts, book: &Book) {
    let (words, bytes) = (book.words(), book.packed().len());
    for room in 0..=bytes + 2 {
        counts.add(&encode(&words, room));
    }
    for place in 0..words.len() {
        counts.add(&encode(&words[..place], bytes));
        for limit in LIMITS {
            let mut changed = words.clone();
            changed[place] = limit;
            counts.add(&encode(&changed, bytes + 1));
        }
    }
}

fn encode_some(random: &mut Random, counts: &mut Counts, book: &Book) {
    let (words, bytes) = (book.words(), book.packed().len());
    for room in [0, bytes - 1, bytes, bytes + 1, random.below(2 * bytes)] {
        counts.add(&encode(&words, room));
    }
    for _ in 0..DAMAGED {
        counts.add(&encode(&damaged_words(random, book), bytes + random.below(200)));
    }
    counts.add(&encode(&book.aged(random).words(), bytes));
}

fn encode_largest(random: &mut Random, counts: &mut Counts, many_rules: bool) {
    let mut book = Book::largest(random, many_rules);
    let (words, bytes) = (book.words(), book.packed().len());
    for room in [0, bytes - 1, bytes, bytes + 1, 2 * bytes] {
        counts.add(&encode(&words, room));
    }
    for _ in 0..20 {
        let mut changed = words.clone();
        let at = random.below(changed.len());
        changed[at] = random.below(300) as u16;
        counts.add(&encode(&changed, bytes));
        counts.add(&encode(&words[..at], bytes));
    }
    counts.add(&encode(&[words.as_slice(), &[256]].concat(), bytes));
    lengthen(&mut book);
    for room in [0, bytes, 2 * bytes] {
        counts.add(&encode(&book.words(), room));
        counts.add(&encode(&[book.words(), vec![0]].concat(), room));
    }
}

/// Puts a longest rule in the place of a shortest one until the book has more bytes than it may have.
fn lengthen(book: &mut Book) {
    let size = |(left, right): &(Vec<u16>, Vec<u16>)| left.len() + right.len();
    let longest = book.rules.iter().max_by_key(|rule| size(rule)).expect("a largest book has rules").clone();
    while book.packed().len() <= 32_768 {
        let shortest = (0..book.rules.len()).min_by_key(|&index| size(&book.rules[index]));
        book.rules[shortest.expect("a largest book has rules")] = longest.clone();
    }
}
