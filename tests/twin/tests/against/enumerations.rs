//! Small expressions, counted and listed.

use twin::enumeration::MAX_SIZE;
use twin::generate::{damaged_packed, Book, Random, Signature};
use twin::table::Symbol;

use crate::check::{count, list};
use crate::counts::{Counts, BOOK_ERRORS};
use crate::SEED;

const MIN_ACCEPTED: usize = 5_000;
const MIN_OF_EACH: usize = 200;
const BOOKS: usize = 4_000;

#[derive(Default)]
struct Tally {
    counted: Counts,
    listed: Counts,
    /// The counts that are 0, and those that are "more".
    none: usize,
    more: usize,
    /// The longest list, in words.
    longest: usize,
}

impl Tally {
    /// A book and a size, with room that is enough, too little by a word, and more.
    fn add(&mut self, random: &mut Random, book: &[u8], n: usize) {
        let number = count(book, n);
        self.counted.add(&number);
        let room = match number {
            Ok(Some(number)) => {
                self.none += usize::from(number == 0);
                n * number
            }
            Ok(None) => {
                self.more += 1;
                random.below(64)
            }
            Err(_) => random.below(64),
        };
        for room in [room, room.saturating_sub(1), room + random.below(9)] {
            let result = list(book, room, n);
            self.listed.add(&result);
            self.longest = self.longest.max(result.unwrap_or(0));
        }
    }
}

#[test]
fn enumerations_agree_with_the_twin() {
    let mut random = Random::new(SEED + 12);
    let mut tally = Tally::default();
    for round in 0..BOOKS {
        let book = Book::any(&mut random, 2);
        let n = if round % 16 == 0 { random.between(8, 300) } else { random.between(0, MAX_SIZE + 1) };
        tally.add(&mut random, &book.packed(), n);
        let damaged = damaged_packed(&mut random, &book);
        tally.add(&mut random, &damaged, n);
        let few = Book::empty(few_symbols(&mut random));
        let n = random.between(1, MAX_SIZE + 1);
        tally.add(&mut random, &few.packed(), n);
    }
    let aged = Book::any(&mut random, 2).aged(&mut random);
    tally.add(&mut random, &aged.packed(), 1);
    tally.add(&mut random, &[], usize::MAX);
    for n in [0, 8, 1 << 32, (1 << 32) + 3, 1 << 63, usize::MAX - 4, usize::MAX] {
        tally.add(&mut random, &of_arities(&[1, 1]), n);
    }
    tally.counted.print("counts of small terms");
    println!("  none: {}, more: {}", tally.none, tally.more);
    tally.listed.print("lists of small terms");
    println!("  the longest has {} words", tally.longest);
    tally.counted.require(0, &[BOOK_ERRORS.as_slice(), &[22]].concat());
    tally.counted.require(1, &[]);
    tally.listed.require(0, &[BOOK_ERRORS.as_slice(), &[22]].concat());
    tally.listed.require(1, &[23]);
    assert!(tally.counted.accepted().min(tally.listed.accepted()) >= MIN_ACCEPTED);
    assert!(tally.none.min(tally.more) >= MIN_OF_EACH, "{} none, {} more", tally.none, tally.more);
}

#[test]
fn most_terms_are_listed_and_more_are_not() {
    let most = of_arities(&[17, 4, 3, 11]);
    assert_eq!(count(&most, 4), Ok(Some(65_535)));
    assert_eq!(list(&most, 4 * 65_535, 4), Ok(4 * 65_535));
    assert_eq!(list(&most, 4 * 65_535 - 1, 4).map_err(|error| error.code), Err(23));
    let more = of_arities(&[2, 8]);
    assert_eq!(count(&more, 6), Ok(None));
    assert_eq!(list(&more, 6 * 65_536 + 1, 6).map_err(|error| error.code), Err(23));
    let no_constant = of_arities(&[0, 100, 100, 55]);
    for n in 1..=MAX_SIZE {
        assert_eq!((count(&no_constant, n), list(&no_constant, 0, n)), (Ok(Some(0)), Ok(0)));
    }
}

/// A book without rules, of so many symbols of each arity.
fn of_arities(counts: &[usize]) -> Vec<u8> {
    let arities = counts.iter().zip(0..).flat_map(|(&count, arity)| vec![arity; count]);
    let symbols = arities.zip(0..).map(|(arity, rank)| Symbol { arity, ac: false, weight: 1, rank });
    Book::empty(Signature { w0: 1, symbols: symbols.collect() }).packed()
}

/// A signature of a few symbols, most of them of small arity.
fn few_symbols(random: &mut Random) -> Signature {
    let mut signature = Signature::random(random);
    signature.symbols.truncate(random.between(1, 7));
    for symbol in &mut signature.symbols {
        let arity = random.below(4) as u8;
        *symbol = Symbol { arity, ac: false, weight: symbol.weight.max(signature.w0).max(1), rank: symbol.rank };
    }
    signature
}
