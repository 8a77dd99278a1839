//! Bad books never panic, and are refused as the twin refuses them.

mod common;

use bookkeeper::command::Outcome;
use common::run_on;
use twin::generate::{damaged_packed, Book, Random};

/// The seed and the count of inputs of each kind.
const SEED: u64 = 20_005;
const INPUTS: usize = 20_000;

/// Checks an outcome against a refusal of the twin; counts it by its number.
fn check(outcome: Outcome, expected: Option<twin::Error>, counts: &mut [usize; 20]) {
    counts[expected.map_or(0, |error| usize::from(error.code))] += 1;
    match (outcome.complaint, expected) {
        (None, None) => assert_eq!(outcome.status, 0),
        (Some(words), Some(error)) => {
            let numbers = format!("(refusal {}, bit {})", error.code, error.offset);
            assert!(words.ends_with(&numbers) && outcome.status == 2, "{numbers}: {words}");
        }
        (words, error) => panic!("{words:?}, and the twin says {error:?}"),
    }
}

#[test]
fn damaged_books() {
    let mut random = Random::new(SEED);
    let mut counts = [0; 20];
    for _ in 0..INPUTS {
        let book = Book::random(&mut random, 3);
        let damaged = damaged_packed(&mut random, &book);
        let outcome = run_on(&["list", "book", "--book"], &[("book", &damaged)]);
        check(outcome, twin::decode(&damaged, &mut vec![0; 65_536]).err(), &mut counts);
    }
    println!("damaged books by refusal: {counts:?}");
}

#[test]
fn damaged_books_of_form_1() {
    let mut random = Random::new(SEED);
    let mut counts = [0; 20];
    for _ in 0..INPUTS {
        let book = Book::random(&mut random, 3).aged(&mut random);
        let old = if random.one_in(4) { book.packed() } else { damaged_packed(&mut random, &book) };
        let mut new = vec![0; old.len()];
        let expected = twin::convert(&old, &mut new).err();
        let outcome = run_on(&["convert", "old"], &[("old", &old)]);
        assert!(expected.is_some() || outcome.output == new);
        check(outcome, expected, &mut counts);
    }
    println!("damaged books of form 1 by refusal: {counts:?}");
}

#[test]
fn random_bytes() {
    let mut random = Random::new(SEED);
    for _ in 0..INPUTS {
        let ascii = random.one_in(2);
        let mask = if ascii { 0x7f } else { 0xff };
        let bytes: Vec<u8> = (0..random.below(60)).map(|_| random.bits() as u8 & mask).collect();
        for command in ["mark", "list", "page", "assemble", "convert"] {
            let outcome = run_on(&[command, "bytes"], &[("bytes", &bytes)]);
            assert!(outcome.status <= 3 && outcome.complaint.is_some() == (outcome.status >= 2));
        }
    }
}
