//! Generated books are valid, round trips give them back, damage never panics, and no mark or error is missing.

use std::collections::BTreeSet;

use twin::generate::{call, damaged_packed, damaged_words, Book, Call, Random, Reply, Signature, MAX_RULES, UNTOUCHED};
use twin::{compare, decode, encode, mark, report, Pick, Relation};

const SEED: u64 = 43;
const BOOKS: usize = 2_000;
const CALLS: usize = 20_000;
/// More words than any book has.
const MAX_WORDS: usize = 60_000;

/// Decoding and encoding give the generated forms; words and bytes after them stay as they were.
fn check_round_trip(book: &Book) {
    let (packed, words) = (book.packed(), book.words());
    let mut decoded = vec![UNTOUCHED.into(); words.len() + 2];
    assert_eq!(decode(&packed, &mut decoded), Ok(words.len()));
    assert_eq!(decoded, [words.as_slice(), &[UNTOUCHED.into(); 2]].concat());
    let mut encoded = vec![UNTOUCHED; packed.len() + 2];
    assert_eq!(encode(&words, &mut encoded), Ok(packed.len()));
    assert_eq!(encoded, [packed.as_slice(), &[UNTOUCHED; 2]].concat());
}

#[test]
fn generated_books_are_read_and_written() {
    let mut random = Random::new(SEED);
    let mut counts = [0; 12];
    for _ in 0..BOOKS {
        let book = Book::random(&mut random, 24);
        check_round_trip(&book);
        let mut marks = vec![0; book.rules.len()];
        let marked = mark(&book.packed(), &mut marks).expect("a generated book is valid");
        assert_eq!(marked.falling, marks.iter().filter(|mark| matches!(mark, 1..=6 | 11)).count());
        marks.iter().for_each(|&mark| counts[usize::from(mark)] += 1);
    }
    println!("marks 1 to 11: {:?}", &counts[1..]);
    assert_eq!(counts[0], 0);
    assert!(counts[1..].iter().all(|&count| count > BOOKS / 10), "{counts:?}");
}

#[test]
fn books_of_all_variables_are_read_and_written() {
    let mut random = Random::new(SEED);
    let mut counts = [0; 17];
    for _ in 0..BOOKS / 2 {
        let book = Book::of_all_variables(&mut random, 8, 64);
        check_round_trip(&book);
        for (left, right) in &book.rules {
            let variables: BTreeSet<&u16> = left.iter().chain(right).filter(|node| **node >= 256).collect();
            counts[variables.len()] += 1;
        }
    }
    println!("rules of 0 to 16 variables: {counts:?}");
    assert!(counts.iter().all(|&count| count > BOOKS / 50), "{counts:?}");
}

#[test]
fn empty_and_largest_books_are_read_and_written() {
    let mut random = Random::new(SEED);
    let mut full_sides = 0;
    for round in 0..24 {
        check_round_trip(&Book::empty(Signature::random(&mut random)));
        let many_rules = round % 2 == 0;
        let book = Book::largest(&mut random, many_rules);
        assert_eq!(book.packed().len(), 32_768);
        assert_eq!(book.rules.len() == MAX_RULES, many_rules);
        full_sides += book.rules.iter().filter(|(left, right)| left.len().max(right.len()) == 128).count();
        check_round_trip(&book);
        assert!(report(&book.packed()).starts_with(format!("rules {}\n", book.rules.len()).as_bytes()));
    }
    assert!(full_sides > 100, "{full_sides}");
}

#[test]
fn damaged_books_are_refused_alike() {
    let mut random = Random::new(SEED);
    let mut counts = [0; 19];
    for _ in 0..BOOKS * 5 {
        let book = Book::random(&mut random, 3);
        let packed = damaged_packed(&mut random, &book);
        let mut words = vec![UNTOUCHED.into(); MAX_WORDS];
        let mut marks = [UNTOUCHED; MAX_RULES];
        match decode(&packed, &mut words) {
            Ok(len) => {
                let mut encoded = vec![UNTOUCHED; packed.len()];
                assert_eq!(encode(&words[..len], &mut encoded), Ok(packed.len()));
                assert_eq!(encoded, packed);
                assert!(mark(&packed, &mut marks).is_ok());
            }
            Err(error) => {
                assert!(words.iter().all(|&word| word == UNTOUCHED.into()));
                assert_eq!(mark(&packed, &mut marks), Err(error));
                assert_eq!(marks, [UNTOUCHED; MAX_RULES]);
                assert_eq!(compare(&packed, &[], &[]), Err(error));
                assert_eq!(report(&packed), format!("refusal {} {}\n", error.code, error.offset).into_bytes());
                counts[usize::from(error.code)] += 1;
            }
        }
    }
    assert!((1..=11).chain([17, 18]).all(|code| counts[code] > BOOKS / 100), "{counts:?}");
}

#[test]
fn accepted_words_are_given_back() {
    let mut random = Random::new(SEED);
    let mut accepted = 0;
    for _ in 0..BOOKS * 5 {
        let book = Book::random(&mut random, 3);
        let words = damaged_words(&mut random, &book);
        let mut packed = vec![UNTOUCHED; 32_768];
        match encode(&words, &mut packed) {
            Ok(len) => {
                let mut decoded = vec![0; words.len()];
                assert_eq!(decode(&packed[..len], &mut decoded), Ok(words.len()));
                assert_eq!(decoded, words);
                accepted += 1;
            }
            Err(_) => assert!(packed.iter().all(|&byte| byte == UNTOUCHED)),
        }
    }
    assert!((BOOKS..BOOKS * 4).contains(&accepted), "{accepted}");
}

#[test]
fn generated_calls_reach_every_mark_and_error() {
    let mut random = Random::new(SEED);
    let (mut marks, mut errors, mut relations) = ([0; 12], [[0; 3]; 20], [0; 4]);
    let mut picks = [0; 4];
    let mut operations = [0; 9];
    let mut oftener = [0; 17];
    for _ in 0..CALLS {
        let reply = call(&mut random).run();
        if let Some(error) = reply.error() {
            errors[usize::from(error.code)][usize::from(error.input)] += 1;
        }
        match reply {
            Reply::Decode(..) => operations[0] += 1,
            Reply::Encode(..) => operations[1] += 1,
            Reply::Compare(result) => {
                operations[2] += 1;
                if let Ok(comparison) = result {
                    relations[comparison.relation as usize] += 1;
                }
            }
            Reply::Mark(result, output) => {
                operations[3] += 1;
                let rules = result.map_or(0, |marked| marked.rules);
                output[..rules].iter().for_each(|&mark| marks[usize::from(mark)] += 1);
            }
            Reply::Pick(result) => {
                operations[4] += 1;
                match result {
                    Ok(Pick::Left(_)) => picks[0] += 1,
                    Ok(Pick::Right(_)) => picks[1] += 1,
                    Ok(Pick::Equivalent) => picks[2] += 1,
                    Ok(Pick::Unrelated) => picks[3] += 1,
                    Err(_) => {}
                }
            }
            Reply::Fingerprint(_) => operations[5] += 1,
            Reply::Oftener(result) => {
                operations[6] += 1;
                if let Ok(variable) = result {
                    oftener[variable] += 1;
                }
            }
            Reply::Convert(..) => operations[7] += 1,
            Reply::Page(..) => operations[8] += 1,
        }
    }
    println!("decoding, encoding, comparing, marking, picking, fingerprints, oftener, converting, pages:");
    println!("{operations:?}");
    println!("marks 1 to 11: {:?}", &marks[1..]);
    println!("greater, less, equivalent, unrelated: {relations:?}");
    println!("left, right, equivalent, unrelated: {picks:?}");
    println!("oftener, variables 0 to 15 and none: {oftener:?}");
    let totals = errors.map(|inputs: [usize; 3]| inputs.iter().sum::<usize>());
    println!("errors 1 to 19: {:?}", &totals[1..]);
    println!("errors 1 to 19 by input: {:?}", &errors[1..]);
    assert!(operations.iter().all(|&count| count > CALLS / 10), "{operations:?}");
    assert!(relations.iter().chain(&picks).all(|&count| count > CALLS / 200), "{relations:?} {picks:?}");
    assert!(oftener.iter().all(|&count| count > 0), "{oftener:?}");
    assert!(marks[1..].iter().all(|&count| count > CALLS / 100), "{marks:?}");
    assert!(totals[1..].iter().all(|&count| count > CALLS / 1_000), "{totals:?}");
    let term_errors = [2, 9, 10, 14, 15];
    assert!(term_errors.iter().all(|&code: &usize| errors[code][1] > 0 && errors[code][2] > 0), "{errors:?}");
}

#[test]
fn one_seed_gives_one_sequence() {
    let draw = |seed| -> Vec<String> {
        let mut random = Random::new(seed);
        (0..20).map(|_| format!("{:?}", call(&mut random))).collect()
    };
    assert_eq!(draw(7), draw(7));
    assert_ne!(draw(7), draw(8));
}

#[test]
fn refused_calls_leave_their_output() {
    let mut random = Random::new(SEED + 1);
    for _ in 0..CALLS / 4 {
        let call: Call = call(&mut random);
        match call.run() {
            Reply::Decode(Err(_), words) => assert!(words.iter().all(|&word| word == UNTOUCHED.into())),
            Reply::Encode(Err(_), bytes) | Reply::Convert(Err(_), bytes) => {
                assert!(bytes.iter().all(|&byte| byte == UNTOUCHED));
            }
            Reply::Mark(Err(_), bytes) | Reply::Page(Err(_), bytes) => {
                assert!(bytes.iter().all(|&byte| byte == UNTOUCHED));
            }
            Reply::Decode(Ok(len), words) => assert!(words[len..].iter().all(|&word| word == UNTOUCHED.into())),
            Reply::Encode(Ok(len), bytes) | Reply::Convert(Ok(len), bytes) | Reply::Page(Ok(len), bytes) => {
                assert!(bytes[len..].iter().all(|&byte| byte == UNTOUCHED));
            }
            Reply::Mark(Ok(marked), bytes) => assert!(bytes[marked.rules..].iter().all(|&byte| byte == UNTOUCHED)),
            Reply::Compare(Ok(comparison)) => assert!(comparison.margin <= 0 || comparison.relation != Relation::Less),
            Reply::Compare(Err(_)) | Reply::Pick(_) | Reply::Fingerprint(_) | Reply::Oftener(_) => {}
        }
    }
}
