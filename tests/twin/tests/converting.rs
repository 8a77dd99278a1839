//! Converting books of form 1: the variables of each rule are renumbered, and nothing else changes but the form.

use twin::format::{Form, System};
use twin::generate::{damaged_packed, Book, Random, Signature, Tree, UNTOUCHED};
use twin::marking::orientations;
use twin::{convert, decode, mark, report, Error};

const SEED: u64 = 1_604;
const BOOKS: usize = 2_000;
const LARGEST_BOOKS: usize = 16;

/// The converted book, after a check that a longer buffer is left as it was behind it.
fn converted(old: &[u8]) -> Vec<u8> {
    let mut bytes = vec![UNTOUCHED; old.len() + 2];
    assert_eq!(convert(old, &mut bytes), Ok(old.len()));
    assert_eq!(bytes[old.len()..], [UNTOUCHED; 2]);
    bytes.truncate(old.len());
    bytes
}

/// Books of form 2 and of every kind that form 1 has.
fn books(random: &mut Random) -> Vec<Book> {
    let mut books: Vec<Book> = (0..BOOKS).map(|_| Book::random(random, 24)).collect();
    books.extend((0..BOOKS).map(|_| Book::of_all_variables(random, 6, 64)));
    books.extend((0..LARGEST_BOOKS).map(|round| Book::largest(random, round % 2 == 0)));
    books.push(Book::empty(Signature::random(random)));
    books.into_iter().map(Book::without_wrapper).collect()
}

#[test]
fn every_renaming_of_a_book_is_converted_to_the_book_in_turn() {
    let mut random = Random::new(SEED);
    for book in books(&mut random) {
        for _ in 0..2 {
            assert_eq!(converted(&book.aged(&mut random).packed()), book.packed());
        }
        // In turn before, the rules stay as they are.
        let same = Book { form: Form::One, ..book.clone() };
        assert_eq!(converted(&same.packed()), book.packed());
    }
}

#[test]
fn rules_are_renumbered_as_by_the_slow_one() {
    let mut random = Random::new(SEED + 1);
    for book in books(&mut random) {
        let old = book.aged(&mut random);
        let rules = old.rules.iter().map(|(left, right)| {
            let [left, right] = [left, right].map(|side| Tree::from_words(&old.signature.symbols, side));
            let (left, right) = in_turn(&left, &right);
            (left.words(), right.words())
        });
        let expected = Book { form: Form::Two, signature: old.signature.clone(), rules: rules.collect() };
        assert_eq!(converted(&old.packed()), expected.packed());
    }
}

/// A rule in which a variable's first appearance, left side first, takes the lowest unused number, with no regard to
/// time.
fn in_turn(left: &Tree, right: &Tree) -> (Tree, Tree) {
    let mut met = Vec::new();
    for variable in [variables(left), variables(right)].concat() {
        if !met.contains(&variable) {
            met.push(variable);
        }
    }
    let number = |variable| met.iter().position(|&other| other == variable).unwrap_or(0) as u8;
    let terms: Vec<Tree> = (0..16).map(|variable| Tree::Variable(number(variable))).collect();
    (left.substitute(&terms), right.substitute(&terms))
}

/// The variables of a term from left to right.
fn variables(tree: &Tree) -> Vec<u8> {
    match tree {
        Tree::Variable(number) => vec![*number],
        Tree::Application(_, arguments) => arguments.iter().flat_map(variables).collect(),
    }
}

#[test]
fn no_other_bit_changes() {
    let mut random = Random::new(SEED + 2);
    let mut changed = 0;
    for book in books(&mut random) {
        let old = book.aged(&mut random);
        let (before, after) = (old.packed(), converted(&old.packed()));
        let mut offset = 0;
        for field in old.fields() {
            let [(_, tag), (_, width)] = field.packed();
            offset += tag;
            let bits = |bytes: &[u8]| -> Vec<u8> { (offset..offset + width).map(|at| bit(bytes, at)).collect() };
            let same = bits(&before) == bits(&after);
            assert!(same || offset == 0 || field.is_variable(), "{field:?}");
            changed += usize::from(!same && offset > 0);
            offset += width;
        }
        assert_eq!(old.bits(), offset);
        assert!((offset..8 * after.len()).all(|at| bit(&after, at) == 0));
        assert_eq!((before[0] >> 4, after[0] >> 4), (1, 2));
    }
    assert!(changed > 50 * BOOKS, "{changed}");
}

fn bit(bytes: &[u8], at: usize) -> u8 {
    bytes[at / 8] >> (7 - at % 8) & 1
}

#[test]
fn the_converted_book_has_the_marks_of_the_old_one() {
    let mut random = Random::new(SEED + 3);
    for book in books(&mut random) {
        let old = book.aged(&mut random).packed();
        let system = System::from_old(&old).expect("an aged book is of form 1");
        let (old_marks, margins): (Vec<u8>, Vec<i64>) =
            orientations(&system).map(|(orientation, margin)| (orientation as u8, margin)).unzip();
        let new = converted(&old);
        let mut marks = vec![0; book.rules.len()];
        assert!(mark(&new, &mut marks).is_ok());
        assert_eq!(marks, old_marks);
        let text = String::from_utf8(report(&new)).expect("a report is text");
        for (rule, line) in text.lines().skip(1).take(marks.len()).enumerate() {
            assert_eq!(line, format!("{rule} {} {}", marks[rule], margins[rule]));
        }
    }
}

#[test]
fn a_book_is_refused_as_one_of_form_2_but_for_turns() {
    let mut random = Random::new(SEED + 4);
    let mut counts = [0; 19];
    for _ in 0..BOOKS * 5 {
        let old = Book::random(&mut random, 6).without_wrapper().aged(&mut random);
        let packed = damaged_packed(&mut random, &old);
        let mut output = vec![UNTOUCHED; packed.len()];
        let reply = convert(&packed, &mut output);
        if let Err(error) = reply {
            assert!(output.iter().all(|&byte| byte == UNTOUCHED));
            assert_eq!(convert(&packed, &mut []), reply, "the book comes before the output");
            counts[usize::from(error.code)] += 1;
        }
        if packed.first().is_some_and(|byte| byte >> 4 == Form::One as u8) {
            check_like_form_2(packed, reply);
        }
    }
    println!("errors 1 to 11: {:?}", &counts[1..=11]);
    assert!(counts[1..=11].iter().all(|&count| count > BOOKS / 100), "{counts:?}");
    assert!(counts[12..].iter().all(|&count| count == 0), "{counts:?}");
}

/// What converting says of a book of form 1 is what reading says of the same bits in form 2, unless a variable is out
/// of turn before, or a symbol of arity 1 weighs 0.
fn check_like_form_2(mut packed: Vec<u8>, reply: Result<usize, Error>) {
    packed[0] += 0x10;
    let words = decode(&packed, &mut vec![0; 2 * 8 * packed.len()]);
    match (reply, words) {
        (Ok(count), Ok(_)) => assert_eq!(count, packed.len()),
        (Err(Error { code: 7, .. }), _) => {}
        (Ok(_), Err(out_of_turn)) => assert_eq!(out_of_turn.code, 18),
        (Err(error), Err(Error { code: 18, offset, .. })) => assert!(offset < error.offset),
        (reply, words) => assert_eq!(reply.err(), words.err()),
    }
}
