//! What `mark` says, held to the twin: marks and margins, variables in the way, and every change that it offers.

mod common;

use bookkeeper::advice::{Adviser, Effect, Offer};
use bookkeeper::candidates::occurrences;
use bookkeeper::sheet::Sheet;
use bookkeeper::trial::Change;
use common::run_on;
use twin::generate::{Book, Random};
use twin::Relation;

/// The seed and the count of generated books.
const SEED: u64 = 20_003;
const BOOKS: usize = 1_500;

/// Whether a mark is one of a rule that falls.
fn falls(mark: u8) -> bool {
    matches!(mark, 1..=6 | 11)
}

/// The twin's marks of a book.
fn twin_marks(book: &[u8]) -> Vec<u8> {
    let mut marks = vec![0; 1_023];
    let marked = twin::mark(book, &mut marks).expect("the book is good");
    marks.truncate(marked.rules);
    marks
}

/// The twin's marks of a book under a change.
fn changed_marks(book: &Book, change: Change) -> Vec<u8> {
    let mut words = book.words();
    change.apply(&mut words, book.signature.symbols.len());
    let mut bytes = vec![0; 32_768];
    let count = twin::encode(&words, &mut bytes).expect("a change that is offered keeps the book good");
    twin_marks(&bytes[..count])
}

#[test]
fn marks_and_margins_are_those_of_the_twin() {
    let mut random = Random::new(SEED);
    for _ in 0..BOOKS {
        let book = Book::random(&mut random, 6).packed();
        let outcome = run_on(&["mark", "book", "--book"], &[("book", &book)]);
        let text = String::from_utf8(outcome.output).unwrap();
        let told = text.lines().filter_map(|line| {
            let (_, numbers) = line.split_once(" (mark ")?;
            Some(numbers.replace("), margin", ""))
        });
        let report = String::from_utf8(twin::report(&book)).unwrap();
        let lines = report.lines().skip(1).take_while(|line| !line.starts_with("score"));
        let expected = lines.filter_map(|line| line.split_once(' ').map(|(_, numbers)| numbers.to_string()));
        assert_eq!(told.collect::<Vec<_>>(), expected.collect::<Vec<_>>());
        assert_eq!(text.lines().last(), report.lines().last());
        assert_eq!(outcome.status, u8::from(text.ends_with("returned\n")));
    }
}

#[test]
fn offers_make_rules_fall() {
    let mut random = Random::new(SEED);
    let (mut ranks, mut weights, mut wrappers, mut alone) = (0, 0, 0, 0);
    for _ in 0..BOOKS {
        let book = Book::random(&mut random, 6);
        let bytes = book.packed();
        let (sheet, marks) = (Sheet::open(&bytes).unwrap(), twin_marks(&bytes));
        let mut adviser = Adviser::new(&bytes, &sheet, &marks);
        for (number, rule) in sheet.rules().enumerate().filter(|(number, _)| matches!(marks[*number], 8 | 10)) {
            let margin = twin::compare(&bytes, rule.0, rule.1).unwrap().margin;
            let by_rank = if margin == 0 { adviser.ranks(rule) } else { Vec::new() };
            let by_weight = adviser.weights(rule, margin.unsigned_abs() as usize);
            let by_wrapper = adviser.wrappers(rule);
            ranks += by_rank.len();
            weights += by_weight.len();
            wrappers += by_wrapper.len();
            alone += usize::from(by_rank.is_empty() && by_weight.is_empty() && by_wrapper.is_empty());
            for Offer { change, mark, effect } in by_rank.into_iter().chain(by_weight).chain(by_wrapper) {
                let changed = changed_marks(&book, change);
                let is_lost = |rule: &usize| falls(marks[*rule]) && !falls(changed[*rule]);
                assert!(falls(mark) && changed[number] == mark, "{change:?}");
                let falling = changed.iter().filter(|mark| falls(**mark)).count();
                let lost = (0..marks.len()).filter(is_lost).collect();
                assert_eq!(effect, Some(Effect { falling, lost }));
            }
        }
    }
    println!("{ranks} changes of ranks, {weights} of weights, {wrappers} wrappers; {alone} rules without one");
    assert!(ranks > 100 && weights > 100 && wrappers > 10 && alone > 100);
}

/// How far weights are searched for one that was missed.
const SEARCHED: u16 = 12;

/// A weight that is offered is the nearest that does, and none that does is near where none is offered.
#[test]
fn least_weights_are_offered() {
    let mut random = Random::new(SEED);
    let (mut least, mut none) = (0, 0);
    for _ in 0..BOOKS {
        let book = Book::random(&mut random, 3);
        let bytes = book.packed();
        let (sheet, marks) = (Sheet::open(&bytes).unwrap(), twin_marks(&bytes));
        let mut adviser = Adviser::new(&bytes, &sheet, &marks);
        for (number, rule) in sheet.rules().enumerate().filter(|(number, _)| matches!(marks[*number], 8 | 10)) {
            let margin = twin::compare(&bytes, rule.0, rule.1).unwrap().margin;
            let offers = adviser.weights(rule, margin.unsigned_abs() as usize);
            for offer in &offers {
                let Change::Weight { symbol, weight } = offer.change else { panic!("a weight is offered") };
                let old = sheet.symbol(symbol).weight;
                let nearer = (0..=SEARCHED).flat_map(|step| [old.saturating_sub(step), old.saturating_add(step)]);
                let nearer = nearer.filter(|other| other.abs_diff(old) < weight.abs_diff(old));
                assert!(!nearer.into_iter().any(|weight| turns(&book, number, symbol, weight)), "{offer:?}");
                least += 1;
            }
            if offers.is_empty() && margin >= -i64::from(SEARCHED) {
                let near = |symbol: usize| {
                    let old = sheet.symbol(symbol).weight;
                    let weights = old.saturating_sub(SEARCHED)..=old.saturating_add(SEARCHED);
                    weights.into_iter().any(|weight| turns(&book, number, symbol, weight))
                };
                assert!(!(0..sheet.symbols().len()).any(near), "rule {number}");
                none += 1;
            }
        }
    }
    println!("{least} weights are the nearest; {none} rules have none");
    assert!(least > 100 && none > 100);
}

/// Whether a rule falls by the twin under another weight of a symbol.
fn turns(book: &Book, rule: usize, symbol: usize, weight: u16) -> bool {
    let mut words = book.words();
    Change::Weight { symbol, weight }.apply(&mut words, book.signature.symbols.len());
    let mut bytes = vec![0; 32_768];
    twin::encode(&words, &mut bytes).is_ok_and(|count| falls(twin_marks(&bytes[..count])[rule]))
}

#[test]
fn variables_and_turned_rules_are_found() {
    let mut random = Random::new(SEED);
    let (mut added, mut turned) = (0, 0);
    for _ in 0..BOOKS {
        let bytes = Book::any(&mut random, 6).packed();
        let (sheet, marks) = (Sheet::open(&bytes).unwrap(), twin_marks(&bytes));
        let adviser = Adviser::new(&bytes, &sheet, &marks);
        for (rule, mark) in sheet.rules().zip(&marks) {
            let oftener = |variable: &usize| {
                let (left, right) = occurrences(rule, 256 + *variable as u16);
                right > left
            };
            let expected: Vec<usize> = (0..16).filter(oftener).collect();
            assert_eq!(adviser.oftener(rule), expected);
            assert_eq!(expected.is_empty(), *mark != 7);
            added += expected.len();
            let relation = twin::compare(&bytes, rule.0, rule.1).unwrap().relation;
            assert_eq!(adviser.falls_back(rule), relation == Relation::Less);
            turned += usize::from(relation == Relation::Less);
        }
    }
    println!("{added} variables in the way, {turned} rules that fall turned round");
}

#[test]
fn largest_books_take_bounded_trials() {
    let mut random = Random::new(SEED);
    for many_rules in [false, true] {
        let book = Book::largest(&mut random, many_rules).packed();
        let outcome = run_on(&["mark", "book", "--book"], &[("book", &book)]);
        assert_eq!((outcome.status, outcome.complaint), (1, None));
    }
}

/// The wrapper is offered where a symbol of arity 1 is spread over a sum.
#[test]
fn wrapper_is_offered() {
    let text = "w0 1\nvariables x y\nsymbol + arity 2 ac weight 1\nsymbol neg arity 1 weight 1\norder + > neg\n\
                neg(x + y) -> neg(x) + neg(y)\n";
    let told = String::from_utf8(run_on(&["mark", "text"], &[("text", text.as_bytes())]).output).unwrap();
    let change = "change: neg as the wrapper, of weight 0 and the highest rank: the rule falls by rank; 1 of 1 rule";
    assert!(told.contains(change), "{told}");
}

/// A weight that makes the sides weigh the same is offered where the order then decides.
#[test]
fn weight_before_a_rank_is_offered() {
    let text = "w0 1\nvariables x y\nsymbol zero arity 0 weight 1\nsymbol ones arity 0 weight 2\n\
                symbol neg arity 1 weight 1\nsymbol not arity 1 weight 3\nsymbol shl arity 2 weight 0\n\
                symbol add arity 2 ac weight 2\norder ones > not > shl > zero > neg > add\n\
                neg(shl(add(y, zero), not(x))) -> add(not(shl(ones, zero)), neg(x))\n";
    let told = String::from_utf8(run_on(&["mark", "text"], &[("text", text.as_bytes())]).output).unwrap();
    assert!(told.contains("change: weight 1 for ones: the rule falls by rank; 1 of 1 rule fall then"), "{told}");
}
