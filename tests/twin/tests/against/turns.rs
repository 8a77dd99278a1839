//! Every variable number after every count of variables, on the left side and on the right one.

use twin::format::Form;
use twin::generate::{Book, Signature};
use twin::page::LINE_BYTES;
use twin::table::{Symbol, FIRST_VARIABLE, VARIABLES};
use twin::Error;

use crate::check::{compare, convert, decode, encode, mark, page};
use crate::counts::Counts;

/// An AC symbol, a constant, and a symbol of arity 1.
fn signature() -> Signature {
    let symbol = |arity, ac, rank| Symbol { arity, ac, weight: 1, rank };
    Signature { w0: 1, symbols: vec![symbol(2, true, 2), symbol(0, false, 1), symbol(1, false, 0)] }
}

fn variable(number: usize) -> u16 {
    FIRST_VARIABLE + number as u16
}

/// The words of a sum of leaves.
fn sum(leaves: &[u16]) -> Vec<u16> {
    [&vec![0; leaves.len() - 1], leaves].concat()
}

/// The rule whose variables 0 to `met`, so many of them on the left side, are followed by a number on a side.
fn rule(met: usize, on_left: usize, number: usize) -> (Vec<u16>, Vec<u16>) {
    let leaves = |range: std::ops::Range<usize>| -> Vec<u16> { range.map(variable).collect() };
    if on_left > met {
        return (sum(&[leaves(0..met), vec![variable(number)]].concat()), vec![1]);
    }
    let left = sum(&[vec![1], leaves(0..on_left)].concat());
    (left, sum(&[leaves(on_left..met), vec![variable(number)]].concat()))
}

/// The code of an error, and 0 for none.
fn code<T>(result: Result<T, Error>) -> u8 {
    result.err().map_or(0, |error| error.code)
}

#[test]
fn turns_agree_with_the_twin() {
    let mut counts = Counts::default();
    for (met, number) in (0..=VARIABLES).flat_map(|met| (0..VARIABLES).map(move |number| (met, number))) {
        for on_left in 0..=met + 1 {
            let (left, right) = rule(met, on_left, number);
            let first = (vec![2, variable(0)], vec![variable(1)]);
            let book = Book { form: Form::Two, signature: signature(), rules: vec![first, (left, right)] };
            let (packed, words) = (book.packed(), book.words());
            let expected = if number <= met { 0 } else { 18 };
            let opened = decode(&packed, words.len());
            counts.add(&opened);
            assert_eq!(code(opened), expected, "{number} after {met}, {on_left} of them on the left");
            assert_eq!(code(encode(&words, packed.len())), expected);
            assert_eq!(code(mark(&packed, 2)), expected);
            assert_eq!(code(page(&packed, 2 * LINE_BYTES)), expected);
            assert_eq!(code(compare(&packed, &[1], &[1])), expected);
            // In form 1 and in a term, no variable is out of turn.
            let old = Book { form: Form::One, ..book.clone() };
            assert_eq!(code(convert(&old.packed(), packed.len())), 0);
            let (left, right) = &book.rules[1];
            assert_eq!(code(compare(&Book::empty(signature()).packed(), left, right)), 0);
        }
    }
    counts.print("turns of variables");
    counts.require(0, &[18]);
}
