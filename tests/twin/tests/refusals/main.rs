//! Every error of reading with its number, input and offset, and the order in which faults are found.

mod forms;
#[path = "../packing/mod.rs"]
mod packing;
mod terms;

use packing::{book, header, node, pack, symbol, variable, FILLER, SHEET};
use twin::{compare, convert, decode, encode, fingerprint, mark, oftener, page, pick, Error, Marked};

/// The first bit of the rules in `book`.
const RULES_AT: usize = 38 + 2 * 28;

/// The words of that book with a rule.
fn sheet(nodes: &[u16]) -> Vec<u16> {
    let mut words = [&SHEET[..], nodes].concat();
    words[3] = 1;
    words
}

/// The same bits in form 1.
fn old(packed: &[u8]) -> Vec<u8> {
    let mut bytes = packed.to_vec();
    if let Some(first) = bytes.first_mut() {
        *first = 0x10 | *first & 0x0f;
    }
    bytes
}

/// The converter refuses a book and changes nothing.
fn refuse_old(packed: &[u8], code: u8, offset: usize) {
    let error = Error { code, input: 0, offset };
    let mut bytes = vec![FILLER; packed.len()];
    assert_eq!(convert(packed, &mut bytes), Err(error));
    assert_eq!(bytes, vec![FILLER; packed.len()]);
    assert_eq!(convert(packed, &mut []), Err(error), "the book comes before the output");
}

/// Every operation on a packed book refuses it alike and changes nothing; the converter refuses the same bits in form 1
/// for the same fault, but for those of form 2.
fn refuse_packed(packed: &[u8], code: u8, offset: usize) {
    let error = Error { code, input: 0, offset };
    let mut words = [u16::from(FILLER); 400];
    assert_eq!(decode(packed, &mut words), Err(error));
    assert_eq!(words, [u16::from(FILLER); 400]);
    assert_eq!(decode(packed, &mut []), Err(error), "the book comes before the words");
    let mut marks = [FILLER; 4];
    assert_eq!(mark(packed, &mut marks), Err(error));
    assert_eq!(marks, [FILLER; 4]);
    assert_eq!(mark(packed, &mut []), Err(error), "the book comes before the marks");
    let mut lines = [FILLER; 4 * 65];
    assert_eq!(page(packed, &mut lines), Err(error));
    assert_eq!(lines, [FILLER; 4 * 65]);
    assert_eq!(page(packed, &mut []), Err(error), "the book comes before the page");
    assert_eq!(compare(packed, &[0], &[0]), Err(error));
    assert_eq!(compare(packed, &[], &[999]), Err(error), "the book comes before the terms");
    assert_eq!(pick(packed, &[0], &[0]), Err(error));
    assert_eq!(pick(packed, &[], &[999]), Err(error), "the book comes before the terms");
    assert_eq!(fingerprint(packed, &[0]), Err(error));
    assert_eq!(fingerprint(packed, &[]), Err(error), "the book comes before the term");
    assert_eq!(oftener(packed, &[0], &[0]), Err(error));
    assert_eq!(oftener(packed, &[], &[999]), Err(error), "the book comes before the terms");
    assert_eq!(twin::report(packed), format!("refusal {code} {offset}\n").into_bytes());
    assert_eq!(twin::board(packed), twin::report(packed));
    if ![3, 17, 18].contains(&code) {
        refuse_old(&old(packed), code, offset);
    }
}

/// A book with these symbols is refused for one of arity 1 that weighs 0, whatever follows the table; the converter
/// refuses the first such symbol.
fn refuse_wrapper(symbols: &[Vec<(u32, usize)>], offset: usize) {
    let count = symbols.len() as u32;
    for (rules, nodes) in [(0, vec![]), (0, vec![(1, 8)]), (1, vec![]), (1, node(255))] {
        let fields = [header(count, 1, rules), symbols.concat(), nodes].concat();
        let mut words = [0; 400];
        assert_eq!(decode(&pack(&fields), &mut words), Err(Error { code: 7, input: 0, offset }));
        let first = symbols.iter().position(|symbol| symbol[0].0 == 1).expect("one has arity 1");
        refuse_old(&old(&pack(&fields)), 7, 38 + 28 * first + 4);
    }
}

fn refuse_words(words: &[u16], code: u8, offset: usize) {
    let error = Error { code, input: 0, offset };
    let mut bytes = [FILLER; 200];
    assert_eq!(encode(words, &mut bytes), Err(error), "{words:?}");
    assert_eq!(bytes, [FILLER; 200]);
    assert_eq!(encode(words, &mut []), Err(error), "the words come before the bytes");
}

#[test]
fn error_1_of_a_packed_book_comes_first() {
    refuse_packed(&vec![0; 32_769], 1, 0);
    refuse_packed(&vec![0xff; 40_000], 1, 0);
    refuse_packed(&vec![0; 32_768], 3, 0);
}

#[test]
fn error_2_of_a_packed_book_is_at_the_field_that_does_not_fit() {
    refuse_packed(&[], 2, 0);
    let whole = book(1, &[node(1), node(0), variable(0)].concat());
    // The fields start at 0, 4, 12, 28; 38, 41, 42, 58; 66, 69, 70, 86; 94, 95, 103, 104, 112, 113.
    let cut = [(1, 4), (2, 12), (3, 12), (4, 28), (5, 38), (6, 42), (7, 42), (8, 58), (9, 70), (10, 70), (11, 86)];
    for (len, offset) in cut.into_iter().chain([(12, 95), (13, 104), (14, 112)]) {
        refuse_packed(&whole[..len], 2, offset);
    }
    assert_eq!(whole.len(), 15);
    assert!(mark(&whole, &mut [0]).is_ok());
    // A field of one bit, and a tag, at the first bit of a missing byte.
    refuse_packed(&pack(&[header(1, 1, 1), symbol(0, 0, 1, 0), vec![(0, 1)]].concat()), 2, 67);
    let tag = pack(
        &[header(1, 1, 1), symbol(1, 0, 1, 0), [node(0), node(0), node(0), node(0), node(0), node(0)].concat()]
            .concat(),
    );
    assert_eq!(tag.len() * 8, 120);
    refuse_packed(&tag, 2, 120);
}

#[test]
fn errors_3_to_8_of_a_packed_book_are_at_their_field() {
    for form in [0, 3, 4, 9, 15] {
        refuse_packed(&[form << 4], 3, 0);
    }
    refuse_packed(&pack(&header(0, 1, 0)), 4, 4);
    refuse_packed(&pack(&header(1, 0, 0)), 5, 12);
    for arity in [0, 1, 3, 4, 5, 6, 7] {
        refuse_packed(&pack(&[header(1, 1, 0), symbol(arity, 1, 9, 0)].concat()), 6, 38);
    }
    refuse_packed(&pack(&[header(1, 5, 0), symbol(0, 0, 4, 0)].concat()), 7, 42);
    refuse_wrapper(&[symbol(1, 0, 0, 0), symbol(0, 0, 1, 1)], 42);
    refuse_wrapper(&[symbol(0, 0, 1, 1), symbol(1, 0, 0, 0)], 70);
    // Of two, the one ranked lower; of three, the first that is not ranked highest.
    refuse_wrapper(&[symbol(1, 0, 0, 5), symbol(1, 0, 0, 3)], 70);
    refuse_wrapper(&[symbol(1, 0, 0, 9), symbol(1, 0, 0, 3), symbol(1, 0, 0, 4)], 70);
    refuse_wrapper(&[symbol(1, 0, 0, 2), symbol(2, 0, 0, 3), symbol(1, 0, 0, 4)], 42);
    refuse_packed(&pack(&[header(2, 1, 0), symbol(0, 0, 1, 9), symbol(2, 1, 0, 9)].concat()), 8, 86);
    refuse_packed(
        &pack(&[header(3, 1, 0), symbol(0, 0, 1, 9), symbol(2, 1, 0, 0), symbol(2, 0, 0, 9)].concat()),
        8,
        114,
    );
}

#[test]
fn errors_9_to_11_of_a_packed_book_are_at_their_bit() {
    refuse_packed(&book(1, &node(2)), 9, RULES_AT + 1);
    refuse_packed(&book(1, &[node(1), node(255)].concat()), 9, RULES_AT + 10);
    refuse_packed(&book(1, &[variable(0), node(2)].concat()), 9, RULES_AT + 6);
    refuse_packed(&book(1, &node(1).repeat(128)), 10, RULES_AT + 128 * 9);
    refuse_packed(&book(1, &[variable(0), node(1).repeat(130)].concat()), 10, RULES_AT + 5 + 128 * 9);
    refuse_packed(&book(0, &[(0, 2), (0, 8)]), 11, RULES_AT);
    refuse_packed(&book(0, &[(1, 2)]), 11, RULES_AT);
    refuse_packed(&book(0, &[(2, 2)]), 11, RULES_AT);
    refuse_packed(&book(1, &[node(0), node(0), vec![(0, 7), (1, 1)]].concat()), 11, RULES_AT + 18);
    let full = [node(0), node(0)].concat();
    assert_eq!(book(1, &full).len() * 8, RULES_AT + 18);
    refuse_packed(&[book(1, &full), vec![0]].concat(), 11, RULES_AT + 18);
}

#[test]
fn the_first_fault_of_a_packed_book_is_given() {
    // The form before everything, K before w0, AC with its arity before the weight, the weight before the rank.
    refuse_packed(&pack(&[(3, 4), (0, 8), (0, 16)]), 3, 0);
    refuse_packed(&pack(&[(1, 4), (0, 8), (0, 16)]), 17, 0);
    refuse_packed(&pack(&[(2, 4), (0, 8), (0, 16)]), 4, 4);
    refuse_packed(&pack(&[header(2, 3, 0), symbol(1, 1, 0, 0)].concat()), 6, 38);
    refuse_packed(&pack(&[header(2, 3, 0), symbol(0, 0, 3, 5), symbol(0, 0, 2, 5)].concat()), 7, 70);
    refuse_packed(&pack(&[header(2, 3, 0), symbol(0, 0, 3, 5), symbol(0, 0, 3, 5), vec![(1, 1)]].concat()), 8, 86);
    // A fault before a cut, and a cut before a fault that would follow.
    refuse_packed(&pack(&[(2, 4), (0, 8)]), 4, 4);
    refuse_packed(&book(2, &[node(0), node(9)].concat()), 9, RULES_AT + 10);
    refuse_packed(&book(1, &node(1).repeat(3)), 2, RULES_AT + 28);
}

#[test]
fn errors_of_words_are_at_their_word() {
    for len in 0..SHEET.len() {
        refuse_words(&SHEET[..len], 2, len);
    }
    refuse_words(&sheet(&[]), 2, 12);
    refuse_words(&sheet(&[1, 1, 0]), 2, 15);
    let wide = [16, 256, 0, 1_024, 8, 2, 0, 256, 8, 2, 0, 256];
    for (index, word) in wide.into_iter().enumerate().filter(|(_, word)| *word > 0) {
        for word in [word, u16::MAX] {
            let mut words = SHEET;
            words[index] = word;
            refuse_words(&words, 14, index);
        }
    }
    let with = |index: usize, word| {
        let mut words = SHEET;
        words[index] = word;
        words
    };
    refuse_words(&with(0, 0), 3, 0);
    refuse_words(&with(0, 3), 3, 0);
    refuse_words(&with(0, 15), 3, 0);
    refuse_words(&with(0, 1), 17, 0);
    refuse_words(&[1], 17, 0);
    refuse_words(&with(1, 0), 4, 1);
    refuse_words(&with(2, 0), 5, 2);
    refuse_words(&with(5, 1), 6, 4);
    refuse_words(&with(9, 1), 6, 8);
    refuse_words(&with(2, 2), 7, 6);
    refuse_words(&with(10, 0), 7, 10);
    refuse_words(&with(11, 7), 8, 11);
    refuse_words(&sheet(&[2]), 9, 12);
    refuse_words(&sheet(&[256, 255]), 9, 13);
    refuse_words(&sheet(&[272]), 14, 12);
    refuse_words(&sheet(&[256, u16::MAX]), 14, 13);
    refuse_words(&sheet(&[1; 128]), 10, 12 + 128);
    refuse_words(&sheet(&[1; 140]), 10, 12 + 128);
    refuse_words(&sheet(&[[1; 128].as_slice(), &[999]].concat()), 10, 12 + 128);
    refuse_words(&sheet(&[256, 257, 0]), 15, 14);
    refuse_words(&[SHEET.as_slice(), &[u16::MAX]].concat(), 15, 12);
}

#[test]
fn the_first_fault_of_words_is_given() {
    // A word that is too wide goes before what its value would break, also for an AC word after an arity other than 2.
    refuse_words(&[16, 0, 0], 14, 0);
    refuse_words(&[2, 1, 1, 0, 3, 2], 14, 5);
    refuse_words(&[2, 1, 1, 0, 3, 1, 0, 999], 6, 4);
    refuse_words(&[2, 1, 1, 0, 0, 0, 0, 999], 7, 6);
    refuse_words(&sheet(&[1, 5, 999]), 9, 13);
    refuse_words(&[SHEET[..3].to_vec(), vec![0, 0, 0, 1, 7, 1, 0, 1, 7, 5]].concat(), 8, 11);
}

#[test]
fn sides_have_at_most_128_nodes() {
    let full = [node(1).repeat(127), variable(0)].concat();
    let packed = book(1, &[full.clone(), full].concat());
    let mut marks = [0];
    assert_eq!(mark(&packed, &mut marks), Ok(Marked { rules: 1, falling: 0, score: 0 }));
    assert_eq!(marks, [9]);
    // The allowance is per side, and ends when a 129th node is called for, not when more than 128 are.
    let wide = |inner| pack(&[header(2, 1, 1), symbol(0, 0, 1, 0), symbol(7, 0, 0, 1), node(1).repeat(inner)].concat());
    refuse_packed(&wide(100), 2, RULES_AT + 901);
    refuse_packed(&wide(128), 10, RULES_AT + 128 * 9);
}

#[test]
fn admissible_weights_pass() {
    for (w0, symbols) in [
        (7, vec![symbol(0, 0, 7, 0)]),
        (65_535, vec![symbol(0, 0, 65_535, 255), symbol(1, 0, 1, 0)]),
        (9, vec![symbol(2, 1, 0, 4), symbol(2, 0, 0, 5), symbol(7, 0, 0, 6), symbol(1, 0, 1, 7)]),
    ] {
        let packed = pack(&[header(symbols.len() as u32, w0, 0), symbols.concat()].concat());
        assert_eq!(mark(&packed, &mut []), Ok(Marked { rules: 0, falling: 0, score: 100 }));
    }
    refuse_packed(&pack(&[header(1, 65_535, 0), symbol(0, 0, 65_534, 0)].concat()), 7, 42);
}
