//! What `docs/MARKS.md` and `docs/FORMAT.md` say of places, of rules turned round, of the listing and of limits holds.

mod common;

use ackbo::{layout, Mark, Refusal};
use common::{bytes, text};

/// The sheet of the sample book.
fn sample() -> Vec<u16> {
    ackbo::decoded(&bytes("samples/sample.book")).unwrap()
}

/// Puts a value into a field of a book.
fn put(book: &mut [u8], at: usize, width: usize, value: u16) {
    for bit in 0..width {
        let (byte, mask) = ((at + bit) / 8, 0x80 >> ((at + bit) % 8));
        book[byte] &= !mask;
        if value >> (width - 1 - bit) & 1 == 1 {
            book[byte] |= mask;
        }
    }
}

/// A value in a field of the sample book, which begins at this bit and has this width, is refused there.
fn refused_at_bit(bit: usize, width: usize, value: u16, refusal: Refusal) {
    let mut book = bytes("samples/sample.book");
    put(&mut book, bit, width, value);
    let error = ackbo::decoded(&book).unwrap_err();
    assert_eq!((error.refusal(), error.input, error.offset), (Some(refusal), 0, bit), "{value} at bit {bit}");
}

/// A value of a word of the sample's sheet is refused there.
fn refused_at_word(word: usize, value: u16, refusal: Refusal) {
    let mut sheet = sample();
    sheet[word] = value;
    let error = ackbo::encoded(&sheet).unwrap_err();
    assert_eq!((error.refusal(), error.input, error.offset), (Some(refusal), 0, word), "{value} at word {word}");
}

/// Both, for a field with the same value in the book and in the sheet.
fn refused_at(bit: usize, width: usize, word: usize, value: u16, refusal: Refusal) {
    refused_at_bit(bit, width, value, refusal);
    refused_at_word(word, value, refusal);
}

#[test]
fn places_name_their_fields() {
    refused_at(0, 4, 0, 1, Refusal::OldForm);
    refused_at(0, 4, 0, 15, Refusal::WrongForm);
    refused_at(4, 8, 1, 0, Refusal::NoSymbols);
    refused_at(12, 16, 2, 0, Refusal::VariableWeightless);
    // Symbol 0 has rank 0; symbol 3 is AC, 0 to 2 are constants, 4 has arity 1.
    for symbol in 1..6 {
        refused_at(58 + 28 * symbol, 8, 7 + 4 * symbol, 0, Refusal::RankTaken);
    }
    refused_at(38 + 28 * 3, 3, 4 + 4 * 3, 7, Refusal::AcNotBinary);
    for symbol in [0, 1, 2, 4] {
        refused_at(42 + 28 * symbol, 16, 6 + 4 * symbol, 0, Refusal::WeightInadmissible);
    }
}

/// The first rule is u+z -> u. Its nodes +, u and z take 9, 5 and 9 bits, a number beginning one bit after its node.
#[test]
fn places_name_their_nodes() {
    let (bit, word) = (38 + 28 * 6, 4 + 4 * 6);
    refused_at(bit + 1, 8, word, 6, Refusal::NoSuchSymbol);
    refused_at_bit(bit + 9 + 1, 4, 1, Refusal::VariableOutOfTurn);
    refused_at_word(word + 1, layout::FIRST_VARIABLE + 1, Refusal::VariableOutOfTurn);
    refused_at(bit + 9 + 5 + 1, 8, word + 2, 255, Refusal::NoSuchSymbol);
    refused_at_word(word + 2, layout::FIRST_VARIABLE + 16, Refusal::WordTooWide);
}

/// The marks of the sample's rules, each turned round.
#[test]
fn rules_turned_round() {
    let sheet = sample();
    let head = &sheet[..4 + 4 * 6];
    let turned: Vec<u16> = layout::rules(&sheet).flat_map(|(left, right)| [right, left].concat()).collect();
    let (_, marks) = ackbo::marked(&ackbo::encoded(&[head, &turned].concat()).unwrap()).unwrap();
    assert_eq!(marks[7], Mark::FallsByWeight);
    assert_eq!(marks[9], Mark::NoCase);
    assert_eq!(marks[10], Mark::VariableAdded);
    assert_eq!(marks[11], Mark::FallsByLowTerms);
}

#[test]
fn the_listing_is_the_sample() {
    let document = text("docs/FORMAT.md");
    let listing = bytes("samples/listing.book");
    let hexadecimal = listing.iter().map(|byte| format!("{byte:02x}")).collect::<Vec<_>>().join(" ");
    assert!(document.contains(&format!("`{hexadecimal}`")), "{hexadecimal}");
    let sheet = ackbo::decoded(&listing).unwrap();
    let words = |line: &str| line.split_whitespace().map(str::parse).collect::<Result<Vec<u16>, _>>();
    assert!(document.lines().any(|line| line.starts_with("    ") && words(line) == Ok(sheet.clone())));
}

/// The limits that the documents name.
#[test]
fn the_documents_limits() {
    let (marks, format) = (text("docs/MARKS.md"), text("docs/FORMAT.md"));
    let written = |number: usize| format!("{},{:03}", number / 1_000, number % 1_000);
    for limit in [layout::MAX_WORDS, layout::MAX_BYTES, layout::MAX_RULES] {
        assert!(marks.contains(&written(limit)) && format.contains(&written(limit)), "{limit}");
    }
}
