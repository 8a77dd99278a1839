//! The field that a refusal names, held to the twin's list of fields: every book is cut off after every byte.

mod common;

use common::run_on;
use twin::generate::{Book, Random, Role};

/// The seed and the count of generated books.
const SEED: u64 = 20_004;
const BOOKS: usize = 150;

/// The name and the end, in bits, of each field of a book.
fn fields(book: &Book) -> Vec<(String, usize)> {
    let (mut end, mut entries, mut sides, mut node) = (0, 0, 0, 0);
    let name = |field: twin::generate::Field| {
        end += field.packed().iter().map(|(_, width)| width).sum::<usize>();
        let symbol = entries / 4;
        entries += usize::from(matches!(field.role, Role::Arity | Role::Ac | Role::Weight | Role::Rank));
        node = if field.role == Role::Root { 0 } else { node + 1 };
        sides += usize::from(field.role == Role::Root);
        let name = match field.role {
            Role::Form => "form".into(),
            Role::SymbolCount => "count of symbols".into(),
            Role::W0 => "w0".into(),
            Role::RuleCount => "count of rules".into(),
            Role::Arity => format!("symbol {symbol}, arity"),
            Role::Ac => format!("symbol {symbol}, AC mark"),
            Role::Weight => format!("symbol {symbol}, weight"),
            Role::Rank => format!("symbol {symbol}, rank"),
            Role::Root | Role::Node => {
                let (rule, side) = ((sides - 1) / 2, if sides % 2 == 1 { "left" } else { "right" });
                format!("rule {rule}, {side} side, node {node}")
            }
        };
        (name, end)
    };
    book.fields().into_iter().map(name).collect()
}

#[test]
fn missing_fields_are_named() {
    let mut random = Random::new(SEED);
    for _ in 0..BOOKS {
        let book = Book::random(&mut random, 4);
        let (fields, packed) = (fields(&book), book.packed());
        for length in 0..packed.len() {
            let outcome = run_on(&["list", "--book", "book"], &[("book", &packed[..length])]);
            let words = outcome.complaint.expect("a book that is cut off is refused");
            let (name, _) = fields.iter().find(|(_, end)| *end > 8 * length).expect("a field is cut off");
            assert!(
                words.starts_with(&format!("book: {name}: ")) && words.contains("(refusal 2, bit "),
                "{name}: {words}"
            );
        }
    }
}
