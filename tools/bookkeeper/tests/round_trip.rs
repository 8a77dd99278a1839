//! Assembling and listing are inverse, over generated books.

mod common;

use common::{printed, run_on};
use twin::generate::{Book, Random};

/// The seed and the count of generated books.
const SEED: u64 = 20_001;
const BOOKS: usize = 6_000;

/// Checks that a listing assembles to the book, and is the listing of it.
fn check(book: &[u8], options: &[&str], names: &str) {
    let list = [&["list", "book", "--book"], options].concat();
    let text = printed(&list, &[("book", book), ("names", names.as_bytes())]);
    let outcome = run_on(&["assemble", "text"], &[("text", text.as_bytes())]);
    assert_eq!(outcome.complaint, None, "{text}");
    assert!(outcome.output == book, "another book:\n{text}");
    let again = printed(&["list", "text", "--text", "--names", "text"], &[("text", text.as_bytes())]);
    assert_eq!(again, text);
}

/// A text with names of all kinds for a book's symbols, and a few variables.
fn names_for(random: &mut Random, book: &Book) -> String {
    let mut text = String::from("w0 1\n");
    let variables = random.below(5);
    let letters = ["a'", "Ünique", "_", "0", "v1"];
    text += &format!("variables {}\n", letters[..variables].join(", "));
    for (number, symbol) in book.signature.symbols.iter().enumerate() {
        let name = match random.below(4) {
            0 if symbol.ac => "*".repeat(number + 1),
            1 if symbol.ac => format!("⊕{}", "-".repeat(number)),
            2 => format!("{number}s"),
            _ => format!("symbol_{number}"),
        };
        let ac = if symbol.ac { "ac" } else { "" };
        text += &format!("symbol {name} arity {} {ac} weight 1 rank {number}\n", symbol.arity);
    }
    text
}

#[test]
fn generated_books_come_back() {
    let mut random = Random::new(SEED);
    for _ in 0..BOOKS {
        let book = Book::any(&mut random, 12);
        check(&book.packed(), &[], "");
        check(&book.packed(), &["--names", "names"], &names_for(&mut random, &book));
    }
}

#[test]
fn largest_books_come_back() {
    let mut random = Random::new(SEED);
    for round in 0..8 {
        let book = Book::largest(&mut random, round % 2 == 0);
        assert_eq!(book.packed().len(), 32_768);
        check(&book.packed(), &[], "");
    }
}

#[test]
fn variables_are_numbered_by_first_use() {
    let text = "w0 1\nvariables a b c\nsymbol f arity 2 weight 1 rank 0\nf(c, b) -> f(b, c)\nf(b, b) -> a\n";
    let listed = printed(&["list", "text"], &[("text", text.as_bytes())]);
    assert!(listed.ends_with("f(a, b) -> f(b, a)\nf(a, a) -> b\n"), "{listed}");
    let marked = printed(&["mark", "text"], &[("text", text.as_bytes())]);
    assert!(marked.contains("rule 0, line 4: f(c, b) -> f(b, c)\n"), "{marked}");
    assert!(marked.contains("in the way: a occurs oftener on the right, 1 against 0\n"), "{marked}");
}
