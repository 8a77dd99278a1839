//! The programs `marker`, `board` and `convert`, which `rt ci` builds, print what the twin's texts have, and what
//! the twin converts a book to.

use std::io::Write;
use std::path::Path;
use std::process::{Command, Stdio};

use twin::generate::{damaged_packed, Book, Random};
use twin::{board, convert, report};

const SEED: u64 = 7;
const BOOKS: usize = 600;

/// What a program prints for a book.
fn printed(program: &str, book: &[u8]) -> Vec<u8> {
    let path = Path::new(env!("CARGO_MANIFEST_DIR")).join("../../crates").join(program).join("out").join(program);
    let mut run = Command::new(path)
        .stdin(Stdio::piped())
        .stdout(Stdio::piped())
        .spawn()
        .unwrap_or_else(|error| panic!("crates/{program}/out/{program}, which `rt ci` builds: {error}"));
    run.stdin.take().expect("its input is a pipe").write_all(book).expect("it reads its input to the end");
    run.wait_with_output().expect("it ends").stdout
}

/// A program prints the text that is given of each book.
fn check(program: &str, seed: u64, text: fn(&[u8]) -> Vec<u8>) {
    let mut random = Random::new(seed);
    let (mut rules, mut refused) = (0, 0);
    for round in 0..BOOKS {
        let book = match round % 100 {
            0 => Book::largest(&mut random, round % 200 == 0),
            _ => Book::any(&mut random, 24),
        };
        let packed = if round % 3 == 1 { damaged_packed(&mut random, &book) } else { book.packed() };
        let text = text(&packed);
        assert_eq!(printed(program, &packed), text, "{program}, book {round}");
        rules += book.rules.len();
        refused += usize::from(text.starts_with(b"refusal"));
    }
    println!("{program}: {BOOKS} books of {rules} rules, {refused} refused");
    assert!(refused > BOOKS / 10);
}

#[test]
fn marker_prints_the_report() {
    check("marker", SEED, report);
}

#[test]
fn board_prints_the_page() {
    check("board", SEED + 1, board);
}

#[test]
fn convert_prints_the_converted_book() {
    let mut random = Random::new(SEED + 2);
    let mut refused = 0;
    for round in 0..BOOKS {
        let book = match round % 100 {
            0 => Book::largest(&mut random, round % 200 == 0),
            _ => Book::any(&mut random, 24),
        };
        let old = book.aged(&mut random);
        let packed = if round % 3 == 1 { damaged_packed(&mut random, &old) } else { old.packed() };
        let mut converted = vec![0; packed.len()];
        if let Err(error) = convert(&packed, &mut converted) {
            converted = format!("refusal {} {}\n", error.code, error.offset).into_bytes();
            refused += 1;
        }
        assert_eq!(printed("convert", &packed), converted, "book {round}");
    }
    println!("{BOOKS} books, {refused} refused");
    assert!(refused > BOOKS / 10);
}
