//! The sample texts: they assemble to the sample books, and everything is told of them as stored in `tests/expected`.

mod common;

use common::{printed, run_on, sample, sample_path};

#[test]
fn texts_assemble_to_books() {
    for name in ["listing", "sample", "wrapper"] {
        let text = sample(&format!("{name}.txt"));
        let outcome = run_on(&["assemble", "text"], &[("text", &text)]);
        assert_eq!((outcome.status, outcome.complaint), (0, None));
        assert_eq!(outcome.output, sample(&format!("{name}.book")));
    }
}

#[test]
fn marks_are_told() {
    for (name, expected) in
        [("listing", include_str!("expected/listing.marks")), ("sample", include_str!("expected/sample.marks"))]
    {
        let text = sample(&format!("{name}.txt"));
        let outcome = run_on(&["mark", "text"], &[("text", &text)]);
        assert_eq!((outcome.status, outcome.complaint), (1, None));
        assert_eq!(String::from_utf8(outcome.output).unwrap(), expected);
    }
}

#[test]
fn accepted_book_has_status_0() {
    let outcome = run_on(&["mark", "book"], &[("book", &sample("accepted.book"))]);
    assert_eq!(outcome.status, 0);
    assert!(outcome.output.ends_with(b"rules 6, falling 6, score 100\naccepted\n"));
}

#[test]
fn book_is_listed() {
    let (book, text) = (sample("sample.book"), sample("sample.txt"));
    let files = [("book", &book[..]), ("text", &text[..])];
    assert_eq!(printed(&["list", "book"], &files), include_str!("expected/sample.list"));

    // With the author's names it is the author's text but for comments, blanks and parentheses that change nothing.
    let words = |text: &str| -> Vec<String> {
        let lines = text.lines().map(|line| line.split('#').next().unwrap_or(""));
        let bare = lines.map(|line| line.replace("(o + neg(o)) + z", "o + neg(o) + z"));
        bare.flat_map(|line| line.split_whitespace().map(str::to_string).collect::<Vec<_>>()).collect()
    };
    let listed = printed(&["list", "book", "--names", "text"], &files);
    assert_eq!(words(&listed), words(std::str::from_utf8(&text).unwrap()));
}

#[test]
fn page_has_64_columns() {
    let page = printed(&["page", "book"], &[("book", &sample("sample.book"))]);
    assert!(page.lines().count() == 12 && page.split_inclusive('\n').all(|line| line.len() == 65));
    assert_eq!(page.lines().nth(7), Some("   7 left lighter                                       -1      "));
}

#[test]
fn old_book_is_converted() {
    let old = sample("old.book");
    let outcome = run_on(&["convert", "old", "-o", "new"], &[("old", &old)]);
    assert_eq!((outcome.status, outcome.output), (0, sample("old.converted")));
    assert_eq!(outcome.file.as_deref(), Some("new"));
    let outcome = run_on(&["mark", "old"], &[("old", &old)]);
    let words = outcome.complaint.unwrap_or_default();
    assert!(words.starts_with("old: form 1: ") && words.ends_with("makes form 2 of it (refusal 17, bit 0)"), "{words}");
    assert_eq!(outcome.status, 2);
}

#[test]
fn terms_are_compared() {
    let text = sample("sample.txt");
    let ask = |arguments: &[&str]| {
        let outcome = run_on(arguments, &[("text", &text)]);
        (outcome.status, String::from_utf8(outcome.output).unwrap())
    };
    assert_eq!(ask(&["compare", "text", "u+z", "u"]), (0, "u + z is greater than u, by weight, margin 2\n".into()));
    assert_eq!(ask(&["compare", "text", "o", "neg(o)"]), (0, "o is less than neg(o), by weight, margin -1\n".into()));
    assert_eq!(ask(&["compare", "text", "o+z", "z+o"]), (0, "o + z is AC-equal to z + o, margin 0\n".into()));
    let words = "b is unrelated to u, variable added one way and left lighter the other, margin 2\n";
    assert_eq!(ask(&["compare", "text", "b", "u"]), (0, words.into()));
    assert_eq!(ask(&["pick", "text", "u", "z+(o+u)"]), (0, "z + (o + u) -> u\n".into()));
    assert_eq!(ask(&["pick", "text", "u+o", "o+u"]), (1, "neither: the terms are AC-equal\n".into()));
    assert_eq!(ask(&["pick", "text", "u", "o"]), (1, "neither: the terms are unrelated\n".into()));
    assert_eq!(ask(&["fingerprint", "text", "o+z"]), (0, "262399\n".into()));
    assert_eq!(ask(&["fingerprint", "text", "sub(z,o)"]), (0, "5829\n".into()));
}

#[test]
fn small_terms_are_listed_and_counted() {
    let (text, book) = (sample("sample.txt"), sample("sample.book"));
    let ask = |arguments: &[&str]| {
        let outcome = run_on(arguments, &[("text", &text), ("book", &book)]);
        (outcome.status, String::from_utf8(outcome.output).unwrap())
    };
    assert_eq!(ask(&["terms", "text", "1"]), (0, "o\nz\nb\n".into()));
    assert_eq!(ask(&["terms", "text", "2"]), (0, "neg(o)\nneg(z)\nneg(b)\n".into()));
    let (status, listed) = ask(&["terms", "text", "3"]);
    assert_eq!((status, listed.lines().count()), (0, 21));
    assert!(listed.starts_with("o + o\no + z\n") && listed.ends_with("sub(b, z)\nsub(b, b)\n"), "{listed}");
    assert_eq!(ask(&["terms", "book", "3", "--names", "text"]), (0, listed));
    assert_eq!(ask(&["terms", "book", "2"]), (0, "f4(c0)\nf4(c1)\nf4(c2)\n".into()));
    assert_eq!(ask(&["terms", "text", "7", "--count"]), (0, "6753\n".into()));
    assert_eq!(ask(&["terms", "text", "7"]).1.lines().count(), 6_753);
}

#[test]
fn terms_may_be_none_or_too_many() {
    let ask = |arguments: &[&str], text: &str| {
        let outcome = run_on(arguments, &[("text", text.as_bytes())]);
        (outcome.status, String::from_utf8(outcome.output).unwrap(), outcome.complaint)
    };
    let none = "w0 1\nsymbol f arity 1 weight 1 rank 0\n";
    assert_eq!(ask(&["terms", "text", "7"], none), (0, String::new(), None));
    assert_eq!(ask(&["terms", "text", "7", "--count"], none), (0, "0\n".into(), None));
    let unary: String = (0..7).map(|rank| format!("symbol f{rank} arity 1 weight 1 rank {rank}\n")).collect();
    let many = format!("w0 1\n{unary}symbol c arity 0 weight 1 rank 7\n");
    assert_eq!(ask(&["terms", "text", "6", "--count"], &many).1, "16807\n");
    assert_eq!(ask(&["terms", "text", "7", "--count"], &many), (0, "more\n".into(), None));
    let refused = |arguments: &[&str], words: &str| {
        let (status, output, complaint) = ask(arguments, &many);
        assert_eq!((status, output.as_str(), complaint.as_deref()), (2, "", Some(words)), "{arguments:?}");
    };
    refused(&["terms", "text", "7"], "the terms are too many, or have more words than there is room for (refusal 23)");
    for nodes in ["0", "8", "4294967299", "18446744073709551615"] {
        refused(&["terms", "text", nodes], "the count of nodes is not 1 to 7 (refusal 22)");
        refused(&["terms", "text", nodes, "--count"], "the count of nodes is not 1 to 7 (refusal 22)");
    }
    for arguments in [&["terms", "text"][..], &["terms", "text", "three"], &["terms", "text", "3", "3"]] {
        assert_eq!(ask(arguments, &many).0, 3, "{arguments:?}");
    }
}

#[test]
fn text_of_the_readme_is_marked_as_it_says() {
    let page = std::fs::read_to_string(sample_path("../README.md")).unwrap();
    let blocks: Vec<&str> = page.split("```text\n").skip(1).filter_map(|rest| rest.split("```").next()).collect();
    assert_eq!(blocks[0].as_bytes(), sample("first.txt"));
    let told = run_on(&["mark", "text"], &[("text", blocks[0].as_bytes())]).output;
    assert_eq!(String::from_utf8(told).unwrap(), blocks[1]);
    let accepted = blocks[0].replace("neg arity 1 weight 1", "neg arity 1 weight 0");
    assert_eq!(run_on(&["mark", "text"], &[("text", accepted.as_bytes())]).status, 0);
    let numbers: Vec<&str> =
        page.lines().filter_map(|line| line.strip_prefix("    ")?.split("      ").next()).collect();
    let listing = String::from_utf8(sample("listing.out")).unwrap();
    assert!(listing.lines().all(|line| numbers.contains(&line.trim_end())), "{numbers:?}");
}

#[test]
fn text_of_the_grammars_page_is_marked_as_it_says() {
    let page = std::fs::read_to_string(sample_path("../docs/BOOKS.md")).unwrap();
    let blocks: Vec<&str> = page.split("```text\n").skip(1).filter_map(|rest| rest.split("```").next()).collect();
    let told = run_on(&["mark", "text"], &[("text", blocks[0].as_bytes())]).output;
    assert_eq!(String::from_utf8(told).unwrap(), blocks[1]);
}
