//! 01's sample book and cases, its traps and its limits, and the examples of the articles: their marks and margins, and
//! the text that the program `cases` prints for them; 02's requests on the sample book.

mod common;
mod examples;

use std::fs;
use std::path::Path;

use common::{nearest_percent, Example, Theory};
use examples::sample::{sample, CASES, COMPARISONS, CONVERSIONS, FINGERPRINTS, OFTENER, PICKS};
use examples::{articles, sample};
use twin::format::Form;
use twin::generate::{Book, Signature};
use twin::table::Symbol;
use twin::{board, compare, convert, count, encode, fingerprint, list, mark, oftener, pick, report};
use twin::{Comparison, Error, Marked, Pick, Relation};

/// 01's listing, in form 2.
const LISTING: [u8; 17] =
    [0x20, 0x20, 0x00, 0x10, 0x08, 0x00, 0x00, 0x40, 0x40, 0x00, 0x04, 0x00, 0x00, 0x01, 0x00, 0x80, 0x00];

#[test]
fn examples_have_their_marks_and_margins() {
    sample::examples().iter().for_each(Example::check);
    articles::examples().iter().for_each(Example::check);
}

#[test]
fn sample_book_is_marked_rule_by_rule() {
    let book = sample().book(&CASES.map(|(rule, ..)| rule));
    let mut marks = [77; CASES.len() + 1];
    assert_eq!(mark(&book, &mut marks), Ok(Marked { rules: 20, falling: 7, score: 35 }));
    let expected: Vec<u8> = CASES.iter().map(|&(_, mark, _)| mark).chain([77]).collect();
    assert_eq!(marks[..], expected);
}

#[test]
fn sample_terms_compare_both_ways() {
    let theory = sample();
    let book = theory.book(&[]);
    for (left, right, relation, margin) in COMPARISONS {
        let reply = compare(&book, &theory.term(left), &theory.term(right));
        assert_eq!(reply, Ok(Comparison { relation, margin }), "{left}, {right}");
    }
}

#[test]
fn sample_terms_are_picked_whatever_follows_them() {
    let theory = sample();
    let book = theory.book(&[]);
    let followers: [&[u16]; 5] = [&[], &[0], &[3, 3], &[272], &[u16::MAX; 200]];
    for (left, right, picked) in PICKS {
        for (left_after, right_after) in followers.iter().flat_map(|s| followers.iter().map(move |t| (*s, *t))) {
            let left_words = [&theory.term(left), left_after].concat();
            let right_words = [&theory.term(right), right_after].concat();
            assert_eq!(pick(&book, &left_words, &right_words), Ok(picked), "{left}, {right}");
        }
    }
}

#[test]
fn sample_terms_have_their_fingerprints() {
    let theory = sample();
    let book = theory.book(&[]);
    for (term, value) in FINGERPRINTS {
        assert_eq!(fingerprint(&book, &theory.term(term)), Ok(value), "{term}");
    }
}

#[test]
fn equivalent_sides_have_one_fingerprint() {
    let theory = sample();
    let book = theory.book(&[]);
    for (left, right, ..) in COMPARISONS.iter().filter(|(_, _, relation, _)| *relation == Relation::Equivalent) {
        let [left_value, right_value] = [left, right].map(|side| fingerprint(&book, &theory.term(side)).unwrap());
        assert_eq!(left_value, right_value, "{left}, {right}");
    }
}

#[test]
fn sample_terms_have_their_oftener_variable() {
    let theory = sample();
    let book = theory.book(&[]);
    for (left, right, variable) in OFTENER {
        assert_eq!(oftener(&book, &theory.term(left), &theory.term(right)), Ok(variable), "{left}, {right}");
    }
    for (rule, mark, _) in CASES {
        let (left, right) = rule.split_once("->").expect("a rule has an arrow");
        let variable = oftener(&book, &theory.term(left), &theory.term(right)).expect("the terms are read");
        assert_eq!(variable < 16, mark == 7, "{rule}");
    }
}

#[test]
fn sample_rules_are_converted() {
    let theory = sample();
    let (old, new): (Vec<&str>, Vec<&str>) = CONVERSIONS.into_iter().unzip();
    let book = theory.as_named(Form::One, &old).packed();
    let mut converted = vec![0; book.len()];
    assert_eq!(convert(&book, &mut converted), Ok(book.len()));
    assert_eq!(converted, theory.as_named(Form::Two, &new).packed());
    let mut listing = LISTING;
    listing[0] = 0x10;
    let mut converted = [0; LISTING.len()];
    assert_eq!(convert(&listing, &mut converted), Ok(LISTING.len()));
    assert_eq!(converted, LISTING);
    assert_eq!(report(&listing), b"refusal 17 0\n");
}

#[test]
fn stored_samples_are_marked_and_converted() {
    let folder = Path::new(env!("CARGO_MANIFEST_DIR")).join("../../samples");
    let read = |file: &str| fs::read(folder.join(file)).unwrap_or_else(|error| panic!("{file}: {error}"));
    for name in ["listing", "sample", "accepted", "refused", "old"] {
        assert_eq!(report(&read(&format!("{name}.book"))), read(&format!("{name}.out")), "{name}");
    }
    assert_eq!(read("listing.book"), LISTING);
    let old = read("old.book");
    let mut converted = vec![0; old.len()];
    assert_eq!(convert(&old, &mut converted), Ok(old.len()));
    assert_eq!(converted, read("old.converted"));
    assert_eq!(report(&converted), b"rules 5\n0 1 2\n1 1 2\n2 1 1\n3 7 2\n4 2 0\nscore 80\nreturned\n");
}

#[test]
fn listing_prints_its_text() {
    assert_eq!(report(&LISTING), b"rules 2\n0 2 0\n1 10 0\nscore 50\nreturned\n");
    assert_eq!(mark(&LISTING, &mut [0; 2]), Ok(Marked { rules: 2, falling: 1, score: 50 }));
    assert_eq!(report(&[]), b"refusal 2 0\n");
    assert_eq!(report(&[0x30]), b"refusal 3 0\n");
    assert_eq!(report(&[0x10]), b"refusal 17 0\n");
    assert_eq!(report(&sample().book(&[])), b"rules 0\nscore 100\naccepted\n");
    assert_eq!(report(&sample().book(&["z -> o"])), b"rules 1\n0 2 0\nscore 100\naccepted\n");
}

#[test]
fn listing_has_its_page() {
    let lines = [
        "   0 falls by rank                                       0      \n",
        "   1 no case                                             0      \n",
    ];
    assert_eq!(String::from_utf8(board(&LISTING)).unwrap(), lines.concat());
    assert_eq!(lines.concat(), include_str!("../../../samples/listing.page"));
    assert_eq!(board(&[]), b"refusal 2 0\n");
    assert_eq!(board(&sample().book(&[])), b"");
}

#[test]
fn score_is_rounded_to_the_nearest_and_a_half_to_the_even_one() {
    let theory = sample();
    let score = |falling: usize, rules: usize| {
        let book = theory.book(&[vec!["z -> o"; falling], vec!["o -> z"; rules - falling]].concat());
        mark(&book, &mut vec![0; rules]).unwrap().score
    };
    for (falling, rules, percent) in [
        (1, 8, 12),
        (3, 8, 38),
        (5, 8, 62),
        (7, 8, 88),
        (1, 2, 50),
        (1, 200, 0),
        (3, 200, 2),
        (0, 0, 100),
        (1, 3, 33),
        (2, 3, 67),
        (1_022, 1_023, 100),
        (1_023, 1_023, 100),
    ] {
        assert_eq!(score(falling, rules), percent, "{falling} of {rules}");
    }
    for rules in 1..=40 {
        for falling in 0..=rules {
            assert_eq!(score(falling, rules), nearest_percent(falling, rules), "{falling} of {rules}");
        }
    }
    let nearly = text(&theory.book(&[vec!["z -> o"; 1_022], vec!["o -> z"]].concat()));
    assert!(nearly.ends_with("score 100\nreturned\n"), "a rule does not fall");
}

#[test]
fn program_prints_what_the_twin_gives() {
    let terms = [comparisons(), picks(), fingerprints(), variable_tests(), sample_page()].concat();
    let requests = [forms(), wrapper(), small_expressions()].concat();
    let parts = [reports(&sample::examples()), terms, listing(), requests, reports(&articles::examples()), limits()];
    assert_eq!(parts.concat(), include_str!("../../../crates/cases/stdout"));
}

/// Each example's title, and the report on its book.
fn reports(examples: &[Example]) -> String {
    examples.iter().map(|example| format!("{}\n{}", example.title, example.report())).collect()
}

/// A line for each comparison of terms of the sample.
fn comparisons() -> String {
    let theory = sample();
    let book = theory.book(&[]);
    let lines = COMPARISONS.iter().map(|(left, right, ..)| {
        let reply = compare(&book, &theory.term(left), &theory.term(right)).expect("the terms are read");
        let number = match reply.relation {
            Relation::Greater => 1,
            Relation::Less => 2,
            Relation::Equivalent => 3,
            Relation::Unrelated => 4,
        };
        format!("{number} {}\n", reply.margin)
    });
    lines.fold("sample, comparisons\n".into(), |text, line| text + &line)
}

/// A line for each pick of terms of the sample, some with words after them.
fn picks() -> String {
    let book = sample().book(&[]);
    let calls: [(&[u16], &[u16]); 6] = [
        (&[3, 256, 1], &[256, 272]),
        (&[256, 3], &[3, 256, 1, 0]),
        (&[5, 256, 0], &[5, 256, 1]),
        (&[3, 1, 0], &[3, 0, 1, 9]),
        (&[3, 4, 256, 0], &[3, 256, 4, 0]),
        (&[0], &[3, 0]),
    ];
    let line = |(left, right)| match pick(&book, left, right) {
        Ok(Pick::Left(words)) => format!("1 {words} {words}\n"),
        Ok(Pick::Right(words)) => format!("2 {words} {words}\n"),
        Ok(Pick::Equivalent) => "3 0 0\n".into(),
        Ok(Pick::Unrelated) => "4 0 0\n".into(),
        Err(error) => error_line(error),
    };
    calls.map(line).into_iter().fold("sample, picks\n".into(), |text: String, line| text + &line)
}

/// A line for each fingerprint of terms of the sample.
fn fingerprints() -> String {
    let book = sample().book(&[]);
    let terms: [&[u16]; 5] = [&[3, 0, 1], &[5, 1, 0], &[3, 3, 0, 1, 3, 0, 256], &[5, 5, 5, 3, 1, 0, 0, 0, 0], &[0, 0]];
    let line = |term| fingerprint(&book, term).map_or_else(error_line, |number| format!("{number} 0 0\n"));
    terms.map(line).into_iter().fold("sample, fingerprints\n".into(), |text: String, line| text + &line)
}

/// A line for each variable test of terms of the sample.
fn variable_tests() -> String {
    let book = sample().book(&[]);
    let calls: [(&[u16], &[u16]); 5] = [
        (&[3, 256, 1], &[256]),
        (&[3, 256, 1], &[3, 256, 256]),
        (&[256], &[3, 257, 271]),
        (&[0], &[271]),
        (&[0], &[1, 1]),
    ];
    let line = |(left, right)| oftener(&book, left, right).map_or_else(error_line, |number| format!("{number} 0 0\n"));
    calls.map(line).into_iter().fold("sample, variable tests\n".into(), |text: String, line| text + &line)
}

/// The page of the sample.
fn sample_page() -> String {
    let lines = String::from_utf8(board(&sample().book(&CASES.map(|(rule, ..)| rule)))).expect("a page is text");
    format!("sample, page\n{lines}")
}

fn listing() -> String {
    format!("listing\n{}", text(&LISTING))
}

/// A book of form 1 and what it is converted to, and a variable out of turn.
fn forms() -> String {
    let theory = sample();
    let rules = ["sub(v,u)+z -> sub(v,u)", "sub(s,w)+z -> sub(s,w)", "neg(w) -> w", "u+y -> s", "z -> o"];
    let old = theory.as_named(Form::One, &rules).packed();
    let mut book = vec![0; old.len()];
    let line = |book: &[u8], output: &mut [u8]| {
        convert(book, output).map_or_else(error_line, |count| format!("{count} 0 0\n"))
    };
    let converted = line(&old, &mut book);
    let again = line(&book, &mut vec![0; book.len()]);
    let short = line(&old, &mut vec![0; old.len() - 1]);
    let out_of_turn = theory.as_named(Form::Two, &["v+u -> u"]);
    let parts = [
        format!("a book of form 1\n{}", text(&old)),
        format!("the book converted\n{converted}{}{again}{short}", text(&book)),
        format!("a variable out of turn\n{}{}", refused(&out_of_turn.words()), text(&out_of_turn.packed())),
    ];
    parts.concat()
}

/// A book with a symbol of arity 1 that weighs 0, and books in which that symbol is refused.
fn wrapper() -> String {
    let theory = Theory::new(1, &[("c", 0, 1, 0), ("+", 2, 1, 1), ("g", 1, 1, 2), ("f", 1, 0, 3)]);
    let rules = [
        "f(x) -> x",
        "f(f(f(x))) -> x",
        "x -> f(x)",
        "f(c) -> c",
        "f(x)+y -> x+y",
        "f(g(x)) -> g(f(x))",
        "g(f(x)) -> g(x)",
        "f(x) -> f(y)",
        "f(x) -> f(f(x))",
        "g(x) -> x",
    ];
    let book = theory.book(&rules);
    let page = String::from_utf8(board(&book)).expect("a page is text");
    let old = [&[book[0] - 0x10], &book[1..]].concat();
    let converted = convert(&old, &mut vec![0; old.len()]).map_or_else(error_line, |count| format!("{count} 0 0\n"));
    let low = Theory::new(1, &[("f", 1, 0, 0), ("c", 0, 1, 1)]);
    let parts = [
        format!("a weightless wrapper\n{}{page}", text(&book)),
        format!("the same in form 1\n{converted}"),
        format!("a wrapper ranked below another symbol\n{}{}", refused(&low.sheet(&[])), text(&low.book(&[]))),
    ];
    parts.concat()
}

/// The numbers of small expressions, and a list of them with the words after it.
fn small_expressions() -> String {
    let book = sample().book(&[]);
    let numbers = |book: &[u8]| (0..=8).map(|n| counting(book, n)).collect::<String>();
    let mut words = [77; 66];
    let listed = listing_line(list(&book, &mut words, 3));
    let rows = words.chunks(3).map(|row| format!("{} {} {}\n", row[0], row[1], row[2]));
    let short = [3, 0, 8].map(|n| listing_line(list(&book, &mut [0; 62], n))).concat();
    let no_constant = Theory::new(1, &[("f", 1, 1, 0), ("+", 2, 1, 1), ("g", 7, 0, 2)]).book(&[]);
    let nothing = listing_line(list(&no_constant, &mut [0; 1], 7));
    let (most, more) = (of_arities(&[17, 4, 3, 11]), of_arities(&[2, 8]));
    let parts = [
        format!("sample, numbers of small expressions\n{}", numbers(&book)),
        format!("sample, expressions of 3 nodes\n{listed}{}", rows.collect::<String>()),
        format!("sample, room for a word less, and also a size that is none\n{short}"),
        format!("no constant\n{}{nothing}", numbers(&no_constant)),
        format!("65,535 terms, and 65,536\n{}{}", counting(&most, 4), counting(&more, 6)),
        listing_line(list(&more, &mut [0; 100], 6)),
    ];
    parts.concat()
}

/// A book without rules, of so many symbols of each arity.
fn of_arities(counts: &[usize]) -> Vec<u8> {
    let arities = counts.iter().zip(0..).flat_map(|(&count, arity)| vec![arity; count]);
    let symbols = arities.zip(0..).map(|(arity, rank)| Symbol { arity, ac: false, weight: 1, rank });
    Book::empty(Signature { w0: 1, symbols: symbols.collect() }).packed()
}

/// The line of a count.
fn counting(book: &[u8], n: usize) -> String {
    match count(book, n) {
        Ok(Some(number)) => format!("1 {number} 0\n"),
        Ok(None) => "2 0 0\n".into(),
        Err(error) => error_line(error),
    }
}

/// The line of a list.
fn listing_line(reply: Result<usize, Error>) -> String {
    reply.map_or_else(error_line, |words| format!("{words} 0 0\n"))
}

/// The report on a book.
fn text(book: &[u8]) -> String {
    String::from_utf8(report(book)).expect("a report is text")
}

fn error_line(error: Error) -> String {
    format!("{} {} {}\n", error.code, error.input, error.offset)
}

/// The line of a marked book.
fn marking(book: &[u8], marks: usize) -> String {
    let reply = mark(book, &mut vec![0; marks]);
    reply.map_or_else(error_line, |marked| format!("{} {} {}\n", marked.rules, marked.falling, marked.score))
}

/// The line of a sheet that is not encoded.
fn refused(sheet: &[u16]) -> String {
    error_line(encode(sheet, &mut [0; 32_768]).expect_err("the sheet is refused"))
}

/// A rule with so many symbols of arity 1 on its left side.
fn tower(height: usize) -> String {
    format!("{}c{} -> c", "f(".repeat(height), ")".repeat(height))
}

/// 01's limits, each at the last input that is read and at the first that is refused.
fn limits() -> String {
    let theory = Theory::new(1, &[("f", 1, 1, 0), ("c", 0, 1, 1)]);
    let mut long = theory.book(&[tower(114).as_str(); 251]);
    let longest = marking(&long, 251);
    long.push(0);
    let too_long = marking(&long, 251);
    let (high, too_high) = (tower(127), tower(128));
    let nodes = [text(&theory.book(&[&high])), refused(&theory.sheet(&[&too_high])), text(&theory.book(&[&too_high]))];
    let [light, too_light] = [2, 1].map(|weight| Theory::new(2, &[("c", 0, weight, 0)]));
    let weights = [text(&light.book(&[])), refused(&too_light.sheet(&[])), text(&too_light.book(&[]))];
    let many = theory.book(&[tower(1).as_str(); 1_023]);
    let parts = [
        format!("no bytes\n{}", text(&[])),
        format!("32,768 bytes, and 32,769\n{longest}{too_long}"),
        format!("128 nodes, and 129\n{}", nodes.concat()),
        format!("a constant of weight w0, and of w0 - 1\n{}", weights.concat()),
        format!("1,023 marks for 1,023 rules, and 1,022\n{}{}", marking(&many, 1_023), marking(&many, 1_022)),
    ];
    parts.concat()
}
