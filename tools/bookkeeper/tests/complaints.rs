//! Complaints: what is wrong, with its line and column or its field, and the status.

mod common;

use common::{run_on, sample};

/// The lines before the line under test, which is line 5.
const HEAD: &str = "w0 2\nvariables x y\nsymbol z arity 0 weight 2 rank 0\nsymbol + arity 2 ac weight 1 rank 1\n";

/// Lines after `HEAD` with the status and the complaint.
const LINES: [(&str, u8, &str); 42] = [
    ("z", 3, "5:2: an operator or `->` is missing before the end of the line"),
    ("z ->", 3, "6:1: a term is missing before the end of the text"),
    ("-> z", 3, "5:1: a term is missing before `->`"),
    ("z -> x y", 3, "5:8: the line should end before `y`"),
    ("z -> q", 3, "5:6: `q` is neither a symbol nor a variable of this book"),
    ("x * z -> z", 3, "5:3: `*` is not a symbol of this book"),
    ("x + -> z", 3, "5:5: a term is missing before `->`"),
    ("+ x -> z", 3, "5:1: a term is missing before `+`"),
    ("(x + z -> z", 3, "5:8: an operator or `)` is missing before `->`"),
    ("x) -> z", 3, "5:2: an operator or `->` is missing before `)`"),
    ("z(x) -> z", 3, "5:1: `z` takes 0 arguments, and has 1"),
    ("z -> \t\x01", 3, "5:7: the character \\u{1} does not belong in a text"),
    ("w0 1", 3, "5:1: there is a line `w0` before this one"),
    ("variables z", 3, "5:11: `z` is declared before"),
    ("variables order", 3, "5:11: `order` begins lines, and is no name"),
    ("variables +", 3, "5:11: the line should end before `+`"),
    ("symbol", 3, "5:7: a name is missing before the end of the line"),
    ("symbol x", 3, "5:8: `x` is declared before"),
    ("symbol f 1", 3, "5:10: `arity` is missing before `1`"),
    ("symbol f arity one", 3, "5:16: the arity, a number, is missing before `one`"),
    ("symbol f arity 1 weight 65536", 3, "5:25: `65536` is above 65535"),
    ("symbol * arity 1 weight 1 rank 2\nx * x -> x", 3, "6:3: `*` takes 1 argument, so it stands between no two terms"),
    ("+(x) -> z", 3, "5:1: `+` takes 2 arguments, and has 1"),
    ("+(x, y, z) -> z", 3, "5:1: `+` takes 2 arguments, and has 3"),
    ("symbol f arity 1 weight 1", 3, "5:8: `f` has no rank, and there is no line `order`"),
    ("symbol f arity 1 weight 1\norder f", 2, "5:8: rank"),
    ("order z", 3, "5:7: `z` has rank 0 already, on line 3"),
    ("order z > x", 3, "5:11: `x` is not a symbol above"),
    ("order", 3, "5:6: the end of the line is not a symbol above"),
    ("symbol f arity 8 weight 1 rank 2", 2, "5:16: symbol 2 (f), arity 8: "),
    ("symbol f arity 3 ac weight 1 rank 2", 2, "5:16: symbol 2 (f), arity 3: "),
    ("symbol f arity 0 weight 1 rank 2", 2, "5:25: symbol 2 (f), weight 1: "),
    ("symbol f arity 1 weight 0 rank 2\nsymbol g arity 2 weight 0 rank 3", 2, "5:25: symbol 2 (f), weight 0: "),
    ("symbol f arity 1 weight 1 rank 256", 2, "5:32: symbol 2 (f), rank 256: "),
    ("symbol f arity 1 weight 1 rank 1", 2, "5:32: symbol 2 (f), rank 1: "),
    ("# a comment\n  x +\nz -> x", 3, "6:6: a term is missing before the end of the line"),
    ("(x +\nz) -> # goes on\n  z -> x", 3, "7:5: line 6 ends in `->`, so the rule goes on here, and ends before `->`"),
    ("x + z + (z + x) -> (x", 3, "6:1: an operator or `)` is missing before the end of the text"),
    ("symbol * arity 2 ac weight 1 rank 2\nx + x * x -> x", 3, "6:7: two operators in a row of terms"),
    ("symbol - arity 2 weight 1 rank 2\nx - x - x -> x", 3, "6:7: `-` is not AC: parentheses must part"),
    ("symbol f arity 2 weight 1 rank 2\nf(x; y) -> x", 3, "6:4: `;` is not a symbol of this book"),
    ("symbol f arity 2 weight 1 rank 2\nf(x y) -> x", 3, "6:5: an operator, `,` or `)` is missing before `y`"),
];

#[test]
fn texts_are_complained_of_by_place() {
    for (line, status, words) in LINES {
        let text = format!("{HEAD}{line}\n");
        let outcome = run_on(&["assemble", "text"], &[("text", text.as_bytes())]);
        let complaint = outcome.complaint.unwrap_or_default();
        if line.ends_with("order f") {
            // The order line leaves out symbols with ranks of their own; its last symbol has rank 0, as `z` has.
            assert!(complaint.contains("6:7: symbol 2 (f), rank 0: "), "{line}: {complaint}");
            assert!(complaint.contains(", symbol 0 (z) (refusal 8, word 15)\n"), "{line}: {complaint}");
        } else {
            assert!(complaint.starts_with(&format!("text:{words}")), "{line}: {complaint}");
        }
        assert_eq!((outcome.status, outcome.output.is_empty()), (status, true), "{line}");
    }
}

#[test]
fn limits_are_the_librarys() {
    let chain = |count: usize| vec!["x"; count].join(" + ");
    let refused = |text: String, words: &str| {
        let outcome = run_on(&["mark", "text"], &[("text", text.as_bytes())]);
        let complaint = outcome.complaint.unwrap_or_default();
        assert_eq!((outcome.status, complaint.contains(words)), (2, true), "{complaint}");
    };
    // 64 variables and 63 operators are 127 nodes.
    let taken = run_on(&["mark", "text"], &[("text", format!("{HEAD}{} -> x\n", chain(64)).as_bytes())]);
    assert_eq!((taken.status, taken.complaint), (0, None));
    refused(format!("{HEAD}{} -> x\n", chain(65)), "rule 0, left side, node 128: ");
    refused(format!("{HEAD}{}", "z -> z\n".repeat(1_024)), "1028:1: count of rules 1024: ");
    let symbols: String = (2..=256).map(|rank| format!("symbol s{rank} arity 1 weight 1 rank {rank}\n")).collect();
    refused(format!("{HEAD}{symbols}"), "258:8: count of symbols 257: ");
    refused("w0 1\n".into(), "count of symbols 0: ");
    refused("w0 0\nsymbol z arity 0 weight 0 rank 0".into(), "1:4: w0 0: ");
    let variables: Vec<String> = (0..17).map(|number| format!("v{number}")).collect();
    let (names, chain) = (variables.join(" "), variables.join(" + "));
    refused(format!("{HEAD}variables {names}\nv0 -> {chain}\n"), "6:93: rule 0, right side, node 32: ");
    let sum = vec!["z"; 20].join(" + ");
    refused(format!("{HEAD}{}", format!("{sum} -> z\n").repeat(1_023)), "32,768 bytes");
}

#[test]
fn books_are_refused_by_field() {
    let complaint = |book: &[u8]| run_on(&["mark", "--book", "book"], &[("book", book)]).complaint.unwrap_or_default();
    let starts = |book: &[u8], words: &str| assert!(complaint(book).starts_with(words), "{}", complaint(book));
    let listing = sample("listing.book");
    let refused = complaint(&sample("refused.book"));
    assert!(refused.starts_with("book: symbol 4, rank 3: ") && refused.ends_with(", symbol 3 (refusal 8, bit 170)"));
    starts(&[], "book: form: ");
    starts(&[0x30, 0x10], "book: form 3: ");
    starts(&[0x20, 0x00], "book: count of symbols 0: ");
    starts(&listing[..4], "book: count of rules: ");
    starts(&listing[..9], "book: symbol 1, weight: ");
    starts(&listing[..15], "book: rule 1, left side, node 0: ");
    starts(&[&listing[..], &[0]].concat(), "book: after the last rule: ");
    starts(&vec![0x20; 32_769], "book: ");
}

#[test]
fn terms_are_refused_by_column() {
    let text = sample("sample.txt");
    let complaint = |arguments: &[&str]| run_on(arguments, &[("text", &text)]);
    let outcome = complaint(&["compare", "text", "u + z)", "u"]);
    assert_eq!(
        outcome.complaint.as_deref(),
        Some("the first term: line 1, column 6: an operator is missing before `)`")
    );
    assert_eq!(outcome.status, 3);
    let outcome = complaint(&["pick", "text", "u", &"neg(".repeat(128)]);
    assert_eq!(outcome.status, 3);
    let long = format!("{}u{}", "neg(".repeat(128), ")".repeat(128));
    let outcome = complaint(&["pick", "text", "u", &long]);
    let words = outcome.complaint.unwrap_or_default();
    assert!(words.starts_with("the second term: column 513: ") && words.ends_with("(refusal 10, word 128)"), "{words}");
    assert_eq!(outcome.status, 2);
}

#[test]
fn wrong_use_has_status_3() {
    let text = sample("sample.txt");
    let wrong: [&[&str]; 10] = [
        &[],
        &["frobnicate"],
        &["mark"],
        &["mark", "text", "text"],
        &["mark", "absent"],
        &["mark", "text", "--loud"],
        &["mark", "text", "-o"],
        &["list", "text", "--names", "absent"],
        &["compare", "text", "u"],
        &["assemble", "bytes"],
    ];
    for arguments in wrong {
        let outcome = run_on(arguments, &[("text", &text), ("bytes", b"w0 1\n\xff")]);
        assert_eq!((outcome.status, outcome.complaint.is_some()), (3, true), "{arguments:?}");
    }
    let names = "w0 1\nsymbol + arity 2 ac weight 1\norder +\n";
    let files = [("book", &sample("listing.book")[..]), ("names", names.as_bytes())];
    let complaint = run_on(&["list", "book", "--names", "names"], &files).complaint;
    assert_eq!(complaint.as_deref(), Some("names: it names 1 symbols, and the book has 2"));
}

#[test]
fn lines_are_shown() {
    let shown = |line: &str| {
        let text = format!("{HEAD}{line}\n");
        let complaint = run_on(&["assemble", "text"], &[("text", text.as_bytes())]).complaint.unwrap_or_default();
        complaint.lines().skip(1).map(str::to_string).collect::<Vec<_>>()
    };
    assert_eq!(shown("x + q -> z"), ["    x + q -> z", "        ^"]);
    assert_eq!(shown("\tx + q -> z\r"), ["    \tx + q -> z", "    \t    ^"]);
    assert_eq!(
        shown("symbol f arity 8 weight 1 rank 2"),
        ["    symbol f arity 8 weight 1 rank 2", "                   ^"]
    );
    assert_eq!(shown("z ->"), [""; 0]);
    let long = format!("{} + q -> z", vec!["x"; 60].join(" + "));
    let [text, mark] = &shown(&long)[..] else { panic!("two lines") };
    assert_eq!((text.len() <= 104, text.as_bytes()[mark.len() - 1]), (true, b'q'));
}
