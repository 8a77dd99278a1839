//! What helps to mend a fault stands after it, and every line with a fault is told.

mod common;

use common::{run_on, sample};

/// The lines before the line under test, which is line 5.
const HEAD: &str = "w0 2\nvariables x y\nsymbol z arity 0 weight 2 rank 0\nsymbol + arity 2 ac weight 1 rank 1\n";

/// Lines after `HEAD`, and how their complaint ends.
const HINTS: [(&str, &str); 30] = [
    ("X + z -> x", "`X` is neither a symbol nor a variable of this book; `x` is one"),
    ("symbol neg arity 1 weight 1 rank 2\nngə(x) -> x", "`ngə` is neither a symbol nor a variable of this book"),
    ("symbol neg arity 1 weight 1 rank 2\nnge(x) -> x", "a variable of this book; `neg` is one"),
    ("symbol neg arity 1 weight 1\norder ngg", "`ngg` is not a symbol above; `neg` is one"),
    ("symbl f arity 0 weight 2", "a symbol nor a variable of this book; `symbol` begins such a line"),
    ("vars x", "`vars` is neither a symbol nor a variable of this book; `variables` begins such a line"),
    ("Order z > +", "`Order` is neither a symbol nor a variable of this book; `order` begins such a line"),
    ("symbol f arity 2 AC weight 1", "`weight` is missing before `AC`; perhaps `ac` is meant"),
    ("symbol f arty 2 weight 1", "`arity` is missing before `arty`; perhaps `arity` is meant"),
    ("symbol f weight 1 arity 1", "missing before `weight`; `arity`, `ac`, `weight` and `rank` stand in this order"),
    ("z = x", "`=` is not a symbol of this book; `->` stands between the sides of a rule"),
    ("z → x", "`→` is not a symbol of this book; `->` stands between the sides of a rule"),
    ("// a comment", "a term is missing before `//`; `#` begins a comment"),
    ("z -> x // a comment", "`//` is not a symbol of this book; `#` begins a comment"),
    ("order z, +", "the line should end before `,`; `>` stands between the symbols of an order, the greatest first"),
    ("order z < +", "the line should end before `<`; `>` stands between the symbols of an order, the greatest first"),
    ("order +", "`+` has rank 1 already, on line 4"),
    ("symbol f arity 1 weight 1\norder f > f", "`f` stands in the order twice, first at column 7"),
    ("+ x -> z", "a term is missing before `+`; before its arguments it takes parentheses, `+(..)`"),
    ("z ->\nz -> x", "line 5 ends in `->`, so the rule goes on here, and ends before `->`"),
    ("symbol f arity 8 weight 1 rank 2", "too great for its field; an arity is at most 7 (refusal 14, word 12)"),
    ("symbol f arity 1 weight 1 rank 256", "; a rank is at most 255 (refusal 14, word 15)"),
    ("symbol f arity 1 weight 65536", "`65536` is above 65535"),
    ("symbol f arity 0 weight 1 rank 2", "; a constant weighs at least w0, 2 (refusal 7, word 14)"),
    (
        "symbol f arity 1 weight 0 rank 2\nsymbol g arity 1 weight 1 rank 3",
        "; a symbol of arity 1 weighs at least 1, unless it has the highest rank (refusal 7, word 14)",
    ),
    ("symbol f arity 1 weight 1 rank 1", ", symbol 1 (+) (refusal 8, word 15)"),
    ("symbol - arity 1 weight 1 rank 2\n-x -> x", "before its arguments it takes parentheses, `-(..)`"),
    ("x;", "`;` is not a symbol of this book; `#` begins a comment"),
    ("symbol", "a name is missing before the end of the line"),
    ("x -> z if x", "the line should end before `if`"),
];

/// The complaint of a text.
fn complaint(text: &[u8]) -> String {
    let outcome = run_on(&["mark", "text"], &[("text", text)]);
    assert!(outcome.status >= 2, "{}", String::from_utf8_lossy(text));
    outcome.complaint.unwrap_or_default()
}

/// The places of the complaints.
fn places(complaint: &str) -> Vec<&str> {
    let of_lines = complaint.lines().filter_map(|line| line.strip_prefix("text:")?.split(": ").next());
    of_lines.filter(|place| place.contains(':')).collect()
}

#[test]
fn complaints_say_what_helps() {
    for (line, hint) in HINTS {
        let complaint = complaint(format!("{HEAD}{line}\n").as_bytes());
        assert!(complaint.lines().next().unwrap_or_default().ends_with(hint), "{line}: {complaint}");
    }
}

#[test]
fn limits_are_told() {
    let told = |text: String, hint: &str| {
        let complaint = complaint(text.as_bytes());
        assert!(complaint.contains(hint), "{complaint}");
    };
    let chain = vec!["x"; 65].join(" + ");
    told(format!("{HEAD}{chain} -> x\n"), "; a side has at most 128 nodes (refusal 10, ");
    let variables: Vec<String> = (0..17).map(|number| format!("v{number}")).collect();
    let (names, chain) = (variables.join(" "), variables.join(" + "));
    told(format!("{HEAD}variables {names}\n{chain} -> z\n"), "; a rule has at most 16 different variables (");
    told(format!("{HEAD}{}", "z -> z\n".repeat(1_024)), "; a book has at most 1,023 rules (");
    let symbols: String = (2..=255).map(|rank| format!("symbol s{rank} arity 1 weight 1 rank {rank}\n")).collect();
    told(format!("{HEAD}{symbols}"), "; a book has at most 255 symbols (");
    told("w0 0\nsymbol z arity 0 weight 0 rank 0\n".into(), "; it is at least 1 (refusal 5, word 2)");
    told(format!("{HEAD}{} -> x\n", vec!["x"; 5_000].join(" + ")), "nodes; a book takes 128");
}

#[test]
fn every_faulty_line_is_told() {
    let lines = ["q -> z", "x + z -> x", "z ->", "z -> z", "z", "(x -> z", "x -> z)", "\x01", "z -> \x01", "-> z"];
    let told = complaint(format!("{HEAD}{}\n", lines.join("\n")).as_bytes());
    // Line 7 goes on in line 8.
    assert_eq!(places(&told), ["5:1", "8:3", "9:2", "10:4", "11:7", "12:1", "13:6", "14:1"], "{told}");
    let lines =
        "w0\nvariables a , + b\nsymbol f arity x\nsymbol g arity 2 wieght 1\nsymbol 1 weight 2\norder f > h > g\n\
                 f(a, a) -> g(1)\nf(a -> a\nh(a) -> a\n";
    let told = complaint(lines.as_bytes());
    assert_eq!(places(&told), ["1:3", "2:15", "3:16", "4:18", "5:10", "6:11", "8:5", "9:1"], "{told}");
    let told = complaint(b"symbol f arity 1 weight 1\nsymbol g arity 1 weight 1\nf(x) -> g(x)\n");
    assert_eq!(places(&told), ["3:3", "4:1", "1:8", "2:8"], "{told}");
    let told = complaint(format!("{HEAD}{}", "q -> z\n".repeat(100)).as_bytes());
    assert_eq!(places(&told).len(), 20);
    assert!(told.ends_with("\ntext: the first 20 faults are told, and there are more"), "{told}");
}

#[test]
fn every_refused_line_is_told() {
    let heavy = vec!["z"; 65].join(" + ");
    let lines = format!(
        "symbol a arity 0 weight 1 rank 1\nsymbol f arity 3 ac weight 1 rank 3\nsymbol g arity 1 weight 0 rank 300\n\
         {heavy} -> z\nx + z -> z\nz -> {heavy}\n"
    );
    let told = complaint(format!("{HEAD}{lines}").as_bytes());
    assert_eq!(places(&told), ["5:25", "5:32", "6:16", "7:32", "8:257", "10:262"], "{told}");
    assert!(told.contains("rule 0, left side, node 128: ") && told.contains("rule 2, right side, node 128: "));
    // The words are those of the text's own sheet: rule 0 has 130, rule 1 has 4.
    assert!(told.contains("(refusal 10, word 152)") && told.contains("(refusal 10, word 287)"), "{told}");
    let lines = "symbol f arity 8 weight 0 rank 1\nf(x) -> x\n".replace("f(x)", "f(x,x,x,x,x,x,x,x)");
    assert_eq!(places(&complaint(format!("{HEAD}{lines}").as_bytes())), ["5:16", "5:32"]);
}

#[test]
fn other_texts_are_named() {
    for (bytes, words) in [
        (&b"w0 1\n# caf\xe9\n"[..], "text:2:6: the byte 0xe9 is not UTF-8, which a text is written in\n    # caf"),
        (b"\xff\xfew\x000\x00", "text: the text is UTF-16, and is read as UTF-8 alone"),
        (b"w0 1\nsymbol z\x00 arity 0 weight 1\n", "text:2:9: the character \\u{0} does not belong in a text"),
        (b"(VAR x)\n(RULES f(x) -> x)\n", "text: `(VAR` begins a TRS text, which `bookkeeper import` reads"),
    ] {
        let told = complaint(bytes);
        assert!(told.starts_with(words), "{told}");
    }
    let outcome = run_on(&["convert", "book"], &[("book", &sample("sample.book"))]);
    let words = "book: form 2: the form is none that is read here; it is of form 2 already (refusal 3, bit 0)";
    assert_eq!((outcome.status, outcome.complaint.as_deref()), (2, Some(words)));
    // Form 1 knows no wrapper.
    let book = [0x10, 0x10, 0x00, 0x10, 0x00, 0x80, 0x00, 0x00, 0x00];
    let outcome = run_on(&["convert", "book"], &[("book", &book)]);
    assert!(outcome.complaint.unwrap_or_default().contains("; a symbol of arity 1 weighs at least 1 (refusal 7, "));
}
