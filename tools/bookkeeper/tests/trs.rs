//! TRS texts: a book comes back from one whole, rules come back as they were, and what is none is told by its place.

mod common;

use common::{printed, run_on, sample};
use twin::generate::{Book, Random};

/// The seed, and the counts of inputs of each kind.
const SEED: u64 = 20_008;
const BOOKS: usize = 3_000;
const MUTATED: usize = 20_000;

/// A small TRS text, with names that are none in a text.
const GROUP: &str = "(VAR x y)\n(THEORY (AC +))\n(RULES\n  +(x,0) -> x\n  +(x,-(x)) -> 0()\n  a-b -> w0(x)\n\
                     -(+(x,y)) -> +(-(x),-(y))\n)\n(STRATEGY INNERMOST)\n(COMMENT from (somewhere)\n  else)\n";

#[test]
fn books_come_back() {
    let mut random = Random::new(SEED);
    for _ in 0..BOOKS {
        let book = Book::any(&mut random, 8).packed();
        let trs = printed(&["export", "book", "--book"], &[("book", &book)]);
        let text = printed(&["import", "trs"], &[("trs", trs.as_bytes())]);
        let outcome = run_on(&["assemble", "text"], &[("text", text.as_bytes())]);
        assert!(outcome.output == book, "{:?}\n{trs}\n{text}", outcome.complaint);
        let again = printed(&["export", "text", "--text"], &[("text", text.as_bytes())]);
        assert_eq!(again, trs);
    }
    for name in ["sample", "wrapper", "listing"] {
        let trs = printed(&["export", "text"], &[("text", &sample(&format!("{name}.txt")))]);
        let text = printed(&["import", "trs"], &[("trs", trs.as_bytes())]);
        let outcome = run_on(&["assemble", "text"], &[("text", text.as_bytes())]);
        assert_eq!(outcome.output, sample(&format!("{name}.book")));
    }
}

#[test]
fn rules_come_back() {
    let text = printed(&["import", "trs"], &[("trs", GROUP.as_bytes())]);
    assert_eq!(
        text,
        "# from (somewhere)\n# else\n# (STRATEGY ..) of the TRS text is left out.\n\
         # a-b of the TRS text is called a_b.\n# w0 of the TRS text is called w0_1.\n\
         # The weights and the order are a start, which the author completes.\nw0 1\nsymbol + arity 2 ac weight 0\n\
         symbol 0 arity 0 weight 1\nsymbol - arity 1 weight 1\nsymbol a_b arity 0 weight 1\n\
         symbol w0_1 arity 1 weight 1\n\
         order + > - > a_b > w0_1 > 0\nvariables x y\n\nx + 0 -> x\nx + -(x) -> 0\na_b -> w0_1(x)\n\
         -(x + y) -> -(x) + -(y)\n"
    );
    let trs = printed(&["export", "text"], &[("text", text.as_bytes())]);
    let from = trs.find("(VAR").unwrap();
    assert_eq!(
        trs[from..],
        *"(VAR x y)\n(THEORY (AC +))\n(RULES\n  +(x,0) -> x\n  +(x,-(x)) -> 0\n  a_b -> w0_1(x)\n  \
          -(+(x,y)) -> +(-(x),-(y))\n)\n"
    );
}

#[test]
fn names_that_are_none_in_the_other_text() {
    let text = "w0 1\nvariables VAR x\nsymbol || arity 2 ac weight 1\nsymbol ->> arity 1 weight 1\n\
                symbol _ arity 0 weight 1\norder ->> > || > _\n->>(VAR || x) -> VAR\n";
    let trs = printed(&["export", "text"], &[("text", text.as_bytes())]);
    assert!(
        trs.contains("(VAR VAR_1 x)") && trs.contains("(AC __)") && trs.contains("___(__(VAR_1,x)) -> VAR_1"),
        "{trs}"
    );
    let again = printed(&["import", "trs"], &[("trs", trs.as_bytes())]);
    let book = |text: &str| run_on(&["assemble", "text"], &[("text", text.as_bytes())]).output;
    assert_eq!(book(&again), book(text));
}

/// A certificate that does not suit the rules is left, and a start is made.
#[test]
fn other_certificates_are_left() {
    let trs = "(COMMENT w0 1\nsymbol f arity 1 weight 1\norder f)(VAR x)(RULES f(x) -> g(x))";
    let text = printed(&["import", "trs"], &[("trs", trs.as_bytes())]);
    assert!(text.contains("are a start") && text.contains("order f > g\n"), "{text}");
    let trs = "(RULES)";
    let text = printed(&["import", "trs"], &[("trs", trs.as_bytes())]);
    assert!(text.ends_with("w0 1\n\n"), "{text}");
}

#[test]
fn faults_are_told_by_place() {
    for (trs, words) in [
        ("", "1:1: there is no part `(RULES`"),
        ("w0 1", "1:1: `(` is missing before `w0`"),
        ("(VAR x)\n(RULES x(y) -> x\n f(x) -> f(x, x))", "2:8: `x` is a variable, and takes no arguments"),
        ("(RULES f(x) -> f(x, x))", "1:16: `f` has 2 arguments, and 1 at line 1"),
        ("(THEORY (AC f))(RULES f(x) -> x)", "1:13: `f` is AC, and has 1 argument in the rules"),
        ("(VAR f)(THEORY (AC f))(RULES )", "1:20: `f` is a variable"),
        ("(THEORY (C f))(RULES )", "1:10: the theory `C` is none of a book, which has AC symbols alone"),
        ("(RULES f(x) -> x | x == y)", "1:18: a rule with a condition is none of a book"),
        ("(RULES f(x) ->= x)", "1:15: a relative rule, with `->=`, is none of a book"),
        ("(RULES f(x) - x)", "1:13: `->` is missing before `-`"),
        ("(RULES f(x -> x)", "1:12: `,` or `)` is missing before `->`"),
        ("(RULES f(x) -> )", "1:16: a term is missing before `)`"),
        ("(RULES", "1:7: a term is missing before the end of the text"),
        ("(COMMENT (", "1:11: `)` is missing before the end of the text"),
    ] {
        let outcome = run_on(&["import", "trs"], &[("trs", trs.as_bytes())]);
        let complaint = outcome.complaint.unwrap_or_default();
        assert!(outcome.status == 3 && complaint.starts_with(&format!("trs:{words}")), "{trs}: {complaint}");
    }
    let two = run_on(&["import", "trs"], &[("trs", b"(VAR x)(RULES\nx(y) -> x\n f(x) -> f(x, x))")]).complaint;
    assert_eq!(two.unwrap_or_default().matches("\ntrs:").count(), 1);
    let deep = format!("(RULES {}x{} -> x)", "f(".repeat(100_000), ")".repeat(100_000));
    assert_eq!(run_on(&["import", "trs"], &[("trs", deep.as_bytes())]).status, 3);
    assert_eq!(run_on(&["import", "trs"], &[("trs", b"(RULES \xff -> x)")]).status, 3);
}

/// Mutated TRS texts never panic, and what is imported is a text.
#[test]
fn mutated_texts() {
    let parts =
        ["(", ")", ",", "->", "|", "\"", "x", "+", "VAR", "RULES", "(AC f)", "==", "\n", " ", "é", "#", "w0 1\n"];
    let mut random = Random::new(SEED);
    let mut imported = 0;
    for _ in 0..MUTATED {
        let mut signs: Vec<char> = GROUP.chars().collect();
        for _ in 0..random.between(1, 3) {
            let place = random.below(signs.len());
            let end = (place + random.below(4)).min(signs.len());
            signs.splice(place..end, random.choose(&parts).unwrap().chars());
        }
        let trs: String = signs.into_iter().collect();
        let outcome = run_on(&["import", "trs"], &[("trs", trs.as_bytes())]);
        assert_eq!(outcome.complaint.is_some(), outcome.status == 3, "{trs}");
        if outcome.status == 0 {
            imported += 1;
            let assembled = run_on(&["assemble", "text"], &[("text", &outcome.output)]);
            assert_ne!(assembled.status, 3, "{trs}\n{}", String::from_utf8_lossy(&outcome.output));
        }
    }
    assert!(imported > 1_000, "{imported}");
}
