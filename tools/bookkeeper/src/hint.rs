//! What an author may have meant: near names, keywords, and the signs of other languages.

use crate::names::{alike, Names, RESERVED};
use crate::token::{Kind, Token};
use crate::trs::SECTIONS;

/// The keywords of a symbol's line.
const KEYWORDS: [&str; 4] = ["arity", "ac", "weight", "rank"];

/// What other languages write for `->`, and for `#`.
const ARROWS: [&str; 9] = ["=", "==", "=>", "-->", "==>", "->=", "→", "⇒", ":="];
const COMMENTS: [&str; 6] = ["//", ";", "--", "%", "/*", "***"];

/// What other languages write for the words that begin lines.
const BEGINNINGS: [(&str, &str); 9] = [
    ("var", "variables"),
    ("vars", "variables"),
    ("variable", "variables"),
    ("sym", "symbol"),
    ("symbols", "symbol"),
    ("fun", "symbol"),
    ("op", "symbol"),
    ("prec", "order"),
    ("precedence", "order"),
];

/// The declared name that a wrong one is like.
pub fn of_name(wrong: &str, names: &Names) -> Option<String> {
    names.like(wrong).filter(|name| *name != wrong).map(|name| format!("`{name}` is one"))
}

/// The word that a line with a fault may begin with, by its first one.
pub fn of_line(first: &str, names: &Names) -> Option<String> {
    if names.meaning(first).is_some() {
        return None;
    }
    let other = BEGINNINGS.iter().find(|(other, _)| first.eq_ignore_ascii_case(other)).map(|(_, word)| *word);
    let word = other.or_else(|| RESERVED.into_iter().find(|word| alike(word, first)))?;
    Some(format!("`{word}` begins such a line"))
}

/// The keyword that a wrong one is like, or the order of all, if it is a keyword in another's place.
pub fn of_keyword(wrong: &str) -> Option<String> {
    if KEYWORDS.contains(&wrong) {
        return Some("`arity`, `ac`, `weight` and `rank` stand in this order".into());
    }
    KEYWORDS.iter().find(|keyword| alike(keyword, wrong)).map(|keyword| format!("perhaps `{keyword}` is meant"))
}

/// What stands between the symbols of an order.
pub fn of_order(next: Token) -> Option<String> {
    let other = next.kind == Kind::Comma || ["<", ">>", ">=", "<="].contains(&next.text);
    other.then(|| "`>` stands between the symbols of an order, the greatest first".into())
}

/// What a sign that is no symbol may have been meant for: between two terms, or before one.
pub fn of_sign(sign: &str) -> Option<String> {
    if ARROWS.contains(&sign) {
        return Some("`->` stands between the sides of a rule".into());
    }
    COMMENTS.iter().any(|comment| sign.starts_with(comment)).then(|| "`#` begins a comment".into())
}

/// What reads a source of another kind: one that begins with a part of a TRS text.
pub fn of_section(source: &str) -> Option<String> {
    let first = source.trim_start().strip_prefix('(')?.trim_start();
    let section = SECTIONS.iter().find(|section| first.starts_with(**section))?;
    Some(format!("`({section}` begins a TRS text, which `bookkeeper import` reads"))
}
