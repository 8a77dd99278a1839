//! Refusals in words: the field at fault, what is wrong with it, and the library's numbers.

use ackbo::Error;

use crate::complaint::{Complaint, Place};
use crate::field::{find, Field, Found, Source, ARITY, RANK, RULE_COUNT, SYMBOL_COUNT};
use crate::names::Names;
use crate::sheet::FORM;
use crate::words::Refusal;

/// The refusals that a hint follows, or that name no field.
const TOO_LONG: u8 = 1;
const WRONG_FORM: u8 = 3;
const VARIABLE_WEIGHTLESS: u8 = 5;
const WEIGHT_INADMISSIBLE: u8 = 7;
const RANK_TAKEN: u8 = 8;
const TOO_MANY_NODES: u8 = 10;
const WORD_TOO_WIDE: u8 = 14;
const OLD_FORM: u8 = 17;

/// The library's words for a refusal.
fn words(error: Error) -> String {
    Refusal::new(error.code).map_or_else(|| "refused".into(), |refusal| refusal.text().into())
}

/// The field of a refusal and what is wrong with it.
fn fault(error: Error, source: Source, names: Option<&Names>) -> String {
    if error.code == TOO_LONG {
        return words(error);
    }
    let found = find(source, error.offset);
    let value = found.value.map_or(String::new(), |value| format!(" {value}"));
    let field = match found.field {
        Field::Header(name) => format!("{name}{value}"),
        Field::Entry { symbol, part } => format!("{}, {part}{value}", named(symbol, names)),
        Field::Node { rule, side, node } => format!("rule {rule}, {side} side, node {node}"),
        Field::Rest => "after the last rule".into(),
    };
    format!("{field}: {}{}", words(error), hint(error, source, found, names))
}

/// The number of a symbol, with its name if it has one.
fn named(symbol: usize, names: Option<&Names>) -> String {
    match names.and_then(|names| names.symbols.get(symbol)) {
        Some(name) => format!("symbol {symbol} ({name})"),
        None => format!("symbol {symbol}"),
    }
}

/// What helps to find or to mend the fault.
fn hint(error: Error, source: Source, found: Found, names: Option<&Names>) -> String {
    match (error.code, found.holder) {
        (RANK_TAKEN, Some(holder)) => format!(", {}", named(holder, names)),
        (OLD_FORM, _) => "; `bookkeeper convert` makes form 2 of it".into(),
        (WRONG_FORM, _) if found.value == Some(FORM) => "; it is of form 2 already".into(),
        (VARIABLE_WEIGHTLESS, _) => "; it is at least 1".into(),
        (WEIGHT_INADMISSIBLE, _) => least_weight(error, source),
        (TOO_MANY_NODES | WORD_TOO_WIDE, _) => most(error.code, found.field),
        _ => String::new(),
    }
}

/// The least weight of the symbol whose weight is too small. A book of form 1 has no wrapper.
fn least_weight(error: Error, source: Source) -> String {
    let (w0, back) = match source {
        Source::Words(_) => (2, 2),
        Source::Bits(_) => (12, 4),
    };
    match (find(source, error.offset - back).value, find(source, w0).value, find(source, 0).value) {
        (Some(0), Some(w0), _) => format!("; a constant weighs at least w0, {w0}"),
        (_, _, Some(FORM)) => "; a symbol of arity 1 weighs at least 1, unless it has the highest rank".into(),
        _ => "; a symbol of arity 1 weighs at least 1".into(),
    }
}

/// The most that a field takes.
fn most(code: u8, field: Field) -> String {
    match field {
        Field::Header(SYMBOL_COUNT) => "; a book has at most 255 symbols".into(),
        Field::Header(RULE_COUNT) => "; a book has at most 1,023 rules".into(),
        Field::Entry { part: ARITY, .. } => "; an arity is at most 7".into(),
        Field::Entry { part: RANK, .. } => "; a rank is at most 255".into(),
        Field::Node { .. } if code == TOO_MANY_NODES => "; a side has at most 128 nodes".into(),
        Field::Node { .. } => "; a rule has at most 16 different variables".into(),
        _ => String::new(),
    }
}

/// The refusal of a book's bytes.
pub fn of_book(error: Error, book: &[u8]) -> Complaint {
    let fault = fault(error, Source::Bits(book), None);
    Complaint::refused(format!("{fault} (refusal {}, bit {})", error.code, error.offset))
}

/// The refusal of a text's sheet, whose word at fault has a number of its own and comes from a place.
pub fn of_text(error: Error, sheet: &[u16], place: Place, word: usize, names: &Names) -> Complaint {
    let fault = fault(error, Source::Words(sheet), Some(names));
    Complaint::refused_at(place, format!("{fault} (refusal {}, word {word})", error.code))
}

/// The refusal of a term, whose word at fault comes from a place.
pub fn of_term(error: Error, place: Place) -> Complaint {
    let node = Field::Node { rule: 0, side: "left", node: 0 };
    let most =
        if matches!(error.code, TOO_MANY_NODES | WORD_TOO_WIDE) { most(error.code, node) } else { String::new() };
    let words = words(error) + &most;
    Complaint::refused(format!("column {}: {words} (refusal {}, word {})", place.column, error.code, error.offset))
}

/// The refusal of small terms, for their size or for their number.
pub fn of_terms(error: Error) -> Complaint {
    Complaint::refused(format!("{} (refusal {})", words(error), error.code))
}
