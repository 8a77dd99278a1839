//! The marks of a book as JSON, for other programs; `docs/BOOKS.md` has the keys.

use crate::advice::Offer;
use crate::input::Loaded;
use crate::marks::{findings, Finding, Marking};
use crate::repeats::Repeat;
use crate::report;
use crate::trial::Change;

/// The version of the keys; a key that goes, or means something else, makes a new one.
const KEYS: usize = 1;

/// The whole of it, a line for each rule.
pub fn text(loaded: &Loaded, marking: &Marking) -> String {
    let ackbo::Marked { rules, falling, score } = marking.marked;
    let findings = findings(loaded, marking);
    let each: Vec<String> = findings.iter().map(|finding| format!("\n  {}", rule(loaded, finding, rules))).collect();
    let end = if each.is_empty() { "]" } else { "\n]" };
    let verdict = string(marking.verdict());
    format!(
        "{{\"keys\": {KEYS}, \"count\": {rules}, \"falling\": {falling}, \"score\": {score}, \"verdict\": {verdict}, \
         \"rules\": [{}{end}}}\n",
        each.join(",")
    )
}

/// A rule.
fn rule(loaded: &Loaded, finding: &Finding, rules: usize) -> String {
    let printer = loaded.printer(finding.number);
    let strings = |lines: Vec<String>| list(lines.iter().map(|line| string(line)));
    let number = |number: Option<usize>| number.map_or("null".into(), |number| number.to_string());
    let (same, turned) = match finding.repeat {
        Some(Repeat::Same(rule)) => (Some(rule), None),
        Some(Repeat::Turned(rule)) => (None, Some(rule)),
        None => (None, None),
    };
    let offers = finding.offers.iter().flatten().map(|offer| offered(loaded, offer));
    object(&[
        ("rule", finding.number.to_string()),
        ("line", number(loaded.lines.get(finding.number).copied())),
        ("text", string(&printer.rule(finding.rule))),
        ("mark", finding.mark.to_string()),
        ("words", string(finding.words())),
        ("falls", finding.falls().to_string()),
        ("margin", finding.margin.to_string()),
        ("in_the_way", strings(report::in_the_way(&printer, finding))),
        ("changes", strings(report::changes(&printer, finding, rules))),
        ("falls_turned", finding.turned.to_string()),
        ("offers", list(offers)),
        ("same_as", number(same)),
        ("turned_of", number(turned)),
    ])
}

/// A change that makes the rule fall.
fn offered(loaded: &Loaded, offer: &Offer) -> String {
    let name = |symbol: usize| string(&loaded.names.symbols[symbol]);
    let mut keys = match offer.change {
        Change::Above { symbol, other } => vec![("symbol", name(symbol)), ("above", name(other))],
        Change::Weight { symbol, weight } => vec![("symbol", name(symbol)), ("weight", weight.to_string())],
        Change::Wrapper { symbol } => vec![("symbol", name(symbol)), ("wrapper", "true".into())],
    };
    keys.push(("mark", offer.mark.to_string()));
    if let Some(effect) = &offer.effect {
        keys.push(("falling", effect.falling.to_string()));
        keys.push(("lost", list(effect.lost.iter().map(usize::to_string))));
    }
    object(&keys)
}

fn object(keys: &[(&str, String)]) -> String {
    let pairs: Vec<String> = keys.iter().map(|(key, value)| format!("\"{key}\": {value}")).collect();
    format!("{{{}}}", pairs.join(", "))
}

fn list(values: impl Iterator<Item = String>) -> String {
    format!("[{}]", values.collect::<Vec<_>>().join(", "))
}

/// A string in quotes.
fn string(text: &str) -> String {
    let mut quoted = String::from("\"");
    for sign in text.chars() {
        match sign {
            '"' | '\\' => quoted.extend(['\\', sign]),
            _ if sign.is_control() => quoted += &format!("\\u{:04x}", u32::from(sign)),
            _ => quoted.push(sign),
        }
    }
    quoted + "\""
}
