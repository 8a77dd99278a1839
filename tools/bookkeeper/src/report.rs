//! The marks of a book in words.

use crate::advice::{Effect, Offer};
use crate::candidates::occurrences;
use crate::complaint::counted;
use crate::input::Loaded;
use crate::marks::{findings, Finding, Marking, SIDES_EQUAL, VARIABLE_ADDED};
use crate::print::Printer;
use crate::repeats::Repeat;
use crate::sheet::FIRST_VARIABLE;
use crate::trial::Change;
use crate::words::Mark;

/// The most rules that a line names.
const NAMED_RULES: usize = 8;

/// Every rule, or in brief every rule that does not fall, with its mark, the margin and what may be changed; then the
/// verdict.
pub fn text(loaded: &Loaded, marking: &Marking, brief: bool) -> String {
    let mut text = String::new();
    for finding in findings(loaded, marking).iter().filter(|finding| !brief || !finding.falls()) {
        let printer = loaded.printer(finding.number);
        text += &format!("{}: {}\n", named(loaded, finding.number), printer.rule(finding.rule));
        text += &format!("    {} (mark {}), margin {}\n", finding.words(), finding.mark, finding.margin);
        for line in in_the_way(&printer, finding) {
            text += &format!("    in the way: {line}\n");
        }
        for line in changes(&printer, finding, marking.marks.len()) {
            text += &format!("    change: {line}\n");
        }
        for line in notes(loaded, finding) {
            text += &format!("    {line}\n");
        }
    }
    let ackbo::Marked { rules, falling, score } = marking.marked;
    text + &format!("rules {rules}, falling {falling}, score {score}\n{}\n", marking.verdict())
}

/// A rule by its number, and by its line if it has one.
fn named(loaded: &Loaded, number: usize) -> String {
    let line = loaded.lines.get(number).map_or(String::new(), |line| format!(", line {line}"));
    format!("rule {number}{line}")
}

/// What stands in the way of a rule.
pub fn in_the_way(printer: &Printer, finding: &Finding) -> Vec<String> {
    let variable = |number: &usize| {
        let (left, right) = occurrences(finding.rule, FIRST_VARIABLE + *number as u16);
        format!("{} occurs oftener on the right, {right} against {left}", printer.variables[*number])
    };
    match finding.mark {
        _ if finding.falls() => Vec::new(),
        VARIABLE_ADDED => finding.oftener.iter().map(variable).collect(),
        SIDES_EQUAL => vec!["the sides are AC-equal; no weight and no rank makes the rule fall".into()],
        _ if finding.margin < 0 => vec![format!("the left side is lighter by {}", -finding.margin)],
        _ => vec!["the sides weigh the same, and no case of the order holds".into()],
    }
}

/// What may be changed, each for itself.
pub fn changes(printer: &Printer, finding: &Finding, rules: usize) -> Vec<String> {
    let variable = |number: &usize| {
        let (left, right) = occurrences(finding.rule, FIRST_VARIABLE + *number as u16);
        let (many, name) = (right.saturating_sub(left), &printer.variables[*number]);
        format!("{many} more {name} on the left, or {many} fewer on the right")
    };
    let mut lines: Vec<String> = finding.oftener.iter().map(variable).collect();
    if finding.mark == SIDES_EQUAL {
        lines.push("delete the rule; rewriting takes AC-equal terms as the same".into());
    }
    if finding.offers.is_some() && finding.margin < 0 {
        let (strictly, enough) = (1 - finding.margin, -finding.margin);
        let both = format!("the left side {strictly} heavier, or the right side {strictly} lighter");
        lines.push(format!("{both}; {enough} is enough where the order decides"));
    }
    if finding.turned {
        let turned = printer.rule((finding.rule.1, finding.rule.0));
        lines.push(format!("turned round, {turned}, the rule falls"));
    }
    lines.extend(finding.offers.iter().flatten().map(|offer| offered(printer, offer, rules)));
    lines
}

/// What else is to be known of a rule.
fn notes(loaded: &Loaded, finding: &Finding) -> Vec<String> {
    let mut lines = Vec::new();
    if finding.untried {
        lines.push("no more changes were tried: too many rules do not fall".into());
    } else if finding.offers.as_ref().is_some_and(Vec::is_empty) {
        lines.push("no rank or weight of a single symbol was found that makes the rule fall".into());
    }
    lines.extend(finding.repeat.map(|repeat| format!("warning: {}", repeated(loaded, repeat))));
    lines
}

/// Which rule a rule repeats.
fn repeated(loaded: &Loaded, repeat: Repeat) -> String {
    match repeat {
        Repeat::Same(number) => format!("the same rule as {}", named(loaded, number)),
        Repeat::Turned(number) => format!("{} turned round", named(loaded, number)),
    }
}

/// A change, and what it does to the book.
fn offered(printer: &Printer, offer: &Offer, rules: usize) -> String {
    let name = |number: usize| &printer.names.symbols[number];
    let change = match offer.change {
        Change::Above { symbol, other } => format!("{} just above {} in the order", name(symbol), name(other)),
        Change::Weight { symbol, weight } => format!("weight {weight} for {}", name(symbol)),
        Change::Wrapper { symbol } => format!("{} as the wrapper, of weight 0 and the highest rank", name(symbol)),
    };
    let words = Mark::new(offer.mark).map_or("", Mark::text);
    let text = format!("{change}: the rule {words}");
    let Some(Effect { falling, lost }) = &offer.effect else { return text };
    let lost = if lost.is_empty() { String::new() } else { format!(", {} no longer", listed(lost)) };
    format!("{text}; {falling} of {} fall then{lost}", counted(rules, "rule"))
}

/// Rule numbers in a row, the first few of them.
fn listed(numbers: &[usize]) -> String {
    let named: Vec<String> = numbers.iter().take(NAMED_RULES).map(usize::to_string).collect();
    let rest = numbers.len() - named.len();
    let more = if rest > 0 { format!(" and {rest} more") } else { String::new() };
    format!("{} {}{more}", if numbers.len() == 1 { "rule" } else { "rules" }, named.join(", "))
}
