//! The changes of one symbol that may make a rule fall, in rows: of each row the first that does is offered.

use std::collections::BTreeSet;

use crate::sheet::{variable, Rule, Sheet};
use crate::trial::Change;

/// The most rows of ranks for a rule.
const RANKS: usize = 128;
/// How far the weight of a symbol that both sides have equally often is moved.
const MOVED: usize = 8;

/// The occurrences of a node on each side of a rule.
pub fn occurrences((left, right): Rule, node: u16) -> (usize, usize) {
    let count = |side: &[u16]| side.iter().filter(|&&other| other == node).count();
    (count(left), count(right))
}

/// The symbols of a rule.
fn symbols((left, right): Rule) -> BTreeSet<u16> {
    left.iter().chain(right).copied().filter(|&node| variable(node).is_none()).collect()
}

/// Moves of one symbol of the rule above another one.
pub fn ranks(sheet: &Sheet, rule: Rule) -> Vec<Vec<Change>> {
    let mut ranked: Vec<u16> = symbols(rule).into_iter().collect();
    ranked.sort_by_key(|symbol| sheet.symbol(usize::from(*symbol)).rank);
    let above = |symbol: u16, other: u16| vec![Change::Above { symbol: symbol.into(), other: other.into() }];
    let pairs = ranked.iter().enumerate().flat_map(|(place, &symbol)| {
        let others = &ranked[place + 1..];
        others.iter().map(move |&other| above(symbol, other))
    });
    pairs.take(RANKS).collect()
}

/// Weights of single symbols of the rule, where the left side weighs `missing` less; the nearest ones first.
pub fn weights(sheet: &Sheet, rule: Rule, missing: usize) -> Vec<Vec<Change>> {
    let row = |&node: &u16| {
        let symbol = usize::from(node);
        let weight = sheet.symbol(symbol).weight;
        let weights = match occurrences(rule, node) {
            (left, right) if left == right && missing == 0 => nearest(weight),
            (left, right) => leaning(weight, left, right, missing),
        };
        weights.into_iter().map(|weight| Change::Weight { symbol, weight }).collect()
    };
    symbols(rule).iter().map(row).collect()
}

/// The weight that makes the sides weigh the same, if there is one, then the next, which makes the left side heavier.
fn leaning(weight: u16, left: usize, right: usize, missing: usize) -> Vec<u16> {
    let often = left.abs_diff(right);
    if often == 0 {
        return Vec::new();
    }
    let equal = Some(missing / often).filter(|&step| step > 0 && step * often == missing);
    let steps = equal.into_iter().chain([missing / often + 1]);
    steps.filter_map(|step| moved(weight, step, left > right)).collect()
}

/// Weights that leave the sides as heavy as each other, but not their parts.
fn nearest(weight: u16) -> Vec<u16> {
    (1..=MOVED).flat_map(|step| [moved(weight, step, true), moved(weight, step, false)]).flatten().collect()
}

/// A weight, moved up or down.
fn moved(weight: u16, step: usize, up: bool) -> Option<u16> {
    let step = u16::try_from(step).ok()?;
    if up {
        weight.checked_add(step)
    } else {
        weight.checked_sub(step)
    }
}

/// Symbols of the rule, of arity 1, as the wrapper: they weigh 0, and are ranked above every other. One that is ranked
/// so already needs another weight alone.
pub fn wrappers(sheet: &Sheet, rule: Rule) -> Vec<Vec<Change>> {
    let highest = sheet.symbols().map(|symbol| symbol.rank).max();
    let suits = |node: &u16| {
        let symbol = sheet.symbol(usize::from(*node));
        symbol.arity == 1 && Some(symbol.rank) != highest
    };
    symbols(rule).into_iter().filter(suits).map(|node| vec![Change::Wrapper { symbol: node.into() }]).collect()
}
