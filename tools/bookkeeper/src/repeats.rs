//! Rules that stand twice: both sides are AC-equal to those of an earlier rule, or to those of one turned round.

use std::collections::HashMap;

use ackbo::Relation;

use crate::sheet::{encode, renumbered, Rule, Sheet};

/// The field of the header that counts rules.
const RULE_COUNT: usize = 3;

/// The earlier rule that a rule is, the same way round or the other.
#[derive(Clone, Copy, Debug, PartialEq, Eq)]
pub enum Repeat {
    Same(usize),
    Turned(usize),
}

/// The first earlier rule that each rule repeats, with variables numbered by first use.
pub fn of(sheet: &Sheet) -> Vec<Option<Repeat>> {
    let mut head = sheet.parts().0.to_vec();
    head[RULE_COUNT] = 0;
    let Ok(book) = encode(&head) else { return vec![None; sheet.rules().len()] };
    let rules: Vec<Rule> = sheet.rules().collect();
    let mut drawers: HashMap<_, Vec<usize>> = HashMap::new();
    let mut repeats = Vec::new();
    for (number, &(left, right)) in rules.iter().enumerate() {
        let find = |left: &[u16], right: &[u16]| {
            let drawer = drawers.get(&fingerprints(&book, (left, right)))?;
            drawer.iter().copied().find(|&earlier| equal(&book, rules[earlier], (left, right)))
        };
        let turned = renumbered(right, left);
        let same = find(left, right).map(Repeat::Same);
        repeats.push(same.or_else(|| find(&turned.0, &turned.1).map(Repeat::Turned)));
        drawers.entry(fingerprints(&book, (left, right))).or_default().push(number);
    }
    repeats
}

/// The fingerprints of the sides of a rule.
fn fingerprints(book: &[u8], (left, right): Rule) -> [Option<u32>; 2] {
    [left, right].map(|side| ackbo::fingerprint(book, side).ok())
}

/// Whether the sides of two rules are AC-equal.
fn equal(book: &[u8], one: Rule, other: Rule) -> bool {
    let equal = |one: &[u16], other: &[u16]| {
        ackbo::compare(book, one, other).is_ok_and(|reply| reply.relation == Relation::Equivalent)
    };
    equal(one.0, other.0) && equal(one.1, other.1)
}
