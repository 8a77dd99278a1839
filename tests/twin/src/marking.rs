//! Marking: orienting every rule of a rule file, and the text that the program `marker` prints.

use std::cmp::Ordering;
use std::io::Write;

use crate::error::{Error, MARKS_TOO_SHORT};
use crate::format::System;
use crate::order::{Comparer, Orientation};

/// The score where every rule is decreasing.
const FULL_SCORE: usize = 100;

/// The reply of `mark`: the count of rules, of decreasing ones, and the score.
#[derive(Clone, Copy, Debug, PartialEq, Eq)]
pub struct Marked {
    pub rules: usize,
    pub falling: usize,
    pub score: usize,
}

/// 01: marking. Writes one mark for each rule of a packed rule file.
pub fn mark(book: &[u8], marks: &mut [u8]) -> Result<Marked, Error> {
    let system = System::from_packed(book)?;
    let rules = system.rule_count();
    let marks = marks.get_mut(..rules).ok_or(Error::output(MARKS_TOO_SHORT))?;
    let mut falling = 0;
    for (mark, (orientation, _)) in marks.iter_mut().zip(orientations(&system)) {
        *mark = orientation as u8;
        falling += usize::from(orientation.decreasing());
    }
    Ok(Marked { rules, falling, score: score(falling, rules) })
}

/// The bytes that `marker` prints for a packed rule file.
pub fn report(book: &[u8]) -> Vec<u8> {
    let mut text = Vec::new();
    match System::from_packed(book) {
        Ok(system) => report_system(&system, &mut text),
        Err(error) => writeln!(text, "refusal {} {}", error.code, error.offset),
    }
    .expect("a vector takes every byte");
    text
}

fn report_system(system: &System, text: &mut Vec<u8>) -> std::io::Result<()> {
    let rules = system.rule_count();
    let mut falling = 0;
    writeln!(text, "rules {rules}")?;
    for (number, (orientation, margin)) in orientations(system).enumerate() {
        writeln!(text, "{number} {} {margin}", orientation as u8)?;
        falling += usize::from(orientation.decreasing());
    }
    writeln!(text, "score {}", score(falling, rules))?;
    writeln!(text, "{}", if falling == rules { "accepted" } else { "returned" })
}

/// The orientation and the margin of each rule.
pub fn orientations(system: &System) -> impl Iterator<Item = (Orientation, i64)> + '_ {
    let mut comparer = Comparer::new(&system.table);
    system.rules().map(move |(left, right)| comparer.orient(left, right))
}

/// The percentage of decreasing rules, rounded to the nearest whole number, an exact half to the even one; 100 where
/// there is no rule.
fn score(falling: usize, rules: usize) -> usize {
    if rules == 0 {
        return FULL_SCORE;
    }
    let (below, left) = (FULL_SCORE * falling / rules, FULL_SCORE * falling % rules);
    match (2 * left).cmp(&rules) {
        Ordering::Less => below,
        Ordering::Greater => below + 1,
        Ordering::Equal => below.next_multiple_of(2),
    }
}
