//! Trials: what the library says of a book with another rank or weight.

use crate::sheet::{encode, Rule, Sheet, ENTRY, HEADER};

/// The fields of a symbol that a change sets.
const WEIGHT: usize = 2;
const RANK: usize = 3;
/// The field of the header that counts rules.
const RULE_COUNT: usize = 3;

/// A change to the symbols of a book.
#[derive(Clone, Copy, Debug, PartialEq, Eq)]
pub enum Change {
    /// The symbol moves to just above the other one, and those between move down.
    Above { symbol: usize, other: usize },
    /// The symbol gets the weight.
    Weight { symbol: usize, weight: u16 },
    /// The symbol, of arity 1, becomes the wrapper: it weighs 0, and is ranked above every other.
    Wrapper { symbol: usize },
}

impl Change {
    /// Applies the change to a sheet of that many symbols.
    pub fn apply(self, words: &mut [u16], symbols: usize) {
        match self {
            Change::Weight { symbol, weight } => words[HEADER + ENTRY * symbol + WEIGHT] = weight,
            Change::Above { symbol, other } => move_above(words, symbols, symbol, other),
            Change::Wrapper { symbol } => {
                words[HEADER + ENTRY * symbol + WEIGHT] = 0;
                let highest = (0..symbols).max_by_key(|number| words[HEADER + ENTRY * number + RANK]);
                move_above(words, symbols, symbol, highest.unwrap_or(symbol));
            }
        }
    }
}

/// Moves a symbol to just above another of higher rank, or leaves the highest; the ranks in use stay the same.
fn move_above(words: &mut [u16], symbols: usize, symbol: usize, other: usize) {
    let rank = |number: usize| HEADER + ENTRY * number + RANK;
    let (from, to) = (words[rank(symbol)], words[rank(other)]);
    let mut moved: Vec<usize> = (0..symbols).filter(|&number| (from..=to).contains(&words[rank(number)])).collect();
    moved.sort_by_key(|&number| words[rank(number)]);
    let ranks: Vec<u16> = moved.iter().map(|&number| words[rank(number)]).collect();
    moved.rotate_left(1);
    for (number, new) in moved.into_iter().zip(ranks) {
        words[rank(number)] = new;
    }
}

/// The marks of a whole book under a change, if the library takes it.
pub fn marks(sheet: &Sheet, change: Change) -> Option<Vec<u8>> {
    let (symbols, nodes) = sheet.parts();
    let mut words = [symbols, nodes].concat();
    change.apply(&mut words, sheet.symbols().len());
    marks_of(&words)
}

/// The mark of one rule under a change, if the library takes it.
pub fn mark(sheet: &Sheet, rule: Rule, change: Change) -> Option<u8> {
    let mut words = with_rule(sheet, rule);
    change.apply(&mut words, sheet.symbols().len());
    marks_of(&words)?.first().copied()
}

/// The mark of one rule under the symbols of a book, if the library takes it.
pub fn rule_mark(sheet: &Sheet, rule: Rule) -> Option<u8> {
    marks_of(&with_rule(sheet, rule))?.first().copied()
}

/// The symbols of a sheet with one rule.
fn with_rule(sheet: &Sheet, (left, right): Rule) -> Vec<u16> {
    let mut words = [sheet.parts().0, left, right].concat();
    words[RULE_COUNT] = 1;
    words
}

fn marks_of(words: &[u16]) -> Option<Vec<u8>> {
    let mut marks = vec![0; usize::from(words[RULE_COUNT])];
    ackbo::mark(&encode(words).ok()?, &mut marks).ok()?;
    Some(marks)
}
