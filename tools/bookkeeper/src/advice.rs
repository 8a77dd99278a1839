//! What stands in the way of a rule that does not fall, and what an author may change.

use std::collections::BTreeSet;

use ackbo::Relation;

use crate::candidates;
use crate::sheet::{variable, Rule, Sheet, FIRST_VARIABLE};
use crate::trial::{self, Change};
use crate::words::Mark;

/// The most changes of a kind that are offered for a rule.
const OFFERED: usize = 2;
/// The most trials of whole books for a rule and a kind of change.
const BOOK_TRIALS: usize = 4;
/// The most marks that the trials of a run ask for, of single rules and of whole books.
const RULE_BUDGET: usize = 100_000;
const BOOK_BUDGET: usize = 500_000;

/// A change that makes a rule fall.
#[derive(Clone, Debug, PartialEq, Eq)]
pub struct Offer {
    pub change: Change,
    /// The rule's mark then.
    pub mark: u8,
    /// What the change does to the book, if it was tried.
    pub effect: Option<Effect>,
}

/// How many rules of a book fall after a change, and which of those that fall today do not.
#[derive(Clone, Debug, PartialEq, Eq)]
pub struct Effect {
    pub falling: usize,
    pub lost: Vec<usize>,
}

/// Asks the library about changes to one book.
pub struct Adviser<'a> {
    pub book: &'a [u8],
    pub sheet: &'a Sheet,
    pub marks: &'a [u8],
    rule_budget: usize,
    book_budget: usize,
}

impl<'a> Adviser<'a> {
    pub fn new(book: &'a [u8], sheet: &'a Sheet, marks: &'a [u8]) -> Self {
        Adviser { book, sheet, marks, rule_budget: RULE_BUDGET, book_budget: BOOK_BUDGET }
    }

    /// Whether trials are left.
    pub fn can_try(&self) -> bool {
        self.rule_budget > 0
    }

    /// The variables that the library finds oftener on the right: each is asked for as variable 0.
    pub fn oftener(&self, (left, right): Rule) -> Vec<usize> {
        let asked = |first: &u16| {
            let exchange = |&node: &u16| match node {
                FIRST_VARIABLE => *first,
                _ if node == *first => FIRST_VARIABLE,
                _ => node,
            };
            let left: Vec<u16> = left.iter().map(exchange).collect();
            let right: Vec<u16> = right.iter().map(exchange).collect();
            ackbo::oftener(self.book, &left, &right) == Ok(Some(0))
        };
        let variables: BTreeSet<u16> = right.iter().copied().filter(|&node| variable(node).is_some()).collect();
        variables.into_iter().filter(asked).filter_map(variable).collect()
    }

    /// Whether the rule falls the other way round.
    pub fn falls_back(&self, (left, right): Rule) -> bool {
        ackbo::compare(self.book, left, right).is_ok_and(|comparison| comparison.relation == Relation::Less)
    }

    /// Moves of one symbol of the rule above another one that make the rule fall.
    pub fn ranks(&mut self, rule: Rule) -> Vec<Offer> {
        self.offers(rule, candidates::ranks(self.sheet, rule))
    }

    /// Weights of single symbols of the rule that make the rule fall, where the left side weighs `missing` less.
    pub fn weights(&mut self, rule: Rule, missing: usize) -> Vec<Offer> {
        self.offers(rule, candidates::weights(self.sheet, rule, missing))
    }

    /// Symbols of the rule that make the rule fall as the wrapper.
    pub fn wrappers(&mut self, rule: Rule) -> Vec<Offer> {
        self.offers(rule, candidates::wrappers(self.sheet, rule))
    }

    /// The changes that make the rule fall, the first of each row, those before others that leave most rules falling.
    fn offers(&mut self, rule: Rule, rows: Vec<Vec<Change>>) -> Vec<Offer> {
        let mut offers: Vec<Offer> = Vec::new();
        for row in rows {
            let first = row.into_iter().find_map(|change| {
                let mark = spend(&mut self.rule_budget, 1).then(|| trial::mark(self.sheet, rule, change))??;
                falls(&mark).then_some(Offer { change, mark, effect: None })
            });
            offers.extend(first);
        }
        for offer in offers.iter_mut().take(BOOK_TRIALS) {
            offer.effect = self.effect(offer.change);
        }
        let falling = |offer: &Offer| offer.effect.as_ref().map_or(0, |effect| effect.falling);
        offers.sort_by_key(|offer| std::cmp::Reverse(falling(offer)));
        offers.truncate(OFFERED);
        offers
    }

    /// What a change does to the book, while the budget lasts.
    fn effect(&mut self, change: Change) -> Option<Effect> {
        if !spend(&mut self.book_budget, self.marks.len()) {
            return None;
        }
        let marks = trial::marks(self.sheet, change)?;
        let both = self.marks.iter().zip(&marks).enumerate();
        let lost = both.filter(|(_, (old, new))| falls(old) && !falls(new)).map(|(number, _)| number).collect();
        Some(Effect { falling: marks.iter().filter(|mark| falls(mark)).count(), lost })
    }
}

/// Whether a rule of this mark falls.
fn falls(mark: &u8) -> bool {
    Mark::new(*mark).is_some_and(Mark::falls)
}

/// Takes a cost from a budget, or answers that it is not there.
fn spend(budget: &mut usize, cost: usize) -> bool {
    let rest = budget.checked_sub(cost);
    *budget = rest.unwrap_or(*budget);
    rest.is_some()
}
