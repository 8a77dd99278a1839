//! The marks of a book, and what is found out about each rule.

use crate::advice::{Adviser, Offer};
use crate::complaint::{Complaint, ACCEPTED, RETURNED};
use crate::input::Loaded;
use crate::refusal;
use crate::repeats::{self, Repeat};
use crate::sheet::Rule;
use crate::words::Mark;

/// The marks that no change of weights or ranks follows.
pub const VARIABLE_ADDED: u8 = 7;
pub const SIDES_EQUAL: u8 = 9;

/// What the library says of a book's rules.
pub struct Marking {
    pub marks: Vec<u8>,
    pub margins: Vec<i64>,
    pub marked: ackbo::Marked,
}

impl Marking {
    /// Asks the library for the marks and the margins.
    pub fn of(loaded: &Loaded) -> Result<Self, Complaint> {
        let refused = |error| refusal::of_book(error, &loaded.book);
        let mut marks = vec![0; loaded.sheet.rules().len()];
        let marked = ackbo::mark(&loaded.book, &mut marks).map_err(refused)?;
        let compared = loaded.sheet.rules().map(|(left, right)| ackbo::compare(&loaded.book, left, right));
        let margins = compared.map(|comparison| comparison.map(|comparison| comparison.margin).map_err(refused));
        Ok(Marking { marks, margins: margins.collect::<Result<_, _>>()?, marked })
    }

    /// Whether all rules fall.
    pub fn accepted(&self) -> bool {
        self.marked.falling == self.marked.rules
    }

    /// The word for the whole book.
    pub fn verdict(&self) -> &'static str {
        if self.accepted() {
            "accepted"
        } else {
            "returned"
        }
    }

    /// The status that the program ends with.
    pub fn status(&self) -> u8 {
        if self.accepted() {
            ACCEPTED
        } else {
            RETURNED
        }
    }
}

/// What is found out about a rule; of one that falls, nothing is in the way and nothing is offered.
pub struct Finding<'a> {
    pub number: usize,
    pub rule: Rule<'a>,
    pub mark: u8,
    pub margin: i64,
    /// The variables that occur oftener on the right.
    pub oftener: Vec<usize>,
    /// Whether the rule falls turned round.
    pub turned: bool,
    /// The changes of ranks and weights that make the rule fall; none where none is looked for.
    pub offers: Option<Vec<Offer>>,
    /// Whether the changes that a run tries are used up.
    pub untried: bool,
    /// The earlier rule that this one is.
    pub repeat: Option<Repeat>,
}

impl Finding<'_> {
    pub fn falls(&self) -> bool {
        Mark::new(self.mark).is_some_and(Mark::falls)
    }

    pub fn words(&self) -> &'static str {
        Mark::new(self.mark).map_or("", Mark::text)
    }
}

/// What is found out about each rule.
pub fn findings<'a>(loaded: &'a Loaded, marking: &'a Marking) -> Vec<Finding<'a>> {
    let mut adviser = Adviser::new(&loaded.book, &loaded.sheet, &marking.marks);
    let rules = loaded.sheet.rules().enumerate().zip(repeats::of(&loaded.sheet));
    let found = rules.map(|((number, rule), repeat)| {
        let (mark, margin) = (marking.marks[number], marking.margins[number]);
        let (oftener, turned, offers, untried) = (Vec::new(), false, None, false);
        let finding = Finding { number, rule, mark, margin, oftener, turned, offers, untried, repeat };
        if finding.falls() {
            finding
        } else {
            advised(&mut adviser, finding)
        }
    });
    found.collect()
}

/// A finding with what is in the way, and what may be changed.
fn advised<'a>(adviser: &mut Adviser, finding: Finding<'a>) -> Finding<'a> {
    let Finding { rule, mark, margin, .. } = finding;
    let oftener = if mark == VARIABLE_ADDED { adviser.oftener(rule) } else { Vec::new() };
    let looked_for = !matches!(mark, VARIABLE_ADDED | SIDES_EQUAL);
    let offers = looked_for.then(|| {
        let mut offers = if margin == 0 { adviser.ranks(rule) } else { Vec::new() };
        offers.extend(adviser.weights(rule, margin.unsigned_abs() as usize));
        offers.extend(adviser.wrappers(rule));
        offers
    });
    let untried = looked_for && !adviser.can_try();
    Finding { oftener, turned: adviser.falls_back(rule), offers, untried, ..finding }
}
