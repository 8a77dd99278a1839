//! Comparing two terms, and orienting a rule. Most rules are settled by their variables, weights and roots; only the
//! others are prepared for `ackbo`.

use std::cmp::Ordering;

use crate::ackbo::Order;
use crate::error::Error;
use crate::format::System;
use crate::reading::check_term;
use crate::table::{is_variable, Table};
use crate::term::{weight_and_occurrences, Prepared};

/// The result of orienting a rule from left to right, numbered by 01's and 02's marks.
#[derive(Clone, Copy, Debug, PartialEq, Eq)]
#[repr(u8)]
pub enum Orientation {
    /// Greater: the left side weighs more.
    Weight = 1,
    /// Greater: its root is higher in the precedence.
    Precedence = 2,
    /// Greater: its arguments are, lexicographically.
    Lexicographic = 3,
    /// Greater: the members of its top-flattening with a root above the AC symbol are.
    RootsAbove = 4,
    /// Greater: those are AC-equivalent, and its top-flattening has more members.
    Cardinality = 5,
    /// Greater: the top-flattenings have equally many members, and those with a root below the AC symbol are greater.
    RootsBelow = 6,
    /// A variable occurs oftener on the right.
    Variables = 7,
    /// The left side weighs less.
    Lighter = 8,
    /// The sides are AC-equivalent.
    Equivalent = 9,
    /// None of the others.
    Unrelated = 10,
    /// Greater: the right side is a variable, and the left that variable under copies of the symbol of arity 1 that
    /// weighs 0.
    Wrapping = 11,
}

impl Orientation {
    /// Whether the left side is greater. 01: the rule falls.
    pub fn decreasing(self) -> bool {
        self as u8 <= Orientation::RootsBelow as u8 || self == Orientation::Wrapping
    }
}

/// How a left term stands to a right one.
#[derive(Clone, Copy, Debug, PartialEq, Eq)]
pub enum Relation {
    Greater,
    Less,
    Equivalent,
    Unrelated,
}

/// The reply of `compare`; the margin is the left weight minus the right one.
#[derive(Clone, Copy, Debug, PartialEq, Eq)]
pub struct Comparison {
    pub relation: Relation,
    pub margin: i64,
}

/// 01: comparing. Compares two terms under a packed rule file.
pub fn compare(book: &[u8], left: &[u16], right: &[u16]) -> Result<Comparison, Error> {
    let system = System::from_packed(book)?;
    check_term(&system.table, left, 1)?;
    check_term(&system.table, right, 2)?;
    Ok(Comparer::new(&system.table).compare(left, right))
}

/// Compares terms over one table, in room that it keeps.
pub struct Comparer<'a> {
    order: Order<'a>,
    left: Prepared,
    right: Prepared,
}

impl<'a> Comparer<'a> {
    pub fn new(table: &'a Table) -> Self {
        Comparer { order: Order::new(table), left: Prepared::new(), right: Prepared::new() }
    }

    /// Compares two terms over the table.
    pub fn compare(&mut self, left: &[u16], right: &[u16]) -> Comparison {
        let (orientation, margin) = self.orient(left, right);
        let relation = if orientation.decreasing() {
            Relation::Greater
        } else if orientation == Orientation::Equivalent {
            Relation::Equivalent
        } else if self.orient(right, left).0.decreasing() {
            Relation::Less
        } else {
            Relation::Unrelated
        };
        Comparison { relation, margin }
    }

    /// Orients a rule from left to right; hands back its margin too.
    pub fn orient(&mut self, left: &[u16], right: &[u16]) -> (Orientation, i64) {
        let (left_weight, left_occurrences) = weight_and_occurrences(self.order.table(), left);
        let (right_weight, right_occurrences) = weight_and_occurrences(self.order.table(), right);
        let margin = left_weight as i64 - right_weight as i64;
        let orientation = if !left_occurrences.covers(&right_occurrences) {
            Orientation::Variables
        } else {
            match margin.cmp(&0) {
                Ordering::Greater => Orientation::Weight,
                Ordering::Less => Orientation::Lighter,
                Ordering::Equal => self.orient_equal_weights(left, right),
            }
        };
        (orientation, margin)
    }

    /// Orients a rule whose sides weigh the same and whose right side has no surplus variable.
    fn orient_equal_weights(&mut self, left: &[u16], right: &[u16]) -> Orientation {
        if left[0] != right[0] {
            if self.order.has_higher_root(left[0], right[0]) {
                return Orientation::Precedence;
            }
            let wrapped = is_variable(right[0]) && self.order.is_wrapped(left.iter().copied(), right[0]);
            return if wrapped { Orientation::Wrapping } else { Orientation::Unrelated };
        }
        let s = self.left.prepare(self.order.table(), left);
        let t = self.right.prepare(self.order.table(), right);
        if self.order.is_equivalent(s, t) {
            return Orientation::Equivalent;
        }
        self.order.greater_by(s, t).unwrap_or(Orientation::Unrelated)
    }
}
