//! AC-KBO on prepared terms, Definition 5.1 of 000 as 01 and 02 restate it, with AC-equivalence. The multiset extension
//! is that of 001, section 2.1.

use std::cmp::Ordering;

use crate::multiset::Multiset;
use crate::order::Orientation;
use crate::table::{is_variable, Table};
use crate::term::{Occurrences, Subterm};

/// The order on subterms of prepared terms. A pair of subterms is reached from one pair of larger ones only, so each is
/// asked about once for the order, and once for AC-equivalence in each comparison of larger ones.
#[derive(Clone, Copy)]
pub struct Order<'a> {
    table: &'a Table,
}

/// What cases 4 to 6 look at in a top-flattening for an AC symbol.
struct Parts<'a> {
    roots_above: Multiset<'a>,
    roots_below: Multiset<'a>,
    variables: Multiset<'a>,
}

impl<'a> Order<'a> {
    pub fn new(table: &'a Table) -> Self {
        Order { table }
    }

    pub fn table(self) -> &'a Table {
        self.table
    }

    /// Whether one root is higher in the precedence than another; a variable is neither higher nor lower.
    pub fn has_higher_root(self, f: u16, g: u16) -> bool {
        !is_variable(f) && !is_variable(g) && self.table.symbol(f).rank > self.table.symbol(g).rank
    }

    /// Whether a term, as its nodes, is a variable under one or more copies of the wrapper.
    pub fn is_wrapped(self, mut nodes: impl DoubleEndedIterator<Item = u16>, variable: u16) -> bool {
        let wraps = |node| !is_variable(node) && self.table.symbol(node).is_wrapper();
        nodes.next_back() == Some(variable) && nodes.next().is_some_and(wraps) && nodes.all(wraps)
    }

    /// Whether s and t are AC-equivalent; most that are not differ in their hash.
    #[inline(always)]
    pub fn is_equivalent(self, s: Subterm, t: Subterm) -> bool {
        s.hash() == t.hash() && s.root() == t.root() && self.has_equivalent_arguments(s, t)
    }

    fn has_equivalent_arguments(self, s: Subterm, t: Subterm) -> bool {
        let f = s.root();
        if !self.table.is_ac(f) {
            return s.arguments().zip(t.arguments()).all(|(s, t)| self.is_equivalent(s, t));
        }
        let mut ss = Multiset::collect(s, s.flattening(f));
        let mut ts = Multiset::collect(t, t.flattening(f));
        self.cancel(&mut ss, &mut ts);
        ss.is_empty() && ts.is_empty()
    }

    /// The case by which s is greater than t.
    pub fn greater_by(self, s: Subterm, t: Subterm) -> Option<Orientation> {
        if s.weight() < t.weight() || !s.occurrences().covers(t.occurrences()) {
            return None;
        }
        if s.weight() > t.weight() {
            return Some(Orientation::Weight);
        }
        let f = s.root();
        if f != t.root() {
            if is_variable(t.root()) {
                return self.is_wrapped(s.nodes(), t.root()).then_some(Orientation::Wrapping);
            }
            return self.has_higher_root(f, t.root()).then_some(Orientation::Precedence);
        }
        if self.table.is_ac(f) {
            return self.flattening_greater_by(f, s, t);
        }
        self.is_lexicographically_greater(s, t).then_some(Orientation::Lexicographic)
    }

    fn is_greater(self, s: Subterm, t: Subterm) -> bool {
        self.greater_by(s, t).is_some()
    }

    /// Whether the arguments of s are AC-equivalent to those of t up to one that is greater.
    fn is_lexicographically_greater(self, s: Subterm, t: Subterm) -> bool {
        let differing = s.arguments().zip(t.arguments()).find(|&(s, t)| !self.is_equivalent(s, t));
        differing.is_some_and(|(s, t)| self.is_greater(s, t))
    }

    /// The case of 4 to 6 by which s is greater than t, both with the AC root f.
    fn flattening_greater_by(self, f: u16, s: Subterm, t: Subterm) -> Option<Orientation> {
        let mut ss = self.parts(f, s);
        let mut ts = self.parts(f, t);
        let (s_len, t_len) = (ss.len(), ts.len());
        ts.move_surplus_variables_above(&ss);
        self.cancel(&mut ss.roots_above, &mut ts.roots_above);
        if !ss.roots_above.is_empty() {
            return self.dominates(&ss.roots_above, &ts.roots_above).then_some(Orientation::RootsAbove);
        }
        if !ts.roots_above.is_empty() {
            return None;
        }
        match s_len.cmp(&t_len) {
            Ordering::Greater => Some(Orientation::Cardinality),
            Ordering::Less => None,
            Ordering::Equal => {
                self.cancel(&mut ss.roots_below, &mut ts.roots_below);
                let greater = !ss.roots_below.is_empty() && self.dominates(&ss.roots_below, &ts.roots_below);
                greater.then_some(Orientation::RootsBelow)
            }
        }
    }

    /// Strikes out AC-equivalent pairs, one for one.
    fn cancel<'s, 't>(self, ss: &mut Multiset<'s>, ts: &mut Multiset<'t>) {
        ss.cancel(ts, |s, t| self.is_equivalent(s, t));
    }

    /// Whether each member of ts has a greater one in ss.
    fn dominates(self, ss: &Multiset, ts: &Multiset) -> bool {
        ts.iter().all(|t| ss.iter().any(|s| self.is_greater(s, t)))
    }

    fn parts<'t>(self, f: u16, term: Subterm<'t>) -> Parts<'t> {
        let rank = self.table.symbol(f).rank;
        let none = || Multiset::new(term);
        let mut parts = Parts { roots_above: none(), roots_below: none(), variables: none() };
        for member in term.flattening(f) {
            let root = member.root();
            if is_variable(root) {
                parts.variables.push(member);
            } else if self.table.symbol(root).rank > rank {
                parts.roots_above.push(member);
            } else {
                parts.roots_below.push(member);
            }
        }
        parts
    }
}

impl Parts<'_> {
    /// The count of members of the top-flattening.
    fn len(&self) -> usize {
        self.roots_above.len() + self.roots_below.len() + self.variables.len()
    }

    /// Joins the variables, less those of another top-flattening, with the roots above.
    fn move_surplus_variables_above(&mut self, other: &Parts) {
        let mut others = Occurrences::NONE;
        other.variables.iter().for_each(|variable| others.add(variable.occurrences()));
        for variable in self.variables.iter() {
            if others.covers(variable.occurrences()) {
                others.subtract(variable.occurrences());
            } else {
                self.roots_above.push(variable);
            }
        }
    }
}
