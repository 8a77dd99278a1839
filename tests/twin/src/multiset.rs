//! Multisets of subterms, as they arise in a comparison.

use crate::table::MAX_NODES;
use crate::term::Subterm;

/// A top-flattening of n members takes 2n - 1 nodes at least.
const MAX_MEMBERS: usize = MAX_NODES / 2;

/// A multiset of subterms of one term.
pub struct Multiset<'a> {
    term: Subterm<'a>,
    positions: [u8; MAX_MEMBERS],
    len: usize,
}

impl<'a> Multiset<'a> {
    /// The empty multiset, for members out of a term.
    pub fn new(term: Subterm<'a>) -> Self {
        Multiset { term, positions: [0; MAX_MEMBERS], len: 0 }
    }

    /// The multiset of the members given.
    pub fn collect(term: Subterm<'a>, members: impl Iterator<Item = Subterm<'a>>) -> Self {
        let mut multiset = Self::new(term);
        members.for_each(|member| multiset.push(member));
        multiset
    }

    pub fn push(&mut self, member: Subterm<'a>) {
        self.positions[self.len] = member.position() as u8;
        self.len += 1;
    }

    pub fn len(&self) -> usize {
        self.len
    }

    pub fn is_empty(&self) -> bool {
        self.len == 0
    }

    pub fn iter(&self) -> impl Iterator<Item = Subterm<'a>> + '_ {
        self.positions[..self.len].iter().map(|&position| self.term.at(usize::from(position)))
    }

    /// Strikes out members of both multisets in pairs that are alike, one for one.
    pub fn cancel<'b>(&mut self, other: &mut Multiset<'b>, alike: impl Fn(Subterm<'a>, Subterm<'b>) -> bool) {
        let mut kept = 0;
        for index in 0..self.len {
            let position = self.positions[index];
            let member = self.term.at(usize::from(position));
            let partner = other.iter().position(|others| alike(member, others));
            if let Some(partner) = partner {
                other.remove(partner);
            } else {
                self.positions[kept] = position;
                kept += 1;
            }
        }
        self.len = kept;
    }

    /// Removes the member at an index; the last one takes its place.
    fn remove(&mut self, index: usize) {
        self.len -= 1;
        self.positions[index] = self.positions[self.len];
    }
}
