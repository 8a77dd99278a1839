//! Terms in prefix order, with what the order asks of each subterm prepared by the position of its root.

use crate::table::{Table, FIRST_VARIABLE, MAX_NODES, VARIABLES};

/// How often each variable occurs in a term; a term has fewer than 128 leaves.
#[derive(Clone, Copy)]
pub struct Occurrences([u8; VARIABLES]);

/// The occurrences of each variable in itself, and those in a constant.
static IN_LEAVES: [Occurrences; VARIABLES + 1] = {
    let mut leaves = [Occurrences::NONE; VARIABLES + 1];
    let mut variable = 0;
    while variable < VARIABLES {
        leaves[variable].0[variable] = 1;
        variable += 1;
    }
    leaves
};

impl Occurrences {
    pub const NONE: Self = Occurrences([0; VARIABLES]);

    /// The occurrences that a node adds to its term.
    pub fn of_node(node: u16) -> &'static Self {
        &IN_LEAVES[usize::from(node.wrapping_sub(FIRST_VARIABLE)).min(VARIABLES)]
    }

    pub fn add(&mut self, other: &Self) {
        for (mine, others) in self.0.iter_mut().zip(&other.0) {
            *mine += others;
        }
    }

    /// Takes away what covered occurrences count.
    pub fn subtract(&mut self, covered: &Self) {
        for (mine, others) in self.0.iter_mut().zip(&covered.0) {
            *mine -= others;
        }
    }

    /// Whether no variable occurs oftener in `other`.
    pub fn covers(&self, other: &Self) -> bool {
        self.0.iter().zip(&other.0).fold(true, |covers, (mine, others)| covers & (mine >= others))
    }

    /// The lowest variable that occurs oftener in `other`, or 16 where there is none.
    pub fn first_oftener(&self, other: &Self) -> usize {
        self.0.iter().zip(&other.0).position(|(mine, others)| mine < others).unwrap_or(VARIABLES)
    }
}

/// The occurrences of the variables of a term.
pub fn occurrences(term: &[u16]) -> Occurrences {
    let mut occurrences = Occurrences::NONE;
    term.iter().for_each(|&node| occurrences.add(Occurrences::of_node(node)));
    occurrences
}

/// The weight of a term and the occurrences of its variables.
pub fn weight_and_occurrences(table: &Table, term: &[u16]) -> (u64, Occurrences) {
    let mut weight = 0;
    let mut occurrences = Occurrences::NONE;
    for &node in term {
        weight += table.weight(node);
        occurrences.add(Occurrences::of_node(node));
    }
    (weight, occurrences)
}

/// What the order asks of a subterm.
#[derive(Clone, Copy)]
struct Summary {
    root: u16,
    size: u8,
    weight: u64,
    occurrences: Occurrences,
    hash: u64,
}

/// A term with a summary of each subterm.
pub struct Prepared {
    subterms: [Summary; MAX_NODES],
}

/// An odd number with no pattern in its bits.
const HASH_FACTOR: u64 = 0x9e37_79b9_7f4a_7c15;

/// Spreads a hash over all bits.
fn mix(hash: u64) -> u64 {
    let product = hash.wrapping_mul(HASH_FACTOR);
    (product ^ product >> 32).wrapping_mul(HASH_FACTOR)
}

/// The hash of a root before its arguments are added.
fn root_hash(root: u16) -> u64 {
    mix(u64::from(root) + 1)
}

impl Prepared {
    /// Room for one term.
    pub fn new() -> Self {
        let none = Summary { root: 0, size: 0, weight: 0, occurrences: Occurrences::NONE, hash: 0 };
        Prepared { subterms: [none; MAX_NODES] }
    }

    /// Prepares a term, from its last node to its first; hands back the whole of it.
    pub fn prepare(&mut self, table: &Table, term: &[u16]) -> Subterm<'_> {
        for (position, &root) in term.iter().enumerate().rev() {
            self.subterms[position] = self.summary(table, position, root);
        }
        Subterm { term: self, position: 0 }
    }

    /// The summary of the subterm at a position, from those of its arguments.
    fn summary(&self, table: &Table, position: usize, root: u16) -> Summary {
        let is_ac = table.is_ac(root);
        let mut end = position + 1;
        let mut weight = table.weight(root);
        let mut occurrences = *Occurrences::of_node(root);
        let mut hash = root_hash(root);
        for _ in 0..table.arity(root) {
            let argument = &self.subterms[end];
            end += usize::from(argument.size);
            weight += argument.weight;
            occurrences.add(&argument.occurrences);
            hash = if is_ac { hash.wrapping_add(member_hash(root, argument)) } else { mix(hash ^ argument.hash) };
        }
        Summary { root, size: (end - position) as u8, weight, occurrences, hash }
    }
}

/// What an argument adds to the hash of an AC symbol: a sum over the top-flattening of the argument.
fn member_hash(ac_symbol: u16, argument: &Summary) -> u64 {
    if argument.root == ac_symbol {
        argument.hash.wrapping_sub(root_hash(ac_symbol))
    } else {
        mix(argument.hash)
    }
}

/// A subterm of a prepared term.
#[derive(Clone, Copy)]
pub struct Subterm<'a> {
    term: &'a Prepared,
    position: usize,
}

impl<'a> Subterm<'a> {
    pub fn root(self) -> u16 {
        self.summary().root
    }

    pub fn weight(self) -> u64 {
        self.summary().weight
    }

    pub fn occurrences(self) -> &'a Occurrences {
        &self.summary().occurrences
    }

    /// A number that AC-equivalent subterms share.
    pub fn hash(self) -> u64 {
        self.summary().hash
    }

    fn summary(self) -> &'a Summary {
        &self.term.subterms[self.position]
    }

    /// The position of the root in the prefix order of the whole term.
    pub fn position(self) -> usize {
        self.position
    }

    /// The subterm of the same term at another position.
    pub fn at(self, position: usize) -> Self {
        Subterm { term: self.term, position }
    }

    /// The position after the last node.
    fn end(self) -> usize {
        self.position + usize::from(self.summary().size)
    }

    /// The nodes in prefix order.
    pub fn nodes(self) -> impl DoubleEndedIterator<Item = u16> + 'a {
        (self.position..self.end()).map(move |position| self.at(position).root())
    }

    /// The arguments of the root.
    pub fn arguments(self) -> impl Iterator<Item = Subterm<'a>> {
        let end = self.end();
        let mut position = self.position + 1;
        std::iter::from_fn(move || {
            let argument = (position < end).then(|| self.at(position))?;
            position = argument.end();
            Some(argument)
        })
    }

    /// The top-flattening for an AC symbol. 01: the bag of a term for f.
    pub fn flattening(self, ac_symbol: u16) -> impl Iterator<Item = Subterm<'a>> {
        let end = self.end();
        let mut position = self.position;
        std::iter::from_fn(move || {
            while position < end && self.at(position).root() == ac_symbol {
                position += 1;
            }
            let member = (position < end).then(|| self.at(position))?;
            position = member.end();
            Some(member)
        })
    }
}
