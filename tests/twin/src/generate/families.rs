//! Families of pairs of terms that grow with a count of nodes, to measure how the cost of a comparison grows.
//! A name says the shape of the terms, then how they differ.

use super::shapes::*;
use super::{Book, Signature, Tree};
use crate::table::{Symbol, MAX_NODES, VARIABLES};

/// Two terms for a count of nodes.
type Build = Box<dyn Fn(usize) -> (Tree, Tree)>;

/// A pair of terms for each count of nodes, over few symbols.
pub struct Family {
    pub name: String,
    build: Build,
}

impl Family {
    fn new(name: impl Into<String>, build: impl Fn(usize) -> (Tree, Tree) + 'static) -> Self {
        Family { name: name.into(), build: Box::new(build) }
    }

    /// The left and right term of at most `nodes` nodes, up to 128, or of the least count of the shape.
    pub fn pair(&self, nodes: usize) -> (Vec<u16>, Vec<u16>) {
        let used = self.used();
        let number = |node: u16| used.iter().position(|&symbol| u16::from(symbol) == node).map_or(node, |n| n as u16);
        let words = |tree: Tree| tree.words().into_iter().map(number).collect();
        let (left, right) = (self.build)(nodes);
        (words(left), words(right))
    }

    /// The packed rule file of the symbols that the family uses, without rules.
    pub fn book(&self) -> Vec<u8> {
        Book::empty(self.signature()).packed()
    }

    /// The packed rule file of one rule, the pair of at most `nodes` nodes.
    pub fn rule_book(&self, nodes: usize) -> Vec<u8> {
        Book::of_rules(self.signature(), [self.pair(nodes)]).packed()
    }

    fn signature(&self) -> Signature {
        Signature { w0: 1, symbols: self.used().into_iter().map(symbol).collect() }
    }

    /// The symbols of the largest pair, among them those of the smaller ones.
    fn used(&self) -> Vec<u8> {
        let (left, right) = (self.build)(MAX_NODES);
        let words = [left.words(), right.words()].concat();
        (0..SYMBOLS).filter(|&symbol| words.contains(&symbol.into())).collect()
    }
}

/// A symbol by its number; its rank is that number.
fn symbol(number: u8) -> Symbol {
    let (arity, weight) = match number {
        HEAVY => (0, 3),
        LOW | HIGH | HIGHER => (1, 1),
        PLUS | TIMES | PAIR => (2, 1),
        _ => (0, 1),
    };
    Symbol { arity, ac: number == PLUS || number == TIMES, weight, rank: number }
}

/// Every family.
pub fn families() -> Vec<Family> {
    let mut families = chains();
    for shape in [RIGHT_COMB, LEFT_COMB, WIDE_CONSTANTS, WIDE_VARIABLES, WIDE_UNARY, WIDE_DEEP] {
        families.extend(kinds(shape));
    }
    for shape in [ALTERNATING, DEEPEST, BALANCED, NESTED] {
        families.extend(kinds(shape));
    }
    families.push(Family::new("left-comb/first", |nodes| {
        (LEFT_COMB.term(nodes, first, 0, false), LEFT_COMB.term(nodes, first, 1, false))
    }));
    families.extend(marks());
    families.extend(covers());
    families
}

fn first(_: usize) -> usize {
    0
}

fn middle(leaves: usize) -> usize {
    leaves / 2
}

fn last(leaves: usize) -> usize {
    leaves - 1
}

/// Symbols of arity 1 over a constant.
fn chains() -> Vec<Family> {
    let chain = |nodes: usize, leaf| unary_chain(HIGH, nodes.saturating_sub(1), constant(leaf));
    let under = |root, nodes: usize| unary(root, unary_chain(HIGH, nodes.saturating_sub(2), constant(1)));
    vec![
        Family::new("chain/equal", move |nodes| (chain(nodes, 1), chain(nodes, 1))),
        Family::new("chain/end", move |nodes| (chain(nodes, 0), chain(nodes, 1))),
        Family::new("chain/top", move |nodes| (under(HIGH, nodes), under(HIGHER, nodes))),
    ]
}

/// Terms of one shape: equal in another grouping; the left one less by its middle leaf, in another grouping; the left
/// one greater by its last leaf.
fn kinds(shape: Shape) -> Vec<Family> {
    let name = |kind| format!("{}/{kind}", shape.name);
    let term = move |nodes, place, leaf, regrouped| shape.term(nodes, place, leaf, regrouped);
    vec![
        Family::new(name("equal"), move |nodes| (term(nodes, middle, 1, false), term(nodes, middle, 1, true))),
        Family::new(name("nearly"), move |nodes| (term(nodes, middle, 0, false), term(nodes, middle, 1, true))),
        Family::new(name("last"), move |nodes| (term(nodes, last, 1, false), term(nodes, last, 0, false))),
    ]
}

/// Levels of `level` nodes each around a term, as many as fit.
fn around(nodes: usize, level: usize, inner: Tree, wrap: impl Fn(Tree) -> Tree) -> Tree {
    (0..nodes.saturating_sub(inner.size()) / level).fold(inner, |tree, _| wrap(tree))
}

/// A member and a variable under an AC symbol.
fn beside_variable(member: Tree) -> Tree {
    binary(PLUS, member, Tree::Variable(1))
}

/// Rules of one mark whose reason lies deep.
fn marks() -> Vec<Family> {
    let third = |nodes, leaf, f: u8, g: u8| {
        around(nodes, 4, constant(leaf), |tree| binary(PAIR, binary(PLUS, constant(f), constant(g)), tree))
    };
    let member = |nodes, root, leaf| around(nodes, 3, constant(leaf), |tree| beside_variable(unary(root, tree)));
    let fifth = |nodes: usize, regrouped| unary(HIGH, ALTERNATING.term(nodes.saturating_sub(5), last, 1, regrouped));
    let tenth = |nodes, inner| around(nodes, 3, inner, |tree| beside_variable(unary(LOW, tree)));
    let variable = || Tree::Variable(0);
    vec![
        Family::new("mark-3", move |nodes| (third(nodes, 1, 2, 3), third(nodes, 0, 3, 2))),
        Family::new("mark-4", move |nodes| (member(nodes, HIGH, 1), member(nodes, HIGH, 0))),
        Family::new("mark-5", move |nodes| {
            let left = right_comb(PLUS, vec![constant(1), fifth(nodes, false), constant(1)]);
            (left, binary(PLUS, constant(HEAVY), fifth(nodes, true)))
        }),
        Family::new("mark-6", move |nodes| (member(nodes, LOW, 1), member(nodes, LOW, 0))),
        Family::new("mark-10", move |nodes| {
            let left = binary(PLUS, unary(HIGH, variable()), constant(1));
            (tenth(nodes, left), tenth(nodes, binary(PLUS, variable(), unary(HIGH, constant(1)))))
        }),
    ]
}

/// Top-flattenings without a common member: only the last one on the left is greater than those on the right; or only
/// those with the same variable are.
fn covers() -> Vec<Family> {
    let lesser = |leaf: usize| constant(1 + (leaf % 4) as u8);
    let middling = |leaf: usize| constant(5 + (leaf % 8) as u8);
    let pair = move |nodes: usize, shape: Shape| {
        let lefts = Shape { leaf: lesser, ..shape };
        (lefts.term(nodes, last, CONSTANTS - 1, false), Shape { leaf: middling, ..shape }.term(nodes, last, 5, false))
    };
    let over_variables = |nodes: usize, root: u8| -> Vec<Tree> {
        let count = ((nodes + 1) / 3).max(1);
        (0..count).map(|index| unary(root, Tree::Variable((index % VARIABLES) as u8))).collect()
    };
    vec![
        Family::new("cover/unary", move |nodes| pair(nodes, WIDE_UNARY)),
        Family::new("cover/deep", move |nodes| pair(nodes, WIDE_DEEP)),
        Family::new("cover/variables", move |nodes| {
            let right = over_variables(nodes, HIGH).into_iter().rev().collect();
            (right_comb(PLUS, over_variables(nodes, HIGHER)), right_comb(PLUS, right))
        }),
    ]
}
