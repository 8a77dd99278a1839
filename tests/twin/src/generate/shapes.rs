//! Terms put together from leaves, for families of terms.

use super::Tree;
use crate::table::VARIABLES;

/// The constants of weight 1, in the order of their ranks.
pub const CONSTANTS: u8 = 16;
/// A constant that weighs as much as a sum of two others.
pub const HEAVY: u8 = CONSTANTS;
/// A symbol of arity 1 with a rank below the AC symbols.
pub const LOW: u8 = HEAVY + 1;
/// Two AC symbols.
pub const PLUS: u8 = LOW + 1;
pub const TIMES: u8 = PLUS + 1;
/// Two symbols of arity 1 with a rank above the AC symbols.
pub const HIGH: u8 = TIMES + 1;
pub const HIGHER: u8 = HIGH + 1;
/// A symbol of arity 2 that is not AC.
pub const PAIR: u8 = HIGHER + 1;
pub const SYMBOLS: u8 = PAIR + 1;

/// How leaves become a term.
#[derive(Clone, Copy)]
pub struct Shape {
    pub name: &'static str,
    /// The most leaves for a count of nodes.
    pub leaves: fn(usize) -> usize,
    /// The leaf of an index.
    pub leaf: fn(usize) -> Tree,
    /// Joins the leaves, in another grouping and order if asked for and allowed by AC symbols.
    pub join: fn(Vec<Tree>, bool) -> Tree,
}

impl Shape {
    /// A term of at most `nodes` nodes with one constant, at an index given by the count of leaves.
    pub fn term(self, nodes: usize, place: fn(usize) -> usize, number: u8, regrouped: bool) -> Tree {
        let count = (self.leaves)(nodes).max(1);
        let mut leaves: Vec<Tree> = (0..count).map(self.leaf).collect();
        leaves[place(count)] = constant(number);
        (self.join)(leaves, regrouped)
    }
}

pub const RIGHT_COMB: Shape = Shape {
    name: "right-comb",
    leaves: leaves_of_binary,
    leaf: mixed_constant,
    join: |leaves, _| right_comb(PAIR, leaves),
};

pub const LEFT_COMB: Shape = Shape { name: "left-comb", join: |leaves, _| left_comb(PAIR, leaves), ..RIGHT_COMB };

/// One top-flattening of constants.
pub const WIDE_CONSTANTS: Shape = Shape { name: "wide-constants", join: wide, ..RIGHT_COMB };

/// One top-flattening of variables and a constant.
pub const WIDE_VARIABLES: Shape =
    Shape { name: "wide-variables", leaf: |index| Tree::Variable((index % VARIABLES) as u8), ..WIDE_CONSTANTS };

/// One top-flattening of members of two nodes.
pub const WIDE_UNARY: Shape = Shape {
    name: "wide-unary",
    leaves: |nodes| (nodes + 1) / 3,
    leaf: mixed_constant,
    join: |leaves, regrouped| wide(leaves.into_iter().map(|leaf| unary(HIGH, leaf)).collect(), regrouped),
};

/// One top-flattening with as many members as each of them has nodes.
pub const WIDE_DEEP: Shape = Shape {
    name: "wide-deep",
    leaves: |nodes| (1..).take_while(|count| count * count + count - 1 <= nodes).count(),
    leaf: mixed_constant,
    join: |leaves, regrouped| {
        let unary = leaves.len() - 1;
        wide(leaves.into_iter().map(|leaf| unary_chain(HIGH, unary, leaf)).collect(), regrouped)
    },
};

/// Two AC symbols in turn, with two leaves at each level.
pub const ALTERNATING: Shape = Shape {
    name: "alternating",
    leaves: |nodes| odd(leaves_of_binary(nodes)),
    leaf: mixed_constant,
    join: |leaves, regrouped| levels(leaves, regrouped, |tree, _| tree),
};

/// Two AC symbols in turn, with one leaf at each level: as deep as they nest.
pub const DEEPEST: Shape = Shape { name: "deepest", join: deepest, ..RIGHT_COMB };

/// Two AC symbols in turn over two halves at each level; all leaves but one are alike.
pub const BALANCED: Shape = Shape {
    name: "balanced",
    leaf: |_| constant(2),
    join: |leaves, regrouped| halves(&leaves, 0, regrouped),
    ..RIGHT_COMB
};

/// Two AC symbols in turn, each under a symbol of arity 1.
pub const NESTED: Shape = Shape {
    name: "nested",
    leaves: |nodes| 1 + 2 * (nodes.saturating_sub(1) / 5),
    leaf: mixed_constant,
    join: |leaves, regrouped| levels(leaves, regrouped, |tree, level| unary([LOW, HIGH][level % 2], tree)),
};

/// The leaves of a term whose other nodes have two arguments.
fn leaves_of_binary(nodes: usize) -> usize {
    nodes.div_ceil(2)
}

/// The greatest odd number up to a count, or 0.
fn odd(count: usize) -> usize {
    count.saturating_sub((count + 1) % 2)
}

pub fn constant(number: u8) -> Tree {
    Tree::Application(number, Vec::new())
}

/// The constants from 2 on in turn.
fn mixed_constant(index: usize) -> Tree {
    constant(2 + (index % usize::from(CONSTANTS - 2)) as u8)
}

pub fn unary(symbol: u8, argument: Tree) -> Tree {
    Tree::Application(symbol, vec![argument])
}

pub fn unary_chain(symbol: u8, count: usize, leaf: Tree) -> Tree {
    (0..count).fold(leaf, |tree, _| unary(symbol, tree))
}

pub fn binary(symbol: u8, left: Tree, right: Tree) -> Tree {
    Tree::Application(symbol, vec![left, right])
}

pub fn left_comb(symbol: u8, leaves: Vec<Tree>) -> Tree {
    let joined = leaves.into_iter().reduce(|tree, leaf| binary(symbol, tree, leaf));
    joined.expect("there is a leaf")
}

pub fn right_comb(symbol: u8, leaves: Vec<Tree>) -> Tree {
    let joined = leaves.into_iter().rev().reduce(|tree, leaf| binary(symbol, leaf, tree));
    joined.expect("there is a leaf")
}

/// Members under one AC symbol; the other grouping has the reverse order too.
fn wide(mut members: Vec<Tree>, regrouped: bool) -> Tree {
    if regrouped {
        members.reverse();
        return left_comb(PLUS, members);
    }
    right_comb(PLUS, members)
}

/// Levels of two AC symbols in turn, two leaves and the next level at each, wrapped at each level; the last leaf is
/// innermost.
fn levels(mut leaves: Vec<Tree>, regrouped: bool, wrap: fn(Tree, usize) -> Tree) -> Tree {
    let mut tree = leaves.pop().expect("there is a leaf");
    while let (Some(second), Some(first)) = (leaves.pop(), leaves.pop()) {
        let level = leaves.len() / 2;
        let members = if regrouped { vec![tree, second, first] } else { vec![first, second, tree] };
        let join = if regrouped { left_comb } else { right_comb };
        tree = wrap(join([PLUS, TIMES][level % 2], members), level);
    }
    tree
}

/// Levels of two AC symbols in turn, a leaf and the next level at each; the last leaf is innermost.
fn deepest(mut leaves: Vec<Tree>, regrouped: bool) -> Tree {
    let mut tree = leaves.pop().expect("there is a leaf");
    while let Some(leaf) = leaves.pop() {
        let (left, right) = if regrouped { (tree, leaf) } else { (leaf, tree) };
        tree = binary([PLUS, TIMES][leaves.len() % 2], left, right);
    }
    tree
}

fn halves(leaves: &[Tree], level: usize, regrouped: bool) -> Tree {
    if let [leaf] = leaves {
        return leaf.clone();
    }
    let (left, right) = leaves.split_at(leaves.len() / 2);
    let (left, right) = if regrouped { (right, left) } else { (left, right) };
    let half = |leaves| halves(leaves, level + 1, regrouped);
    binary([PLUS, TIMES][level % 2], half(left), half(right))
}
