//! Pairs of terms, each aimed at one mark of 01; most of them reach it.

use super::signature::join;
use super::{Random, Signature, Tree};
use crate::table::{is_variable, Symbol, FIRST_VARIABLE, VARIABLES};

/// The variables that terms of a pair draw from.
const PAIR_VARIABLES: usize = 3;
/// The draws that a term to be lowered is given.
const DRAWS: usize = 4;

type Pair = (Tree, Tree);

impl Signature {
    /// A pair aimed at a mark, 1 to 11; any other number gives two terms of no relation.
    /// A side grows to a few times `size` nodes at most.
    pub fn pair(&self, random: &mut Random, mark: u8, size: usize) -> Pair {
        match mark {
            1 => self.heavier(random, size, PAIR_VARIABLES),
            2 => self.higher_root(random, size),
            3 => self.greater_argument(random, size),
            4 => self.greater_member(random, size, true),
            5 => self.more_members(random, size),
            6 => self.greater_member(random, size, false),
            7 => self.surplus_variable(random, size),
            8 => swapped(self.heavier(random, size, 0)),
            9 => self.equivalent(random, size),
            10 => self.unrelated(random, size),
            11 => self.wrapped(random, size),
            _ => (self.tree(random, size, PAIR_VARIABLES), self.tree(random, size, PAIR_VARIABLES)),
        }
    }

    /// A pair aimed at a mark, at times under one context on both sides.
    pub fn pair_in_context(&self, random: &mut Random, mark: u8, size: usize) -> Pair {
        let (left, right) = self.pair(random, mark, size);
        if !random.one_in(4) {
            return (left, right);
        }
        let context = self.tree(random, size, 1);
        (context.substitute(&[left]), context.substitute(&[right]))
    }

    /// A pair of `size` nodes over all variables, aimed at the lowest one that occurs oftener on the right; 16 is aimed
    /// at none. At times higher ones do too.
    pub fn oftener_pair(&self, random: &mut Random, lowest: usize, size: usize) -> Pair {
        let left = Tree::from_words(&self.symbols, &self.sized_words(random, size));
        let mut words = self.variant(random, &left).words();
        let changes = if random.one_in(2) { 1 } else { random.between(2, VARIABLES) };
        for change in 0..changes {
            let variable = match change {
                0 => lowest,
                _ => random.between(lowest, VARIABLES),
            };
            self.replace_leaf(random, &mut words, lowest, variable);
        }
        (left, Tree::from_words(&self.symbols, &words))
    }

    /// Puts a variable, or a constant for 16, in the place of a leaf other than the variable `kept`, if there is one.
    fn replace_leaf(&self, random: &mut Random, words: &mut [u16], kept: usize, variable: usize) {
        let word = |variable: usize| FIRST_VARIABLE + variable as u16;
        let is_leaf = |node: u16| is_variable(node) || self.symbols[usize::from(node)].arity == 0;
        let leaves: Vec<usize> =
            (0..words.len()).filter(|&place| is_leaf(words[place]) && words[place] != word(kept)).collect();
        let constants = self.numbers(|symbol| symbol.arity == 0);
        let new =
            if variable < VARIABLES { Some(word(variable)) } else { random.choose(&constants).map(|&c| c.into()) };
        if let (Some(&place), Some(new)) = (random.choose(&leaves), new) {
            words[place] = new;
        }
    }

    fn heavier(&self, random: &mut Random, size: usize, variables: usize) -> Pair {
        let right = self.tree(random, size, PAIR_VARIABLES);
        let inner = self.variant(random, &right);
        let symbol = random.choose(&self.numbers(|symbol| symbol.arity > 0)).copied();
        let Some(symbol) = symbol else { return (inner, right) };
        let mut arguments = arguments(&self.application(random, symbol, size, variables)).to_vec();
        let index = random.below(arguments.len());
        arguments[index] = inner;
        (Tree::Application(symbol, arguments), right)
    }

    fn higher_root(&self, random: &mut Random, size: usize) -> Pair {
        let below = |high: &Symbol| {
            let high = *high;
            self.numbers(|low| low.arity == high.arity && low.weight == high.weight && low.rank < high.rank)
        };
        let Some(&root) = random.choose(&self.numbers(|symbol| !below(symbol).is_empty())) else {
            return self.equivalent(random, size);
        };
        let left = self.application(random, root, size, PAIR_VARIABLES);
        let lower = below(&self.symbols[usize::from(root)]);
        let mut arguments = arguments(&left).to_vec();
        random.shuffle(&mut arguments);
        let right = Tree::Application(lower[random.below(lower.len())], arguments);
        (left, right)
    }

    fn greater_argument(&self, random: &mut Random, size: usize) -> Pair {
        let Some(&root) = random.choose(&self.numbers(|symbol| !symbol.ac && symbol.arity > 0)) else {
            return self.equivalent(random, size);
        };
        let mut left = arguments(&self.application(random, root, size, PAIR_VARIABLES)).to_vec();
        let mut right: Vec<Tree> = left.iter().map(|argument| self.variant(random, argument)).collect();
        let index = random.below(left.len());
        (left[index], right[index]) = self.lowering(random, |random| self.tree(random, size, PAIR_VARIABLES));
        random.shuffle(&mut right[index + 1..]);
        if random.one_in(4) {
            right[index..].reverse();
        }
        (Tree::Application(root, left), Tree::Application(root, right))
    }

    /// Two sides of one AC root whose top-flattenings differ in one member, with a root above the AC symbol or below.
    fn greater_member(&self, random: &mut Random, size: usize, above: bool) -> Pair {
        let roots = |rank| self.numbers(|symbol| if above { symbol.rank > rank } else { symbol.rank < rank });
        let Some(&root) = random.choose(&self.numbers(|symbol| symbol.ac && !roots(symbol.rank).is_empty())) else {
            return self.equivalent(random, size);
        };
        let roots = roots(self.symbols[usize::from(root)].rank);
        let (member, lowered) = self.lowering(random, |random| {
            let member = roots[random.below(roots.len())];
            self.application(random, member, size, PAIR_VARIABLES)
        });
        let common = self.members(random, size);
        (self.sum(random, root, &common, vec![member]), self.sum(random, root, &common, vec![lowered]))
    }

    /// Two members on the left against one of their joint weight on the right, all with a root below the AC symbol.
    fn more_members(&self, random: &mut Random, size: usize) -> Pair {
        let Some(&root) = random.choose(&self.numbers(|symbol| symbol.ac)) else {
            return self.equivalent(random, size);
        };
        let ac = self.symbols[usize::from(root)];
        let one_weight = self.w0.saturating_add(ac.weight);
        let joint_weight = one_weight.saturating_add(self.w0);
        let lower = |arity, weight| self.numbers(|s| s.arity == arity && s.weight == weight && s.rank < ac.rank);
        let (constants, unary, heavy) = (lower(0, self.w0), lower(1, one_weight), lower(0, joint_weight));
        let mut constant = || random.choose(&constants).map(|&number| Tree::Application(number, Vec::new()));
        let (Some(first), Some(second)) = (constant(), constant()) else { return self.equivalent(random, size) };
        let one = match (random.choose(&unary), random.choose(&heavy)) {
            (Some(&symbol), _) if random.one_in(2) => Tree::Application(symbol, vec![first.clone()]),
            (_, Some(&symbol)) => Tree::Application(symbol, Vec::new()),
            _ => return self.equivalent(random, size),
        };
        let common = self.members(random, size);
        (self.sum(random, root, &common, vec![first, second]), self.sum(random, root, &common, vec![one]))
    }

    /// A term drawn and the same one lowered; they differ if one of a few draws allows it.
    fn lowering(&self, random: &mut Random, draw: impl Fn(&mut Random) -> Tree) -> Pair {
        let mut pair = self.lowering_once(random, &draw);
        for _ in 0..DRAWS {
            if pair.0 != pair.1 {
                break;
            }
            pair = self.lowering_once(random, &draw);
        }
        pair
    }

    fn lowering_once(&self, random: &mut Random, draw: impl Fn(&mut Random) -> Tree) -> Pair {
        let term = draw(random);
        let lowered = self.lowered(random, &term);
        (term, lowered)
    }

    fn surplus_variable(&self, random: &mut Random, size: usize) -> Pair {
        let left = self.tree(random, size, PAIR_VARIABLES);
        let variable = random.below(PAIR_VARIABLES) as u8;
        let mut words = self.variant(random, &left).words();
        let constants = self.numbers(|symbol| symbol.arity == 0);
        match words.iter_mut().find(|node| constants.iter().any(|&constant| **node == u16::from(constant))) {
            Some(node) => *node = Tree::Variable(variable).words()[0],
            None => return (left, Tree::Variable(PAIR_VARIABLES as u8)),
        }
        (left, Tree::from_words(&self.symbols, &words))
    }

    fn equivalent(&self, random: &mut Random, size: usize) -> Pair {
        let left = self.tree(random, size, PAIR_VARIABLES);
        let right = self.variant(random, &left);
        (left, right)
    }

    fn unrelated(&self, random: &mut Random, size: usize) -> Pair {
        let mark = random.between(2, 6) as u8;
        let (left, right) = swapped(self.pair(random, mark, size));
        if random.one_in(2) {
            return (left, right);
        }
        let [x, y, z] = [0, 1, 2].map(Tree::Variable);
        (left, right.substitute(&[y, z, x]))
    }

    /// A variable under copies of the symbol of arity 1 that weighs 0, and that variable.
    fn wrapped(&self, random: &mut Random, size: usize) -> Pair {
        let Some(&wrapper) = self.numbers(|symbol| symbol.is_wrapper()).first() else {
            return self.equivalent(random, size);
        };
        let variable = Tree::Variable(random.below(PAIR_VARIABLES) as u8);
        let copies = 1 + random.below(size);
        let left = (0..copies).fold(variable.clone(), |inner, _| Tree::Application(wrapper, vec![inner]));
        (left, variable)
    }

    /// Up to four members that both sides of a pair share.
    fn members(&self, random: &mut Random, size: usize) -> Vec<Tree> {
        (0..random.between(1, 4)).map(|_| self.tree(random, size.div_ceil(2), PAIR_VARIABLES)).collect()
    }

    fn sum(&self, random: &mut Random, ac_symbol: u8, common: &[Tree], mut members: Vec<Tree>) -> Tree {
        members.extend(common.iter().map(|member| self.variant(random, member)));
        join(random, ac_symbol, members)
    }
}

fn arguments(tree: &Tree) -> &[Tree] {
    match tree {
        Tree::Variable(_) => &[],
        Tree::Application(_, arguments) => arguments,
    }
}

fn swapped((left, right): Pair) -> Pair {
    (right, left)
}
