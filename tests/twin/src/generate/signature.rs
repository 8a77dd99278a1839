//! Random signatures, and random terms over them.

use super::{Random, Tree};
use crate::table::{Symbol, FIRST_VARIABLE, VARIABLES};

/// The most symbols of a rule file.
const MAX_SYMBOLS: usize = 255;
/// The greatest arity.
const MAX_ARITY: usize = 7;

/// The symbols of a rule file and the weight of a variable.
#[derive(Clone, Debug)]
pub struct Signature {
    pub w0: u16,
    pub symbols: Vec<Symbol>,
}

impl Signature {
    /// An admissible signature. Most have symbols for every case of the order and many of equal weight, a third of them
    /// a symbol of arity 1 that weighs 0; some are of any shape, without constants too, or have 255 symbols.
    pub fn random(random: &mut Random) -> Self {
        let kind = random.below(16);
        let w0 = if kind == 0 { random.between(1, u16::MAX.into()) } else { random.between(1, 3) } as u16;
        let mut symbols = match kind {
            1 | 2 => (0..random.between(1, 4)).map(|_| any_symbol(random, w0)).collect(),
            _ => varied_symbols(random, w0),
        };
        if random.one_in(24) {
            symbols.resize_with(MAX_SYMBOLS, || any_symbol(random, w0));
        }
        random.shuffle(&mut symbols);
        let mut ranks: Vec<u8> = (0..=u8::MAX).collect();
        if random.one_in(2) {
            ranks.truncate(symbols.len());
        }
        random.shuffle(&mut ranks);
        for (symbol, rank) in symbols.iter_mut().zip(ranks) {
            symbol.rank = rank;
        }
        if random.one_in(3) {
            make_wrapper(random, &mut symbols);
        }
        Signature { w0, symbols }
    }

    /// A signature with a constant and a symbol of arity 1, of 255 symbols if asked for.
    pub fn complete(random: &mut Random, largest: bool) -> Self {
        let full = |signature: &Signature| signature.symbols.len() == MAX_SYMBOLS || !largest;
        let has = |signature: &Signature, arity| !signature.numbers(|symbol| symbol.arity == arity).is_empty();
        loop {
            let signature = Signature::random(random);
            if full(&signature) && has(&signature, 0) && has(&signature, 1) {
                return signature;
            }
        }
    }

    /// The numbers of the symbols that satisfy a test.
    pub fn numbers(&self, test: impl Fn(&Symbol) -> bool) -> Vec<u8> {
        let numbered = self.symbols.iter().enumerate();
        numbered.filter(|(_, symbol)| test(symbol)).map(|(number, _)| number as u8).collect()
    }

    /// A term of at most `size` nodes, with the variables below `variables`; variable 0 stands in for a missing
    /// constant.
    pub fn tree(&self, random: &mut Random, size: usize, variables: usize) -> Tree {
        if size > 1 && !random.one_in(6) {
            let fitting = self.numbers(|symbol| (1..size).contains(&usize::from(symbol.arity)));
            if let Some(&symbol) = random.choose(&fitting) {
                return self.application(random, symbol, size, variables);
            }
        }
        if variables > 0 && random.one_in(2) {
            return Tree::Variable(random.below(variables) as u8);
        }
        match random.choose(&self.numbers(|symbol| symbol.arity == 0)) {
            Some(&constant) => Tree::Application(constant, Vec::new()),
            None => Tree::Variable(0),
        }
    }

    /// A term of a given root and at most `size` nodes, or of one more than the arity.
    pub fn application(&self, random: &mut Random, symbol: u8, size: usize, variables: usize) -> Tree {
        let arity = usize::from(self.symbols[usize::from(symbol)].arity);
        let mut left = size.saturating_sub(1 + arity);
        let arguments = (0..arity).map(|_| {
            let share = 1 + random.below(left + 1);
            let argument = self.tree(random, share, variables);
            left = left.saturating_sub(argument.size() - 1);
            argument
        });
        Tree::Application(symbol, arguments.collect())
    }

    /// The words of a term of `size` nodes exactly, if the arities allow it, else of a few less.
    pub fn sized_words(&self, random: &mut Random, size: usize) -> Vec<u16> {
        let inner = self.numbers(|symbol| symbol.arity > 0);
        let arity = |symbol: &u8| usize::from(self.symbols[usize::from(*symbol)].arity);
        let narrowest = inner.iter().min_by_key(|symbol| arity(symbol));
        let mut words = Vec::new();
        let mut called_for = 1;
        while called_for > 0 {
            let room = size.saturating_sub(words.len() + called_for);
            let drawn = random.choose(&inner).filter(|symbol| arity(symbol) <= room);
            let fitting = drawn.or(narrowest.filter(|symbol| arity(symbol) <= room));
            called_for -= 1;
            match fitting {
                Some(symbol) if called_for < 3 || random.one_in(2) => {
                    words.push(u16::from(*symbol));
                    called_for += arity(symbol);
                }
                _ => words.extend(self.tree(random, 1, VARIABLES).words()),
            }
        }
        words
    }

    /// An AC-equivalent term: the arguments of AC symbols regrouped and exchanged.
    pub fn variant(&self, random: &mut Random, tree: &Tree) -> Tree {
        match tree {
            Tree::Application(symbol, arguments) if self.symbols[usize::from(*symbol)].ac => {
                let arguments = arguments.iter().flat_map(|argument| argument.flattening(*symbol));
                let members = arguments.map(|member| self.variant(random, member)).collect();
                join(random, *symbol, members)
            }
            Tree::Application(symbol, arguments) => {
                let arguments = arguments.iter().map(|argument| self.variant(random, argument));
                Tree::Application(*symbol, arguments.collect())
            }
            Tree::Variable(_) => tree.clone(),
        }
    }

    /// The term with one symbol replaced by another of the same arity and weight and of lower rank, if there is one.
    pub fn lowered(&self, random: &mut Random, tree: &Tree) -> Tree {
        let mut words = tree.words();
        let mut changes = Vec::new();
        for (position, &node) in words.iter().enumerate().filter(|(_, node)| **node < FIRST_VARIABLE) {
            let old = self.symbols[usize::from(node)];
            let lower = |new: &Symbol| new.arity == old.arity && new.weight == old.weight && new.rank < old.rank;
            changes.extend(self.numbers(lower).into_iter().map(|number| (position, number)));
        }
        if let Some(&(position, number)) = random.choose(&changes) {
            words[position] = number.into();
        }
        Tree::from_words(&self.symbols, &words)
    }
}

/// Makes one of the symbols of arity 1, if there is one, weigh 0 and rank highest.
fn make_wrapper(random: &mut Random, symbols: &mut [Symbol]) {
    let unary: Vec<usize> = (0..symbols.len()).filter(|&number| symbols[number].arity == 1).collect();
    let highest = (0..symbols.len()).max_by_key(|&number| symbols[number].rank);
    if let (Some(&wrapper), Some(highest)) = (random.choose(&unary), highest) {
        let rank = symbols[wrapper].rank;
        symbols[wrapper].weight = 0;
        symbols[wrapper].rank = symbols[highest].rank;
        if wrapper != highest {
            symbols[highest].rank = rank;
        }
    }
}

/// Joins members by an AC symbol, in a random order and grouping.
pub fn join(random: &mut Random, ac_symbol: u8, mut members: Vec<Tree>) -> Tree {
    while members.len() > 1 {
        let first = members.swap_remove(random.below(members.len()));
        let second = members.swap_remove(random.below(members.len()));
        members.push(Tree::Application(ac_symbol, vec![first, second]));
    }
    members.pop().expect("there is a member to join")
}

/// A symbol of any arity, AC mark and admissible weight.
fn any_symbol(random: &mut Random, w0: u16) -> Symbol {
    let arity = random.below(MAX_ARITY + 1) as u8;
    let least = [w0, 1, 0][usize::from(arity.min(2))];
    let weight = if random.one_in(4) { random.between(least.into(), u16::MAX.into()) as u16 } else { least };
    Symbol { arity, ac: arity == 2 && random.one_in(2), weight, rank: 0 }
}

/// Symbols for every case of the order, few weights among them.
fn varied_symbols(random: &mut Random, w0: u16) -> Vec<Symbol> {
    let mut symbols = Vec::new();
    let mut add = |arity, ac, weight| symbols.push(Symbol { arity, ac, weight, rank: 0 });
    let ac_weight = random.below(3) as u16;
    for _ in 0..random.between(2, 5) {
        add(0, false, w0);
    }
    for _ in 0..random.between(0, 2) {
        add(0, false, w0.saturating_add(random.below(3) as u16));
    }
    add(0, false, w0.saturating_mul(2).saturating_add(ac_weight));
    for _ in 0..random.between(1, 3) {
        add(1, false, random.between(1, 2) as u16);
    }
    add(1, false, w0.saturating_add(ac_weight));
    for _ in 0..random.between(1, 3) {
        add(2, true, if random.one_in(4) { random.below(3) as u16 } else { ac_weight });
    }
    for _ in 0..random.between(1, 3) {
        add(random.between(2, 3) as u8, false, random.below(2) as u16);
    }
    if random.one_in(4) {
        add(random.between(4, MAX_ARITY) as u8, false, random.below(2) as u16);
    }
    symbols
}
