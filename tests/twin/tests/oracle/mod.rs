//! 01's order on trees, taken word by word and with no regard to time.

use twin::generate::{Signature, Tree};
use twin::table::Symbol;

/// A term up to AC-equivalence: the arguments of an AC symbol are its top-flattening, sorted.
pub fn canonical(signature: &Signature, tree: &Tree) -> Tree {
    match tree {
        Tree::Application(symbol, _) if signature.symbols[usize::from(*symbol)].ac => {
            let members = tree.flattening(*symbol);
            let mut members: Vec<Tree> = members.into_iter().map(|member| canonical(signature, member)).collect();
            members.sort();
            Tree::Application(*symbol, members)
        }
        Tree::Application(symbol, arguments) => {
            Tree::Application(*symbol, arguments.iter().map(|argument| canonical(signature, argument)).collect())
        }
        Tree::Variable(_) => tree.clone(),
    }
}

/// The weight of a term.
pub fn weight(signature: &Signature, tree: &Tree) -> i64 {
    match tree {
        Tree::Variable(_) => signature.w0.into(),
        Tree::Application(symbol, arguments) => {
            let own = i64::from(signature.symbols[usize::from(*symbol)].weight);
            own + arguments.iter().map(|argument| weight(signature, argument)).sum::<i64>()
        }
    }
}

/// The fingerprint of a term.
pub fn fingerprint(signature: &Signature, tree: &Tree) -> u32 {
    let value = match tree {
        Tree::Variable(number) => 256 + u64::from(*number) + 1,
        Tree::Application(symbol, _) if signature.symbols[usize::from(*symbol)].ac => {
            let members = tree.flattening(*symbol);
            let sum: u64 = members.iter().map(|member| u64::from(fingerprint(signature, member))).sum();
            65_599 * (u64::from(*symbol) + 1) + sum
        }
        Tree::Application(symbol, arguments) => arguments.iter().fold(u64::from(*symbol) + 1, |value, argument| {
            (31 * value + u64::from(fingerprint(signature, argument))) % (1 << 32)
        }),
    };
    (value % (1 << 32)) as u32
}

/// The mark of a rule.
pub fn mark(signature: &Signature, s: &Tree, t: &Tree) -> u8 {
    if let Some(mark) = greater(signature, s, t) {
        return mark;
    }
    if !covers(s, t) {
        return 7;
    }
    if weight(signature, s) < weight(signature, t) {
        return 8;
    }
    if equal(signature, s, t) {
        return 9;
    }
    10
}

fn equal(signature: &Signature, s: &Tree, t: &Tree) -> bool {
    canonical(signature, s) == canonical(signature, t)
}

fn occurrences(tree: &Tree, variable: u8) -> usize {
    match tree {
        Tree::Variable(number) => usize::from(*number == variable),
        Tree::Application(_, arguments) => arguments.iter().map(|argument| occurrences(argument, variable)).sum(),
    }
}

fn covers(s: &Tree, t: &Tree) -> bool {
    (0..16).all(|variable| occurrences(s, variable) >= occurrences(t, variable))
}

/// The lowest variable that occurs oftener in t than in s, or 16.
pub fn oftener(s: &Tree, t: &Tree) -> usize {
    let first = (0..16).find(|&variable| occurrences(t, variable) > occurrences(s, variable));
    first.map_or(16, usize::from)
}

/// Whether a term is a variable under one or more copies of the symbol of arity 1 that weighs 0, `copies` of them seen.
fn wraps(signature: &Signature, s: &Tree, variable: u8, copies: usize) -> bool {
    match s {
        Tree::Variable(number) => *number == variable && copies > 0,
        Tree::Application(f, arguments) => {
            let f = signature.symbols[usize::from(*f)];
            f.arity == 1 && f.weight == 0 && wraps(signature, &arguments[0], variable, copies + 1)
        }
    }
}

/// The mark, 1 to 6 or 11, by which s is greater than t.
fn greater(signature: &Signature, s: &Tree, t: &Tree) -> Option<u8> {
    let (s_weight, t_weight) = (weight(signature, s), weight(signature, t));
    if !covers(s, t) || s_weight < t_weight {
        return None;
    }
    if s_weight > t_weight {
        return Some(1);
    }
    if let Tree::Variable(variable) = t {
        return wraps(signature, s, *variable, 0).then_some(11);
    }
    let (Tree::Application(f, ss), Tree::Application(g, ts)) = (s, t) else { return None };
    let [f_symbol, g_symbol] = [f, g].map(|symbol| signature.symbols[usize::from(*symbol)]);
    if f != g {
        return (f_symbol.rank > g_symbol.rank).then_some(2);
    }
    if f_symbol.ac {
        return ac_greater(signature, f_symbol, &s.flattening(*f), &t.flattening(*f));
    }
    let place = (0..ss.len()).find(|&place| !equal(signature, &ss[place], &ts[place]))?;
    greater(signature, &ss[place], &ts[place]).map(|_| 3)
}

fn ac_greater(signature: &Signature, f: Symbol, s_bag: &[&Tree], t_bag: &[&Tree]) -> Option<u8> {
    let rank = |tree: &Tree| match tree {
        Tree::Variable(_) => None,
        Tree::Application(symbol, _) => Some(signature.symbols[usize::from(*symbol)].rank),
    };
    fn part<'a>(bag: &[&'a Tree], test: impl Fn(&Tree) -> bool) -> Vec<&'a Tree> {
        bag.iter().copied().filter(|tree| test(tree)).collect()
    }
    let high = |bag| part(bag, |tree| rank(tree).is_some_and(|rank| rank > f.rank));
    let low = |bag| part(bag, |tree| rank(tree).is_some_and(|rank| rank < f.rank));
    let variables = |bag| part(bag, |tree| rank(tree).is_none());
    let (_, surplus) = strike_out(signature, &variables(s_bag), &variables(t_bag));
    let (s_high, t_high) = strike_out(signature, &high(s_bag), &[high(t_bag), surplus].concat());
    if above(signature, &s_high, &t_high) {
        return Some(4);
    }
    if !s_high.is_empty() || !t_high.is_empty() || s_bag.len() < t_bag.len() {
        return None;
    }
    if s_bag.len() > t_bag.len() {
        return Some(5);
    }
    let (s_low, t_low) = strike_out(signature, &low(s_bag), &low(t_bag));
    above(signature, &s_low, &t_low).then_some(6)
}

/// What is left of two bags after AC-equal pairs are struck out, one for one.
fn strike_out<'a>(signature: &Signature, s_bag: &[&'a Tree], t_bag: &[&'a Tree]) -> (Vec<&'a Tree>, Vec<&'a Tree>) {
    let mut t_left = t_bag.to_vec();
    let mut s_left = Vec::new();
    for s in s_bag {
        match t_left.iter().position(|t| equal(signature, s, t)) {
            Some(place) => drop(t_left.remove(place)),
            None => s_left.push(*s),
        }
    }
    (s_left, t_left)
}

/// Whether what is left of one bag is above what is left of another.
fn above(signature: &Signature, s_left: &[&Tree], t_left: &[&Tree]) -> bool {
    !s_left.is_empty() && t_left.iter().all(|t| s_left.iter().any(|s| greater(signature, s, t).is_some()))
}
