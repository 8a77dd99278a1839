//! Terms as trees, for making new ones out of old ones.

use crate::table::{is_variable, Symbol, FIRST_VARIABLE};

/// A term.
#[derive(Clone, Debug, PartialEq, Eq, PartialOrd, Ord)]
pub enum Tree {
    Variable(u8),
    Application(u8, Vec<Tree>),
}

impl Tree {
    /// The node words in prefix order.
    pub fn words(&self) -> Vec<u16> {
        let mut words = Vec::new();
        self.append_words(&mut words);
        words
    }

    fn append_words(&self, words: &mut Vec<u16>) {
        match self {
            Tree::Variable(number) => words.push(FIRST_VARIABLE + u16::from(*number)),
            Tree::Application(symbol, arguments) => {
                words.push(u16::from(*symbol));
                arguments.iter().for_each(|argument| argument.append_words(words));
            }
        }
    }

    /// The term of node words in prefix order, which are one term over the symbols.
    pub fn from_words(symbols: &[Symbol], words: &[u16]) -> Self {
        Self::take(symbols, &mut words.iter().copied())
    }

    fn take(symbols: &[Symbol], words: &mut impl Iterator<Item = u16>) -> Self {
        let node = words.next().expect("a term has all its nodes");
        if is_variable(node) {
            return Tree::Variable((node - FIRST_VARIABLE) as u8);
        }
        let arity = symbols[usize::from(node)].arity;
        Tree::Application(node as u8, (0..arity).map(|_| Self::take(symbols, words)).collect())
    }

    /// The count of nodes.
    pub fn size(&self) -> usize {
        match self {
            Tree::Variable(_) => 1,
            Tree::Application(_, arguments) => 1 + arguments.iter().map(Tree::size).sum::<usize>(),
        }
    }

    /// The term with each variable replaced by the term of its number.
    pub fn substitute(&self, terms: &[Tree]) -> Tree {
        match self {
            Tree::Variable(number) => terms[usize::from(*number)].clone(),
            Tree::Application(symbol, arguments) => {
                Tree::Application(*symbol, arguments.iter().map(|argument| argument.substitute(terms)).collect())
            }
        }
    }

    /// The top-flattening for an AC symbol.
    pub fn flattening(&self, ac_symbol: u8) -> Vec<&Tree> {
        match self {
            Tree::Application(symbol, arguments) if *symbol == ac_symbol => {
                arguments.iter().flat_map(|argument| argument.flattening(ac_symbol)).collect()
            }
            _ => vec![self],
        }
    }
}
