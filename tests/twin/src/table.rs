//! The symbol table of a rule file, and the node words over it.

/// The first node word of a variable; lower words are symbol numbers.
pub const FIRST_VARIABLE: u16 = 256;
/// The count of variables, numbered from 0.
pub const VARIABLES: usize = 16;
/// The most nodes of a side or a term.
pub const MAX_NODES: usize = 128;
/// A power of two above every node word.
const NODE_WORDS: usize = 512;
/// What stands in a table for a symbol that it lacks; its arity is none that a symbol has.
const UNKNOWN: Symbol = Symbol { arity: u8::MAX, ac: false, weight: 0, rank: 0 };

/// A function symbol; a higher rank is greater in the precedence.
#[derive(Clone, Copy, Debug, PartialEq, Eq)]
pub struct Symbol {
    pub arity: u8,
    pub ac: bool,
    pub weight: u16,
    pub rank: u8,
}

impl Symbol {
    /// Whether it has arity 1 and weighs 0. 02: a wrapper.
    pub fn is_wrapper(self) -> bool {
        self.arity == 1 && self.weight == 0
    }
}

/// The symbols of a rule file by number, and the weight of a variable.
#[derive(Clone, Debug)]
pub struct Table {
    pub w0: u16,
    count: usize,
    /// What each node word stands for; a variable is kept as a constant of weight w0.
    nodes: [Symbol; NODE_WORDS],
}

impl Table {
    /// A table of no symbol.
    pub fn new(w0: u16) -> Self {
        let mut nodes = [UNKNOWN; NODE_WORDS];
        nodes[FIRST_VARIABLE.into()..].fill(Symbol { arity: 0, ac: false, weight: w0, rank: 0 });
        Table { w0, count: 0, nodes }
    }

    /// Adds the symbol of the next number.
    pub fn push(&mut self, symbol: Symbol) {
        self.nodes[self.count] = symbol;
        self.count += 1;
    }

    /// The symbols in the order of their numbers.
    pub fn symbols(&self) -> &[Symbol] {
        &self.nodes[..self.count]
    }

    /// The symbol of a node that is not a variable.
    pub fn symbol(&self, node: u16) -> Symbol {
        debug_assert!(!is_variable(node));
        self.entry(node)
    }

    /// The count of arguments that a node calls for.
    pub fn arity(&self, node: u16) -> usize {
        self.entry(node).arity.into()
    }

    /// The count of arguments that a node calls for, unless the table lacks its symbol.
    pub fn known_arity(&self, node: u16) -> Option<usize> {
        let arity = self.entry(node).arity;
        (arity != UNKNOWN.arity).then_some(arity.into())
    }

    /// Whether a node is an AC symbol.
    pub fn is_ac(&self, node: u16) -> bool {
        self.entry(node).ac
    }

    /// What a node adds to the weight of its term.
    pub fn weight(&self, node: u16) -> u64 {
        self.entry(node).weight.into()
    }

    fn entry(&self, node: u16) -> Symbol {
        self.nodes[usize::from(node) % NODE_WORDS]
    }
}

/// Whether a node word is a variable.
pub fn is_variable(node: u16) -> bool {
    node >= FIRST_VARIABLE
}
