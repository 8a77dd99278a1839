//! Valid rule files, as lists of fields that pack to bits or to words.

use super::{Random, Signature};
use crate::format::{renumber, Form};
use crate::table::{is_variable, FIRST_VARIABLE, MAX_NODES, VARIABLES};

/// The most rules of a rule file.
pub const MAX_RULES: usize = 1_023;
/// The bits of the longest rule file.
const MAX_BITS: usize = 32_768 * 8;
/// The bits of a node.
const SYMBOL_BITS: usize = 9;
const VARIABLE_BITS: usize = 5;
/// The bits of the header, and of a symbol's fields.
const HEADER_BITS: usize = 38;
const ENTRY_BITS: usize = 28;
/// The bits of the longest rule.
const MAX_RULE_BITS: usize = 2 * MAX_NODES * SYMBOL_BITS;
/// The most bits of a filling rule; the last one also has the up to seven bits that the one before it left.
const MAX_FILLING_BITS: usize = MAX_RULE_BITS - 7;
/// The rules that bring a rule file to its full length, after long rules and after many rules.
const FILLING_RULES_OF_LONG: usize = 2;
const FILLING_RULES_OF_MANY: usize = 120;

/// The most rules of all variables where a file has some.
const FEW_LONG_RULES: usize = 4;

/// What a field says.
#[derive(Clone, Copy, Debug, PartialEq, Eq)]
pub enum Role {
    Form,
    SymbolCount,
    W0,
    RuleCount,
    Arity,
    Ac,
    Weight,
    Rank,
    /// A node of a side; the first one of a side is a root.
    Root,
    Node,
}

/// A field or a node, with its word.
#[derive(Clone, Copy, Debug, PartialEq, Eq)]
pub struct Field {
    pub role: Role,
    pub word: u16,
}

impl Field {
    /// Whether the field is a node that is a variable.
    pub fn is_variable(&self) -> bool {
        matches!(self.role, Role::Root | Role::Node) && is_variable(self.word)
    }

    /// A tag and the field in a packed file, each a value and a width; the tag of a field other than a node has no
    /// width.
    pub fn packed(self) -> [(u16, usize); 2] {
        let width = match self.role {
            Role::Form => 4,
            Role::SymbolCount | Role::Rank => 8,
            Role::W0 | Role::Weight => 16,
            Role::RuleCount => 10,
            Role::Arity => 3,
            Role::Ac => 1,
            Role::Root | Role::Node if is_variable(self.word) => return [(1, 1), (self.word - FIRST_VARIABLE, 4)],
            Role::Root | Role::Node => return [(0, 1), (self.word, 8)],
        };
        [(0, 0), (self.word, width)]
    }
}

/// The packed bytes of fields, with zero bits up to the last whole byte.
pub fn pack(fields: &[Field]) -> Vec<u8> {
    let mut bytes = Vec::new();
    let mut len = 0;
    for (value, width) in fields.iter().flat_map(|field| field.packed()) {
        for bit in (0..width).rev() {
            if len % 8 == 0 {
                bytes.push(0);
            }
            bytes[len / 8] |= ((value >> bit & 1) as u8) << (7 - len % 8);
            len += 1;
        }
    }
    bytes
}

/// The node words of the sides of a rule.
pub type Rule = (Vec<u16>, Vec<u16>);

/// A rule file: its form, its signature, and its rules.
#[derive(Clone, Debug)]
pub struct Book {
    pub form: Form,
    pub signature: Signature,
    pub rules: Vec<Rule>,
}

impl Book {
    /// A rule file without rules.
    pub fn empty(signature: Signature) -> Self {
        Book { form: Form::Two, signature, rules: Vec::new() }
    }

    /// A rule file of rules with any variables, which are put in turn.
    pub fn of_rules(signature: Signature, rules: impl IntoIterator<Item = Rule>) -> Self {
        let mut book = Book::empty(signature);
        for rule in rules {
            book.push(rule);
        }
        book
    }

    /// The same with a weight of 1 for a symbol of arity 1 that weighs 0, which form 1 lacks.
    pub fn without_wrapper(mut self) -> Self {
        for symbol in self.signature.symbols.iter_mut().filter(|symbol| symbol.is_wrapper()) {
            symbol.weight = 1;
        }
        self
    }

    /// A rule file of form 1 with these rules, the variables of each renamed at random.
    pub fn aged(&self, random: &mut Random) -> Self {
        let rules = self.rules.iter().map(|(left, right)| {
            let names = shuffled_variables(random);
            (renamed(left, &names), renamed(right, &names))
        });
        Book { form: Form::One, signature: self.signature.clone(), rules: rules.collect() }
    }

    /// A rule file of a random signature, with up to `rules` rules aimed at all marks.
    pub fn random(random: &mut Random, rules: usize) -> Self {
        let mut book = Book::empty(Signature::random(random));
        for _ in 0..random.below(rules + 1) {
            let mark = random.between(1, 12) as u8;
            book.push_pair(random, mark, 6);
        }
        book
    }

    /// A rule file of a random signature, with up to `rules` rules of up to `size` nodes a side and of all variables.
    pub fn of_all_variables(random: &mut Random, rules: usize, size: usize) -> Self {
        let mut book = Book::empty(Signature::random(random));
        for _ in 0..random.below(rules + 1) {
            let size = random.between(1, size);
            let side = |random: &mut Random| book.signature.sized_words(random, size);
            let rule = (side(random), side(random));
            book.push(rule);
        }
        book
    }

    /// A rule file of either kind: with up to `rules` rules aimed at all marks, or with few ones of all variables.
    pub fn any(random: &mut Random, rules: usize) -> Self {
        match random.below(4) {
            0 => Book::of_all_variables(random, FEW_LONG_RULES, MAX_NODES / 2),
            _ => Book::random(random, rules),
        }
    }

    /// A rule file of 32,768 bytes, with sides of up to 128 nodes, or with 1,023 rules.
    pub fn largest(random: &mut Random, many_rules: bool) -> Self {
        let all_symbols = random.one_in(2);
        let mut book = Book::empty(Signature::complete(random, all_symbols));
        let filling = if many_rules { FILLING_RULES_OF_MANY } else { FILLING_RULES_OF_LONG };
        let mut room = MAX_BITS - book.bits();
        if many_rules {
            for rules_left in (filling + 1..=MAX_RULES).rev() {
                room -= book.push_sized(random, room / rules_left);
            }
        } else {
            while room > filling * MAX_FILLING_BITS {
                room -= book.push_sized(random, MAX_RULE_BITS);
            }
        }
        for rules_left in (1..=filling).rev() {
            room -= book.push_filling(room / rules_left);
        }
        book
    }

    /// Adds a rule of at most `room` bits, at times aimed at a mark; hands back its bits.
    fn push_sized(&mut self, random: &mut Random, room: usize) -> usize {
        let size = (room / 2 / SYMBOL_BITS).clamp(1, MAX_NODES);
        if random.one_in(2) {
            let mark = random.between(1, 12) as u8;
            let (left, right) = self.signature.pair_in_context(random, mark, 1 + size / 4);
            if left.size().max(right.size()) <= size {
                return self.push((left.words(), right.words()));
            }
        }
        let left = self.signature.sized_words(random, size);
        let right = self.signature.sized_words(random, size);
        self.push((left, right))
    }

    /// Adds a rule of `room` bits or up to seven fewer: symbols of arity 1 before a variable or a constant on each
    /// side.
    fn push_filling(&mut self, room: usize) -> usize {
        let node = |arity| u16::from(self.signature.numbers(|symbol| symbol.arity == arity)[0]);
        let leaves = [[FIRST_VARIABLE, FIRST_VARIABLE], [FIRST_VARIABLE, node(0)], [node(0), node(0)]];
        let rest = |leaves: &[u16; 2]| room - node_bits(leaves[0]) - node_bits(leaves[1]);
        let leaves = leaves.iter().find(|leaves| rest(leaves) % SYMBOL_BITS < 8).expect("one of three remainders fits");
        let unary = rest(leaves) / SYMBOL_BITS;
        let side = |count, leaf| [vec![node(1); count], vec![leaf]].concat();
        self.push((side(unary / 2, leaves[0]), side(unary - unary / 2, leaves[1])))
    }

    /// Adds a rule with its variables in turn; hands back its bits.
    fn push(&mut self, mut rule: Rule) -> usize {
        renumber(rule.0.iter_mut().chain(&mut rule.1));
        let bits = rule_bits(&rule);
        self.rules.push(rule);
        bits
    }

    /// Adds a pair aimed at a mark, of smaller terms if these have too many nodes.
    fn push_pair(&mut self, random: &mut Random, mark: u8, size: usize) {
        let (left, right) = self.signature.pair_in_context(random, mark, size);
        if left.size().max(right.size()) > MAX_NODES {
            return self.push_pair(random, mark, 1 + size / 2);
        }
        self.push((left.words(), right.words()));
    }

    /// The count of bits before the padding.
    pub fn bits(&self) -> usize {
        HEADER_BITS + ENTRY_BITS * self.signature.symbols.len() + self.rules.iter().map(rule_bits).sum::<usize>()
    }

    /// Every field in order.
    pub fn fields(&self) -> Vec<Field> {
        let mut fields = Vec::new();
        let mut add = |role, word| fields.push(Field { role, word });
        add(Role::Form, self.form as u16);
        add(Role::SymbolCount, self.signature.symbols.len() as u16);
        add(Role::W0, self.signature.w0);
        add(Role::RuleCount, self.rules.len() as u16);
        for symbol in &self.signature.symbols {
            add(Role::Arity, symbol.arity.into());
            add(Role::Ac, symbol.ac.into());
            add(Role::Weight, symbol.weight);
            add(Role::Rank, symbol.rank.into());
        }
        for side in self.rules.iter().flat_map(|(left, right)| [left, right]) {
            for (index, &node) in side.iter().enumerate() {
                add(if index == 0 { Role::Root } else { Role::Node }, node);
            }
        }
        fields
    }

    /// The packed rule file.
    pub fn packed(&self) -> Vec<u8> {
        pack(&self.fields())
    }

    /// The rule file in words.
    pub fn words(&self) -> Vec<u16> {
        self.fields().iter().map(|field| field.word).collect()
    }
}

/// The node words of all variables in a random order.
fn shuffled_variables(random: &mut Random) -> Vec<u16> {
    let mut variables: Vec<u16> = (FIRST_VARIABLE..).take(VARIABLES).collect();
    random.shuffle(&mut variables);
    variables
}

/// The nodes of a side with other names of its variables.
fn renamed(side: &[u16], names: &[u16]) -> Vec<u16> {
    side.iter().map(|&node| if is_variable(node) { names[usize::from(node - FIRST_VARIABLE)] } else { node }).collect()
}

/// The count of bits of a rule.
fn rule_bits((left, right): &Rule) -> usize {
    left.iter().chain(right).map(|&node| node_bits(node)).sum()
}

/// The count of bits of a node.
fn node_bits(node: u16) -> usize {
    if is_variable(node) {
        VARIABLE_BITS
    } else {
        SYMBOL_BITS
    }
}
