//! The rule file format: what a file holds, and how it is written as words or as packed bits.

use crate::bits::BitWriter;
use crate::error::Error;
use crate::reading::{read_packed, read_words};
use crate::source::{packed_node, width};
use crate::table::{is_variable, Table, FIRST_VARIABLE, VARIABLES};

/// The most bytes of a rule file.
pub const MAX_BYTES: usize = 32_768;

/// The forms of a rule file, by their numbers; their layout is the same.
#[derive(Clone, Copy, Debug, PartialEq, Eq)]
pub enum Form {
    /// 01's form: variables have any numbers.
    One = 1,
    /// 02, order 4: a variable's first appearance in a rule takes the lowest unused number.
    Two = 2,
}

/// A rewrite system: a symbol table, and the node words of all sides in a row.
pub struct System {
    pub table: Table,
    pub nodes: Vec<u16>,
    /// The end of each side in `nodes`, left and right sides in turn.
    ends: Vec<usize>,
}

impl System {
    /// A system before its first rule, of so many.
    pub fn new(table: Table, rules: usize) -> Self {
        System { table, nodes: Vec::new(), ends: Vec::with_capacity(2 * rules) }
    }

    /// Adds a side, left and right ones in turn.
    pub fn push_side(&mut self, side: &[u16]) {
        self.nodes.extend_from_slice(side);
        self.ends.push(self.nodes.len());
    }

    /// The system of a packed rule file, the first input of its operation.
    pub fn from_packed(packed: &[u8]) -> Result<Self, Error> {
        read_packed(packed, Form::Two)
    }

    /// The system of a packed rule file of form 1, as 01 reads it.
    pub fn from_old(packed: &[u8]) -> Result<Self, Error> {
        read_packed(packed, Form::One)
    }

    /// The system of a rule file in words, the first input of its operation.
    pub fn from_words(words: &[u16]) -> Result<Self, Error> {
        read_words(words, Form::Two)
    }

    /// The count of rules.
    pub fn rule_count(&self) -> usize {
        self.ends.len() / 2
    }

    /// The left and right side of each rule.
    pub fn rules(&self) -> impl Iterator<Item = (&[u16], &[u16])> {
        let mut start = 0;
        self.ends.chunks_exact(2).map(move |ends| {
            let rule = (&self.nodes[start..ends[0]], &self.nodes[ends[0]..ends[1]]);
            start = ends[1];
            rule
        })
    }

    /// Gives each variable of each rule the number of its first appearance there.
    pub fn renumber(&mut self) {
        let mut start = 0;
        for ends in self.ends.chunks_exact(2) {
            renumber(self.nodes[start..ends[1]].iter_mut());
            start = ends[1];
        }
    }

    /// Every field before the rules, with its width.
    pub fn fields(&self) -> impl Iterator<Item = (u16, u32)> + '_ {
        let header = [
            (Form::Two as u16, width::FORM),
            (self.table.symbols().len() as u16, width::SYMBOL_COUNT),
            (self.table.w0, width::W0),
            (self.rule_count() as u16, width::RULE_COUNT),
        ];
        header.into_iter().chain(self.table.symbols().iter().flat_map(|symbol| {
            [
                (u16::from(symbol.arity), width::ARITY),
                (u16::from(symbol.ac), width::AC),
                (symbol.weight, width::WEIGHT),
                (u16::from(symbol.rank), width::RANK),
            ]
        }))
    }

    /// The count of bytes of the packed rule file.
    pub fn packed_len(&self) -> usize {
        let fields = width::HEADER as usize + self.table.symbols().len() * width::SYMBOL_ENTRY as usize;
        let nodes: usize = self.nodes.iter().map(|&node| packed_node(node).1 as usize).sum();
        (fields + nodes).div_ceil(8)
    }

    /// Writes the packed rule file into its bytes; hands back their count.
    pub fn pack(&self, bytes: &mut [u8]) -> usize {
        let mut writer = BitWriter::new(bytes);
        let nodes = self.nodes.iter().map(|&node| packed_node(node));
        self.fields().chain(nodes).for_each(|(value, width)| writer.put(value, width));
        writer.finish()
    }
}

/// Gives each variable among the nodes of a rule, left side first, the number of its first appearance.
pub fn renumber<'a>(nodes: impl Iterator<Item = &'a mut u16>) {
    let mut numbers = [None; VARIABLES];
    let mut unused = FIRST_VARIABLE..;
    for node in nodes.filter(|node| is_variable(**node)) {
        let number = &mut numbers[usize::from(*node - FIRST_VARIABLE)];
        *node = *number.get_or_insert_with(|| unused.next().expect("there are more words than variables"));
    }
}
