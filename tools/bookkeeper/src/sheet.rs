//! An opened book: its sheet, as the library writes it, cut into symbols and rules.

use std::ops::Range;

/// The first word of a variable.
pub const FIRST_VARIABLE: u16 = 256;
/// The most words of a sheet, rounded up: 255 symbols, and nodes of 5 bits up to 32,768 bytes, are fewer.
const MAX_WORDS: usize = 65_536;
/// The most bytes of a book.
const MAX_BYTES: usize = 32_768;
/// The words of the header, and of a symbol.
pub const HEADER: usize = 4;
pub const ENTRY: usize = 4;
/// The form that the operations read.
pub const FORM: u16 = 2;

/// A symbol's fields.
#[derive(Clone, Copy, Debug, PartialEq, Eq)]
pub struct Symbol {
    pub arity: u16,
    pub ac: bool,
    pub weight: u16,
    pub rank: u16,
}

/// A sheet that the library wrote.
#[derive(Clone, Debug)]
pub struct Sheet {
    words: Vec<u16>,
    /// The words of each side, left and right sides in turn.
    sides: Vec<Range<usize>>,
}

/// The words of the sides of a rule.
pub type Rule<'a> = (&'a [u16], &'a [u16]);

/// The bytes of a sheet, if the library takes it.
pub fn encode(words: &[u16]) -> Result<Vec<u8>, ackbo::Error> {
    let mut book = vec![0; MAX_BYTES];
    let count = ackbo::encode(words, &mut book)?;
    book.truncate(count);
    Ok(book)
}

/// The number of a variable, if a node is one.
pub fn variable(node: u16) -> Option<usize> {
    node.checked_sub(FIRST_VARIABLE).map(usize::from)
}

/// Two terms with their variables numbered by first use, as those of a rule are.
pub fn renumbered(left: &[u16], right: &[u16]) -> (Vec<u16>, Vec<u16>) {
    let mut met = Vec::new();
    let mut number = |&node: &u16| {
        if variable(node).is_none() {
            return node;
        }
        let place = met.iter().position(|&other| other == node).unwrap_or(met.len());
        if place == met.len() {
            met.push(node);
        }
        FIRST_VARIABLE + place as u16
    };
    (left.iter().map(&mut number).collect(), right.iter().map(&mut number).collect())
}

impl Sheet {
    /// Opens a book.
    pub fn open(book: &[u8]) -> Result<Self, ackbo::Error> {
        let mut words = vec![0; MAX_WORDS];
        let count = ackbo::decode(book, &mut words)?;
        words.truncate(count);
        let mut sheet = Sheet { words, sides: Vec::new() };
        sheet.cut();
        Ok(sheet)
    }

    /// Finds the sides of the rules.
    fn cut(&mut self) {
        let mut start = HEADER + ENTRY * usize::from(self.words[1]);
        for _ in 0..2 * self.words[3] {
            let end = self.side_end(start);
            self.sides.push(start..end);
            start = end;
        }
    }

    /// The end of the side that begins at a word.
    fn side_end(&self, start: usize) -> usize {
        let mut end = start;
        let mut called_for = 1;
        while called_for > 0 {
            called_for -= 1;
            if self.words[end] < FIRST_VARIABLE {
                called_for += self.words[HEADER + ENTRY * usize::from(self.words[end])];
            }
            end += 1;
        }
        end
    }

    pub fn w0(&self) -> u16 {
        self.words[2]
    }

    pub fn symbols(&self) -> impl ExactSizeIterator<Item = Symbol> + '_ {
        let entries = &self.words[HEADER..HEADER + ENTRY * usize::from(self.words[1])];
        entries.chunks_exact(ENTRY).map(|entry| Symbol {
            arity: entry[0],
            ac: entry[1] != 0,
            weight: entry[2],
            rank: entry[3],
        })
    }

    pub fn symbol(&self, number: usize) -> Symbol {
        self.symbols().nth(number).expect("a node of an opened book is one of its symbols")
    }

    pub fn rules(&self) -> impl ExactSizeIterator<Item = Rule<'_>> {
        self.sides.chunks_exact(2).map(|sides| (&self.words[sides[0].clone()], &self.words[sides[1].clone()]))
    }

    /// The words before the rules, and the words of the rules.
    pub fn parts(&self) -> (&[u16], &[u16]) {
        self.words.split_at(HEADER + ENTRY * usize::from(self.words[1]))
    }

    /// The most variables that a rule has; they are numbered from 0.
    pub fn most_variables(&self) -> usize {
        let (_, nodes) = self.parts();
        nodes.iter().filter_map(|&node| variable(node)).max().map_or(0, |last| last + 1)
    }
}
