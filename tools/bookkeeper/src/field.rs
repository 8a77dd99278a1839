//! Which field of a book, or of a sheet, stands at a place.

use crate::sheet::FIRST_VARIABLE;

/// A field's name; symbols, rules and nodes are numbered from 0.
#[derive(Clone, Copy, Debug, PartialEq, Eq)]
pub enum Field {
    Header(&'static str),
    Entry { symbol: usize, part: &'static str },
    Node { rule: usize, side: &'static str, node: usize },
    Rest,
}

/// The names of the header's fields, and of a symbol's.
pub const SYMBOL_COUNT: &str = "count of symbols";
pub const W0: &str = "w0";
pub const RULE_COUNT: &str = "count of rules";
pub const ARITY: &str = "arity";
pub const WEIGHT: &str = "weight";
pub const RANK: &str = "rank";

/// The fields of the header and of a symbol, with their widths in bits.
const HEADER: [(&str, usize); 4] = [("form", 4), (SYMBOL_COUNT, 8), (W0, 16), (RULE_COUNT, 10)];
const ENTRY: [(&str, usize); 4] = [(ARITY, 3), ("AC mark", 1), (WEIGHT, 16), (RANK, 8)];

/// A book's bytes or a sheet's words.
#[derive(Clone, Copy)]
pub enum Source<'a> {
    Bits(&'a [u8]),
    Words(&'a [u16]),
}

/// The field at a place, its value if it has one, and, of a rank, the earlier symbol that holds it.
#[derive(Clone, Copy, Debug, PartialEq, Eq)]
pub struct Found {
    pub field: Field,
    pub value: Option<u16>,
    pub holder: Option<usize>,
}

/// The field at a place: the last one that begins there or before.
pub fn find(source: Source, target: usize) -> Found {
    let mut walk = Walk { source, position: 0, target, last: None };
    let reached_end = walk.book().is_some();
    let last = walk.last.filter(|_| !(reached_end && walk.position <= target));
    last.unwrap_or(Found { field: Field::Rest, value: None, holder: None })
}

/// A walk over fields, which ends with `None` past the target or where a field does not fit.
struct Walk<'a> {
    source: Source<'a>,
    position: usize,
    target: usize,
    last: Option<Found>,
}

impl Walk<'_> {
    fn book(&mut self) -> Option<()> {
        let mut header = [0; 4];
        for (word, (name, width)) in header.iter_mut().zip(HEADER) {
            *word = self.visit(Field::Header(name), width)?;
        }
        let [_, symbols, _, rules] = header;
        let (mut arities, mut ranks) = (Vec::new(), Vec::new());
        for symbol in 0..usize::from(symbols) {
            let [arity, _, _, rank] = self.entry(symbol, &ranks)?;
            arities.push(arity);
            ranks.push(rank);
        }
        for rule in 0..usize::from(rules) {
            self.side(rule, "left", &arities)?;
            self.side(rule, "right", &arities)?;
        }
        Some(())
    }

    fn entry(&mut self, symbol: usize, ranks: &[u16]) -> Option<[u16; 4]> {
        let mut entry = [0; 4];
        for (word, (part, width)) in entry.iter_mut().zip(ENTRY) {
            let read = self.visit(Field::Entry { symbol, part }, width);
            if let (RANK, Some(found)) = (part, &mut self.last) {
                found.holder = ranks.iter().position(|&rank| Some(rank) == found.value);
            }
            *word = read?;
        }
        Some(entry)
    }

    fn side(&mut self, rule: usize, side: &'static str, arities: &[u16]) -> Option<()> {
        let (mut called_for, mut node) = (1, 0);
        while called_for > 0 {
            let word = self.visit(Field::Node { rule, side, node }, 0)?;
            called_for -= 1;
            if word < FIRST_VARIABLE {
                called_for += usize::from(*arities.get(usize::from(word))?);
            }
            node += 1;
        }
        Some(())
    }

    /// Reads a field, of width 0 a node, and notes it; `None` where it does not fit or begins past the target.
    fn visit(&mut self, field: Field, width: usize) -> Option<u16> {
        if self.position > self.target {
            return None;
        }
        let value = match self.source {
            Source::Words(words) => words.get(self.position).copied(),
            Source::Bits(_) if width > 0 => self.bits(self.position, width),
            Source::Bits(_) => self.node(),
        };
        self.last = Some(Found { field, value, holder: None });
        self.position += match self.source {
            Source::Words(_) => 1,
            Source::Bits(_) if width > 0 => width,
            Source::Bits(_) => {
                if value? < FIRST_VARIABLE {
                    9
                } else {
                    5
                }
            }
        };
        value
    }

    fn node(&self) -> Option<u16> {
        match self.bits(self.position, 1)? {
            0 => self.bits(self.position + 1, 8),
            _ => self.bits(self.position + 1, 4).map(|number| FIRST_VARIABLE + number),
        }
    }

    fn bits(&self, start: usize, width: usize) -> Option<u16> {
        let Source::Bits(book) = self.source else { return None };
        let bit = |at: usize| Some(u16::from(book.get(at / 8)? >> (7 - at % 8) & 1));
        (start..start + width).try_fold(0, |value, at| Some(value << 1 | bit(at)?))
    }
}
