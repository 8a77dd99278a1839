//! A rewrite system, as a TRS text has it.

use std::collections::{HashMap, HashSet};

use crate::complaint::{counted, quoted, Complaint, Place};

/// A term: a name with its arguments.
#[derive(Clone, Debug)]
pub struct Term<'a> {
    pub name: &'a str,
    pub place: Place,
    pub arguments: Vec<Term<'a>>,
}

/// A symbol of the rules.
#[derive(Clone, Debug)]
pub struct Symbol<'a> {
    pub name: &'a str,
    pub place: Place,
    pub arity: usize,
    pub ac: bool,
    /// Whether it is the root of a left side.
    pub defined: bool,
}

/// The parts of a TRS text.
#[derive(Clone, Debug, Default)]
pub struct System<'a> {
    pub variables: Vec<&'a str>,
    /// The AC symbols, with their places.
    pub theory: Vec<(&'a str, Place)>,
    pub rules: Vec<(Term<'a>, Term<'a>)>,
    pub comments: Vec<&'a str>,
    /// The words of parts that are left out.
    pub left_out: Vec<&'a str>,
}

impl<'a> System<'a> {
    /// The symbols in order of first use, those of the theory that no rule has after them; or what is wrong with them.
    pub fn symbols(&self) -> Result<Vec<Symbol<'a>>, Vec<Complaint>> {
        let mut table =
            Table { variables: self.variables.iter().copied().collect(), symbols: Vec::new(), numbers: HashMap::new() };
        let mut faults = Vec::new();
        for (left, right) in &self.rules {
            table.visit(left, &mut faults);
            table.visit(right, &mut faults);
            if let Some(&number) = table.numbers.get(left.name) {
                table.symbols[number].defined = true;
            }
        }
        for &(name, place) in &self.theory {
            faults.extend(table.mark_ac(name, place));
        }
        if faults.is_empty() {
            Ok(table.symbols)
        } else {
            Err(faults)
        }
    }
}

/// The symbols met so far.
struct Table<'a> {
    variables: HashSet<&'a str>,
    symbols: Vec<Symbol<'a>>,
    numbers: HashMap<&'a str, usize>,
}

impl<'a> Table<'a> {
    fn visit(&mut self, term: &Term<'a>, faults: &mut Vec<Complaint>) {
        let (name, arity, place) = (quoted(term.name), term.arguments.len(), term.place);
        if self.variables.contains(term.name) {
            if arity > 0 {
                faults.push(Complaint::at(place, format!("{name} is a variable, and takes no arguments")));
            }
            return;
        }
        let number = self.number(term.name, place, arity);
        let Symbol { arity: first, place: earlier, .. } = self.symbols[number];
        if first != arity {
            let text = format!("{name} has {}, and {first} at line {}", counted(arity, "argument"), earlier.line);
            faults.push(Complaint::at(place, text));
        }
        term.arguments.iter().for_each(|argument| self.visit(argument, faults));
    }

    /// The number of a symbol, which is the next if it is new.
    fn number(&mut self, name: &'a str, place: Place, arity: usize) -> usize {
        let next = self.symbols.len();
        let number = *self.numbers.entry(name).or_insert(next);
        if number == next {
            self.symbols.push(Symbol { name, place, arity, ac: false, defined: false });
        }
        number
    }

    /// Makes a symbol AC, or complains that it cannot be.
    fn mark_ac(&mut self, name: &'a str, place: Place) -> Option<Complaint> {
        if self.variables.contains(name) {
            return Some(Complaint::at(place, format!("{} is a variable", quoted(name))));
        }
        let number = self.number(name, place, 2);
        let symbol = &mut self.symbols[number];
        symbol.ac = true;
        let wrong = symbol.arity != 2;
        wrong.then(|| {
            let takes = counted(symbol.arity, "argument");
            Complaint::at(place, format!("{} is AC, and has {takes} in the rules", quoted(name)))
        })
    }
}
