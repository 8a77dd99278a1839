//! Terms, rules and books as texts.

use crate::names::Names;
use crate::sheet::{variable, Rule, Sheet};
use crate::sign::is_operator;

/// The column past which an order line goes on in the next one.
const WIDTH: usize = 100;
/// The most columns that the names of symbols are set in.
const NAME_WIDTH: usize = 16;

/// Writes terms with the names of symbols, and of variables by number.
pub struct Printer<'p> {
    pub sheet: &'p Sheet,
    pub names: &'p Names,
    /// The variables of the rule.
    pub variables: &'p [String],
}

impl Printer<'_> {
    /// A term from its words.
    pub fn term(&self, words: &[u16]) -> String {
        let mut text = String::new();
        self.put(words, &mut text);
        text
    }

    pub fn rule(&self, (left, right): Rule) -> String {
        format!("{} -> {}", self.term(left), self.term(right))
    }

    /// Puts the first term of the words; hands back the words after it.
    fn put<'w>(&self, words: &'w [u16], text: &mut String) -> &'w [u16] {
        let Some((&node, mut rest)) = words.split_first() else { return words };
        if let Some(number) = variable(node) {
            text.push_str(&self.variables[number]);
            return rest;
        }
        let (name, symbol) = (&self.names.symbols[usize::from(node)], self.sheet.symbol(node.into()));
        if self.is_infix(node) {
            rest = self.put_operand(rest, Some(node).filter(|_| symbol.ac), text);
            text.push_str(&format!(" {name} "));
            return self.put_operand(rest, None, text);
        }
        text.push_str(name);
        let arity = symbol.arity;
        for argument in 0..arity {
            text.push_str(if argument == 0 { "(" } else { ", " });
            rest = self.put(rest, text);
        }
        text.push_str(if arity > 0 { ")" } else { "" });
        rest
    }

    /// Whether a node stands between its arguments.
    fn is_infix(&self, node: u16) -> bool {
        let name = self.names.symbols.get(usize::from(node));
        name.is_some_and(|name| is_operator(name)) && self.sheet.symbol(node.into()).arity == 2
    }

    /// Puts an operand, in parentheses if its root is an operator other than the given one.
    fn put_operand<'w>(&self, words: &'w [u16], bare: Option<u16>, text: &mut String) -> &'w [u16] {
        let root = words.first().copied();
        if root == bare || !root.is_some_and(|node| self.is_infix(node)) {
            return self.put(words, text);
        }
        text.push('(');
        let rest = self.put(words, text);
        text.push(')');
        rest
    }
}

/// A book as a text.
pub fn book(sheet: &Sheet, names: &Names) -> String {
    let mut text = format!("w0 {}\n", sheet.w0());
    if !names.variables.is_empty() {
        text += &format!("variables {}\n", names.variables.join(" "));
    }
    text += &symbols(sheet, names);
    if sheet.rules().len() > 0 {
        text.push('\n');
    }
    let printer = Printer { sheet, names, variables: &names.variables };
    for rule in sheet.rules() {
        text += &printer.rule(rule);
        text.push('\n');
    }
    text
}

/// The weights and the order of a book: its lines without variables and rules.
pub fn certificate(sheet: &Sheet, names: &Names) -> String {
    format!("w0 {}\n{}", sheet.w0(), symbols(sheet, names))
}

/// The lines of symbols, and an order line if the ranks go from 0 up without a gap, else ranks.
fn symbols(sheet: &Sheet, names: &Names) -> String {
    let count = sheet.symbols().len();
    let in_a_row = sheet.symbols().all(|symbol| usize::from(symbol.rank) < count);
    let width = names.symbols.iter().map(|name| name.chars().count()).max().unwrap_or(0).min(NAME_WIDTH);
    let mut text = String::new();
    for (symbol, name) in sheet.symbols().zip(&names.symbols) {
        let ac = if symbol.ac { " ac" } else { "" };
        let rank = if in_a_row { String::new() } else { format!(" rank {}", symbol.rank) };
        text += &format!("symbol {name:<width$} arity {}{ac} weight {}{rank}\n", symbol.arity, symbol.weight);
    }
    if in_a_row {
        let mut ranked: Vec<_> = sheet.symbols().map(|symbol| symbol.rank).zip(&names.symbols).collect();
        ranked.sort_by(|one, other| other.cmp(one));
        text += &order(&ranked.iter().map(|(_, name)| name.as_str()).collect::<Vec<_>>());
    }
    text
}

/// The order line of names, the greatest first; nothing without names.
pub fn order(names: &[&str]) -> String {
    let mut text = String::new();
    let mut width = 0;
    for (place, name) in names.iter().enumerate() {
        let parting = match place {
            0 => "order ",
            _ if width > WIDTH => " >\n      ",
            _ => " > ",
        };
        width = if parting.contains('\n') { 0 } else { width } + parting.len() + name.len();
        text += &format!("{parting}{name}");
    }
    if names.is_empty() {
        text
    } else {
        text + "\n"
    }
}
