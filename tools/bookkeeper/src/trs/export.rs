//! A book as a TRS text; its weights and its order are a comment.

use super::name::Renaming;
use super::token::is_name;
use super::SECTIONS;
use crate::input::Loaded;
use crate::names::Names;
use crate::print;
use crate::sheet::{variable, Sheet};

/// What stands above the weights and the order.
const ABOUT: &str = "Weights and order for the AC-compatible Knuth-Bendix order, which bookkeeper import reads:";

/// The TRS text of a book.
pub fn text(loaded: &Loaded) -> String {
    let Names { symbols, variables, .. } = &loaded.names;
    let suits = |name: &str| is_name(name) && !SECTIONS.contains(&name);
    let renaming = Renaming::new(variables.iter().chain(symbols).map(String::as_str), suits);
    let renamed = |names: &[String]| names.iter().map(|name| renaming.get(name).to_string()).collect::<Vec<_>>();
    let mut names = loaded.names.clone();
    names.symbols = renamed(symbols);
    let mut text = String::from("(COMMENT\n");
    for (_, new) in &renaming.changed {
        text += &format!("{new} has a name in the text that a TRS text has not.\n");
    }
    text += &format!("{ABOUT}\n{})\n", print::certificate(&loaded.sheet, &names));
    if !variables.is_empty() {
        text += &format!("(VAR {})\n", renamed(variables).join(" "));
    }
    let is_ac = loaded.sheet.symbols().map(|symbol| symbol.ac);
    let theory: Vec<&str> = names.symbols.iter().zip(is_ac).filter(|(_, ac)| *ac).map(|(name, _)| &name[..]).collect();
    if !theory.is_empty() {
        text += &format!("(THEORY (AC {}))\n", theory.join(" "));
    }
    text += "(RULES\n";
    for (number, (left, right)) in loaded.sheet.rules().enumerate() {
        let writer = Writer {
            sheet: &loaded.sheet,
            symbols: &names.symbols,
            variables: renamed(loaded.printer(number).variables),
        };
        text += &format!("  {} -> {}\n", writer.term(left), writer.term(right));
    }
    text + ")\n"
}

/// Writes terms, every symbol before its arguments.
struct Writer<'w> {
    sheet: &'w Sheet,
    symbols: &'w [String],
    variables: Vec<String>,
}

impl Writer<'_> {
    fn term(&self, words: &[u16]) -> String {
        let mut text = String::new();
        self.put(words, &mut text);
        text
    }

    /// Puts the first term of the words; hands back the words after it.
    fn put<'w>(&self, words: &'w [u16], text: &mut String) -> &'w [u16] {
        let Some((&node, mut rest)) = words.split_first() else { return words };
        if let Some(number) = variable(node) {
            text.push_str(&self.variables[number]);
            return rest;
        }
        text.push_str(&self.symbols[usize::from(node)]);
        let arity = self.sheet.symbol(node.into()).arity;
        for argument in 0..arity {
            text.push_str(if argument == 0 { "(" } else { "," });
            rest = self.put(rest, text);
        }
        text.push_str(if arity > 0 { ")" } else { "" });
        rest
    }
}
