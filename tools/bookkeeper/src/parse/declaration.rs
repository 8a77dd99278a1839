//! The lines that are no rules: `w0`, `variables`, `symbol` and `order`.

use super::Parser;
use crate::complaint::Complaint;
use crate::hint;
use crate::names::{Meaning, RESERVED};
use crate::ranks::Order;
use crate::text::{Entry, Field, Shape};
use crate::token::{Kind, Token};

impl Parser<'_> {
    pub(super) fn w0(&mut self) -> Result<(), Complaint> {
        let keyword = self.tokens.take()?;
        if self.text.w0.is_some() {
            return Err(Complaint::at(keyword.place, "there is a line `w0` before this one"));
        }
        self.text.w0 = Some(self.number("the weight of a variable")?);
        Ok(())
    }

    pub(super) fn variables(&mut self) -> Result<(), Complaint> {
        self.tokens.take()?;
        while matches!(self.tokens.peek()?.kind, Kind::Word | Kind::Comma) {
            let token = self.tokens.take()?;
            if token.kind == Kind::Word {
                self.check_new(token)?;
                self.text.names.add_variable(token.text);
            }
        }
        Ok(())
    }

    /// Reads the line of a symbol; one with a fault after its name is declared all the same, of any arity.
    pub(super) fn symbol(&mut self) -> Result<(), Complaint> {
        self.tokens.take()?;
        let name = self.tokens.take()?;
        if !matches!(name.kind, Kind::Word | Kind::Operator) {
            return Err(Complaint::at(name.place, format!("a name is missing before {}", name.quoted())));
        }
        self.check_new(name)?;
        let entry = self.entry(name);
        let arity = entry.as_ref().ok().map(|entry| entry.arity.word);
        let ac = entry.as_ref().map_or(true, |entry| entry.ac.word == 1);
        self.text.names.add_symbol(name.text);
        self.text.shapes.push(Shape { arity, ac });
        self.text.symbols.push(entry?);
        Ok(())
    }

    /// Reads what follows the name of a symbol.
    fn entry(&mut self, name: Token) -> Result<Entry, Complaint> {
        self.keyword("arity")?;
        let arity = self.number("the arity")?;
        let ac_token = self.tokens.peek()?;
        let ac = Field { word: u16::from(self.optional("ac")?), place: ac_token.place };
        self.keyword("weight")?;
        let weight = self.number("the weight")?;
        let rank = if self.optional("rank")? { Some(self.number("the rank")?) } else { None };
        Ok(Entry { place: name.place, arity, ac, weight, rank })
    }

    pub(super) fn order(&mut self) -> Result<(), Complaint> {
        let keyword = self.tokens.take()?;
        if self.order.is_some() {
            return Err(Complaint::at(keyword.place, "there is a line `order` before this one"));
        }
        let mut symbols = Vec::new();
        loop {
            let name = self.tokens.take()?;
            match self.text.names.meaning(name.text) {
                Some(Meaning::Symbol(number)) => symbols.push((number, name.place)),
                _ => {
                    let fault = Complaint::at(name.place, format!("{} is not a symbol above", name.quoted()));
                    return Err(fault.hinted(hint::of_name(name.text, &self.text.names)));
                }
            }
            let next = self.tokens.peek()?;
            if next.kind != Kind::Above {
                self.at_line_end().map_err(|fault| fault.hinted(hint::of_order(next)))?;
                break;
            }
            self.tokens.take()?;
        }
        self.order = Some(Order { place: keyword.place, symbols });
        Ok(())
    }

    /// Complains of a name that is taken.
    fn check_new(&self, name: Token) -> Result<(), Complaint> {
        if RESERVED.contains(&name.text) {
            return Err(Complaint::at(name.place, format!("{} begins lines, and is no name", name.quoted())));
        }
        match self.text.names.meaning(name.text) {
            Some(_) => Err(Complaint::at(name.place, format!("{} is declared before", name.quoted()))),
            None => Ok(()),
        }
    }
}
