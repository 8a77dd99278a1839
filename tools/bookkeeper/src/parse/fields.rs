//! The parts of a line that is no rule: keywords and numbers.

use super::Parser;
use crate::complaint::Complaint;
use crate::hint;
use crate::text::Field;
use crate::token::Kind;

impl Parser<'_> {
    pub(super) fn keyword(&mut self, keyword: &str) -> Result<(), Complaint> {
        if self.optional(keyword)? {
            return Ok(());
        }
        let token = self.tokens.peek()?;
        let fault = Complaint::at(token.place, format!("`{keyword}` is missing before {}", token.quoted()));
        Err(fault.hinted(hint::of_keyword(token.text)))
    }

    /// Takes a keyword if it comes next.
    pub(super) fn optional(&mut self, keyword: &str) -> Result<bool, Complaint> {
        let token = self.tokens.peek()?;
        let found = token.kind == Kind::Word && token.text == keyword;
        if found {
            self.tokens.take()?;
        }
        Ok(found)
    }

    pub(super) fn number(&mut self, what: &str) -> Result<Field, Complaint> {
        let token = self.tokens.peek()?;
        if token.kind != Kind::Word || !token.text.bytes().all(|byte| byte.is_ascii_digit()) {
            return Err(Complaint::at(token.place, format!("{what}, a number, is missing before {}", token.quoted())));
        }
        self.tokens.take()?;
        match token.text.parse() {
            Ok(word) => Ok(Field { word, place: token.place }),
            Err(_) => Err(Complaint::at(token.place, format!("{} is above 65535", token.quoted()))),
        }
    }
}
