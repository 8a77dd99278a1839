//! Reading a TRS text.

use super::system::{System, Term};
use super::token::{Kind, Token, Tokens};
use crate::complaint::{Complaint, Place};

/// How deep terms and parts may nest.
const MAX_DEPTH: usize = 256;

/// The system that a source has.
pub fn system(source: &str) -> Result<System<'_>, Complaint> {
    let mut reader = Reader { tokens: Tokens::new(source), system: System::default(), rules: false };
    while reader.tokens.peek().kind != Kind::End {
        reader.section()?;
    }
    match reader.rules {
        true => Ok(reader.system),
        false => Err(Complaint::at(reader.tokens.peek().place, "there is no part `(RULES`")),
    }
}

struct Reader<'a> {
    tokens: Tokens<'a>,
    system: System<'a>,
    /// Whether there is a part with rules.
    rules: bool,
}

impl<'a> Reader<'a> {
    fn section(&mut self) -> Result<(), Complaint> {
        self.expect(Kind::Open, "`(`")?;
        let word = self.expect(Kind::Name, "the word of a part")?;
        match word.text {
            "VAR" => {
                let names = self.names()?;
                self.system.variables.extend(names.iter().map(|name| name.text));
            }
            "THEORY" => self.theory()?,
            "RULES" => self.rules()?,
            "COMMENT" => {
                let comment = self.balanced()?;
                self.system.comments.push(comment);
                return Ok(());
            }
            other => {
                self.balanced()?;
                self.system.left_out.push(other);
                return Ok(());
            }
        }
        self.expect(Kind::Close, "`)`").map(|_| ())
    }

    fn names(&mut self) -> Result<Vec<Token<'a>>, Complaint> {
        let mut names = Vec::new();
        while self.tokens.peek().kind == Kind::Name {
            names.push(self.tokens.take());
        }
        Ok(names)
    }

    fn theory(&mut self) -> Result<(), Complaint> {
        while self.tokens.peek().kind == Kind::Open {
            self.tokens.take();
            let word = self.expect(Kind::Name, "`AC`")?;
            if word.text != "AC" {
                let text = format!("the theory {} is none of a book, which has AC symbols alone", word.quoted());
                return Err(Complaint::at(word.place, text));
            }
            let names = self.names()?;
            self.system.theory.extend(names.iter().map(|name| (name.text, name.place)));
            self.expect(Kind::Close, "`)`")?;
        }
        Ok(())
    }

    fn rules(&mut self) -> Result<(), Complaint> {
        self.rules = true;
        while self.tokens.peek().kind != Kind::Close {
            let left = self.term(0)?;
            self.expect(Kind::Arrow, "`->`")?;
            let next = self.tokens.peek();
            if next.kind == Kind::Name && next.text.starts_with('=') {
                return Err(Complaint::at(next.place, "a relative rule, with `->=`, is none of a book"));
            }
            let right = self.term(0)?;
            let next = self.tokens.peek();
            if next.text == "|" {
                return Err(Complaint::at(next.place, "a rule with a condition is none of a book"));
            }
            self.system.rules.push((left, right));
        }
        Ok(())
    }

    fn term(&mut self, depth: usize) -> Result<Term<'a>, Complaint> {
        let name = self.expect(Kind::Name, "a term")?;
        let mut term = Term { name: name.text, place: name.place, arguments: Vec::new() };
        if self.tokens.peek().kind != Kind::Open {
            return Ok(term);
        }
        check_depth(depth, name.place)?;
        self.tokens.take();
        if self.tokens.peek().kind != Kind::Close {
            term.arguments.push(self.term(depth + 1)?);
        }
        while self.tokens.peek().kind == Kind::Comma {
            self.tokens.take();
            term.arguments.push(self.term(depth + 1)?);
        }
        self.expect(Kind::Close, "`,` or `)`").map(|_| term)
    }

    /// What stands up to the end of a part, whatever it is, and takes that end.
    fn balanced(&mut self) -> Result<&'a str, Complaint> {
        let (start, mut open) = (self.tokens.peek().start, 1);
        loop {
            let token = self.tokens.take();
            match token.kind {
                Kind::Open => open += 1,
                Kind::Close => open -= 1,
                Kind::End => return Err(Complaint::at(token.place, "`)` is missing before the end of the text")),
                _ => {}
            }
            if open == 0 {
                return Ok(&self.tokens.source[start..token.start]);
            }
        }
    }

    fn expect(&mut self, kind: Kind, wanted: &str) -> Result<Token<'a>, Complaint> {
        let token = self.tokens.take();
        if token.kind == kind {
            return Ok(token);
        }
        Err(Complaint::at(token.place, format!("{wanted} is missing before {}", token.quoted())))
    }
}

fn check_depth(depth: usize, place: Place) -> Result<(), Complaint> {
    match depth {
        MAX_DEPTH => Err(Complaint::at(place, format!("the term nests more than {MAX_DEPTH} deep"))),
        _ => Ok(()),
    }
}
