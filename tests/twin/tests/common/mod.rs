//! Signatures with names, rules in readable text, and examples of both.

use twin::format::Form;
use twin::generate::{Book, Rule, Signature, Tree};
use twin::table::Symbol;
use twin::{compare, mark, report, Relation};

/// The names of the variables 0 to 5.
const VARIABLES: [&str; 6] = ["u", "v", "w", "x", "y", "s"];

/// The numbers of the decreasing marks.
const DECREASING: [u8; 7] = [1, 2, 3, 4, 5, 6, 11];
const EQUIVALENT: u8 = 9;

/// A signature whose symbols have names. A name that is not a letter or a digit is an AC symbol, written infix.
pub struct Theory {
    names: Vec<&'static str>,
    signature: Signature,
}

impl Theory {
    /// A theory of symbols given by name, arity, weight and rank, in the order of their numbers.
    pub fn new(w0: u16, symbols: &[(&'static str, u8, u16, u8)]) -> Self {
        let names = symbols.iter().map(|&(name, ..)| name).collect();
        let symbols =
            symbols.iter().map(|&(name, arity, weight, rank)| Symbol { arity, ac: is_infix(name), weight, rank });
        Theory { names, signature: Signature { w0, symbols: symbols.collect() } }
    }

    /// The node words of a term.
    pub fn term(&self, text: &str) -> Vec<u16> {
        let text: String = text.chars().filter(|letter| !letter.is_whitespace()).collect();
        let mut parser = Parser { theory: self, rest: &text };
        let tree = parser.sum();
        assert!(parser.rest.is_empty(), "{text} is not one term");
        tree.words()
    }

    /// The node words of both sides of a rule.
    fn rule(&self, rule: &str) -> Rule {
        let (left, right) = rule.split_once("->").expect("a rule has an arrow");
        (self.term(left), self.term(right))
    }

    /// The rule file of rules, their variables in turn.
    fn file(&self, rules: &[&str]) -> Book {
        Book::of_rules(self.signature.clone(), rules.iter().map(|rule| self.rule(rule)))
    }

    /// The rule file of rules, of a form and with their variables as they are named.
    pub fn as_named(&self, form: Form, rules: &[&str]) -> Book {
        Book { form, signature: self.signature.clone(), rules: rules.iter().map(|rule| self.rule(rule)).collect() }
    }

    /// The packed rule file of rules.
    pub fn book(&self, rules: &[&str]) -> Vec<u8> {
        self.file(rules).packed()
    }

    /// The words of the rule file of rules.
    pub fn sheet(&self, rules: &[&str]) -> Vec<u16> {
        self.file(rules).words()
    }

    /// The mark and the margin of a rule, after a check that marking, the report and comparing agree.
    pub fn mark(&self, rule: &str) -> (u8, i64) {
        let book = self.book(&[rule]);
        let mut marks = [0];
        let marked = mark(&book, &mut marks).expect("the book is read");
        let (left, right) = rule.split_once("->").expect("a rule has an arrow");
        let comparison = compare(&book, &self.term(left), &self.term(right)).expect("the terms are read");
        let [mark] = marks;
        assert_eq!(comparison.relation == Relation::Greater, DECREASING.contains(&mark), "{rule}");
        assert_eq!(comparison.relation == Relation::Equivalent, mark == EQUIVALENT, "{rule}");
        assert_eq!(marked.falling, usize::from(DECREASING.contains(&mark)), "{rule}");
        let (score, verdict) = if marked.falling == 1 { (100, "accepted") } else { (0, "returned") };
        let text = format!("rules 1\n0 {mark} {}\nscore {score}\n{verdict}\n", comparison.margin);
        assert_eq!(String::from_utf8(report(&book)).expect("a report is text"), text, "{rule}");
        (mark, comparison.margin)
    }
}

/// A rule with its mark and its margin.
pub type Case<'a> = (&'a str, u8, i64);

/// Rules over a theory, each with its mark and its margin.
pub struct Example {
    pub title: String,
    theory: Theory,
    cases: Vec<(String, u8, i64)>,
}

impl Example {
    pub fn new(title: &str, theory: Theory, cases: &[Case]) -> Self {
        let cases = cases.iter().map(|&(rule, mark, margin)| (rule.into(), mark, margin)).collect();
        Example { title: title.into(), theory, cases }
    }

    /// Checks the mark and the margin of each rule, alone and in the report on the book of all.
    pub fn check(&self) {
        let lines = self.cases.iter().enumerate().map(|(number, (rule, mark, margin))| {
            assert_eq!(self.theory.mark(rule), (*mark, *margin), "{}: {rule}", self.title);
            format!("{number} {mark} {margin}\n")
        });
        let lines: String = lines.collect();
        let rules = self.cases.len();
        let falling = self.cases.iter().filter(|(_, mark, _)| DECREASING.contains(mark)).count();
        let verdict = if falling == rules { "accepted" } else { "returned" };
        let text = format!("rules {rules}\n{lines}score {}\n{verdict}\n", nearest_percent(falling, rules));
        assert_eq!(self.report(), text, "{}", self.title);
    }

    /// The report on the book of the rules.
    pub fn report(&self) -> String {
        let rules: Vec<&str> = self.cases.iter().map(|(rule, ..)| rule.as_str()).collect();
        String::from_utf8(report(&self.theory.book(&rules))).expect("a report is text")
    }
}

/// Of the whole percentages, the one nearest to that of the falling rules; of two such, the even one.
pub fn nearest_percent(falling: usize, rules: usize) -> usize {
    let distance = |score: &usize| (score * rules).abs_diff(100 * falling);
    (0..=100).min_by_key(|score| (distance(score), score % 2)).expect("there are percentages")
}

fn is_infix(name: &str) -> bool {
    !name.chars().all(char::is_alphanumeric)
}

struct Parser<'a> {
    theory: &'a Theory,
    rest: &'a str,
}

impl<'a> Parser<'a> {
    /// Operands joined by infix symbols, grouped to the left.
    fn sum(&mut self) -> Tree {
        let mut tree = self.operand();
        while let Some(symbol) = self.infix() {
            let right = self.operand();
            tree = Tree::Application(symbol, vec![tree, right]);
        }
        tree
    }

    fn infix(&mut self) -> Option<u8> {
        let names = self.theory.names.iter();
        let symbol = names.clone().position(|name| is_infix(name) && self.rest.starts_with(name))?;
        self.rest = &self.rest[self.theory.names[symbol].len()..];
        Some(symbol as u8)
    }

    fn operand(&mut self) -> Tree {
        if self.accept("(") {
            let tree = self.sum();
            assert!(self.accept(")"), "a parenthesis is open before {}", self.rest);
            return tree;
        }
        let name = self.name();
        let Some(symbol) = self.theory.names.iter().position(|&known| known == name) else {
            let variable = VARIABLES.iter().position(|&known| known == name);
            return Tree::Variable(variable.expect("a name is known") as u8);
        };
        let mut arguments = Vec::new();
        if self.accept("(") {
            arguments.push(self.sum());
            while self.accept(",") {
                arguments.push(self.sum());
            }
            assert!(self.accept(")"), "arguments are open before {}", self.rest);
        }
        Tree::Application(symbol as u8, arguments)
    }

    fn name(&mut self) -> &'a str {
        let end = self.rest.find(|letter: char| !letter.is_alphanumeric()).unwrap_or(self.rest.len());
        let (name, rest) = self.rest.split_at(end);
        self.rest = rest;
        name
    }

    fn accept(&mut self, text: &str) -> bool {
        self.rest.strip_prefix(text).is_some_and(|rest| {
            self.rest = rest;
            true
        })
    }
}
