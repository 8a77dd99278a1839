//! The statements: each is proved by a theorem of exactly that type, or is part of one that is.

use crate::source::{crate_of, uses, Tree};
use std::collections::BTreeSet;

/// The files of statements.
pub fn files(tree: &Tree) -> Vec<String> {
    let mut found = tree.files("crates", "Statements.antt");
    found
        .extend(tree.files("crates/guarantees/specs", ".antt").into_iter().filter(|file| !file.ends_with("/Lib.antt")));
    found
}

/// A declared name, the parameters of the sections that it stands in, its type, and the lines up to the next one.
pub struct Declaration {
    pub name: String,
    pub parameters: Vec<(String, String)>,
    pub of: String,
    pub body: String,
}

/// The declarations of a text that other files can name.
pub fn declarations(text: &str) -> Vec<Declaration> {
    let mut found: Vec<Declaration> = Vec::new();
    let mut sections: Vec<(usize, Vec<(String, String)>)> = Vec::new();
    for line in text.lines().filter(|line| !line.trim().is_empty()) {
        let indent = line.len() - line.trim_start().len();
        sections.retain(|(outer, _)| *outer < indent);
        if line.trim().starts_with("module ") {
            sections.push((indent, binders(line).0));
        }
        match declared(line) {
            Some((name, of)) => {
                let parameters = sections.iter().flat_map(|(_, of)| of.clone()).collect();
                found.push(Declaration { name: name.to_string(), parameters, of: of.to_string(), body: String::new() });
            }
            None => found.iter_mut().last().into_iter().for_each(|last| last.body += &format!("{line}\n")),
        }
    }
    found
}

/// The name and the type of a line that declares one.
fn declared(line: &str) -> Option<(&str, &str)> {
    let words = ["abbrev ", "unfoldable ", "pub ", "record ", "data "];
    let rest = words.iter().fold(line.trim(), |rest, word| rest.strip_prefix(word).unwrap_or(rest));
    let name = &rest[..rest.find([' ', '('])?];
    let (_, of) = rest.split_once(" : ")?;
    (rest != line.trim()).then_some((name, rest[name.len()..].strip_prefix(" : ").unwrap_or(of)))
}

/// The names and types of a line's binders `(x y : A)` from the first on, one after another, and what follows them.
fn binders(line: &str) -> (Vec<(String, String)>, &str) {
    let mut found = Vec::new();
    let mut rest = &line[line.find('(').unwrap_or(line.len())..];
    while let Some((binder, after)) = rest.strip_prefix('(').and_then(|open| open.split_once(')')) {
        let Some((names, of)) = binder.split_once(" : ") else { break };
        found.extend(names.split(' ').map(|name| (name.to_string(), of.to_string())));
        rest = after.trim_start();
    }
    (found, rest)
}

/// Whether a theorem's type is that statement at its own parameters, of the same types, with nothing before it.
fn proves(theorem: &Declaration, statement: &Declaration) -> bool {
    let (own, rest) =
        if theorem.of.starts_with('(') { binders(&theorem.of) } else { (Vec::new(), theorem.of.as_str()) };
    let parameters: Vec<(String, String)> = theorem.parameters.iter().cloned().chain(own).collect();
    let applied = parameters.iter().fold(statement.name.clone(), |text, (name, _)| format!("{text} {name}"));
    let types = |of: &[(String, String)]| of.iter().map(|(_, of)| of.clone()).collect::<Vec<_>>();
    rest.trim_start_matches("→ ").trim() == applied && types(&parameters) == types(&statement.parameters)
}

/// The names of the statements that are proved, each in a file of its crate's theorems, where the name is the
/// statement's.
pub fn proved(tree: &Tree) -> BTreeSet<String> {
    let mut found = BTreeSet::new();
    for file in files(tree) {
        let proofs = format!("crates/{}/proofs", crate_of(&file));
        for theorems in tree.files(&proofs, "Theorems.antt") {
            found.extend(proved_in(tree, &file, &tree.text(&theorems)));
        }
    }
    found
}

/// Those of a file of statements that a file of theorems proves.
fn proved_in(tree: &Tree, file: &str, theorems: &str) -> Vec<String> {
    let meant = |name: &str| {
        let items: Vec<_> = uses(theorems).into_iter().filter(|item| item.name == name).collect();
        items.len() == 1 && items[0].original == name && tree.file_of(&items[0].module).as_deref() == Some(file)
    };
    let all = declarations(theorems);
    let names: BTreeSet<&String> = all.iter().map(|theorem| &theorem.name).collect();
    let own = |of: &Declaration| {
        !names.contains(&of.name) && meant(&of.name) && all.iter().any(|theorem| proves(theorem, of))
    };
    declarations(&tree.text(file)).into_iter().filter(|of| own(of)).map(|of| of.name).collect()
}

/// What is not proved. A statement is a name of type `Type 0`, under the parameters of its section.
pub fn faults(tree: &Tree) -> Vec<String> {
    let all: Vec<(String, Declaration)> = files(tree)
        .into_iter()
        .flat_map(|file| declarations(&tree.text(&file)).into_iter().map(move |statement| (file.clone(), statement)))
        .collect();
    let mut reached = BTreeSet::new();
    let mut open: Vec<String> = proved(tree).into_iter().collect();
    while let Some(name) = open.pop() {
        let bodies = all.iter().filter(|(_, of)| of.name == name).map(|(_, of)| of.body.as_str());
        let apart = |c: char| c.is_whitespace() || "(){}".contains(c);
        let parts: Vec<String> = bodies.flat_map(|body| body.split(apart)).map(String::from).collect();
        if reached.insert(name) {
            open.extend(parts.into_iter().filter(|part| all.iter().any(|(_, of)| of.name == *part)));
        }
    }
    let is_statement = |of: &str| ["Type 0", "Type 0 where"].contains(&of);
    let lacking = all.iter().filter(|(_, of)| is_statement(&of.of) && !reached.contains(&of.name));
    lacking.map(|(file, of)| format!("{file}: {} is neither proved nor part of what is", of.name)).collect()
}

/// Each statement that the guide's table names is proved itself.
pub fn claims(tree: &Tree) -> Vec<String> {
    let guide = &tree.0["docs/GUIDE.md"];
    let table = guide.split("The theorems (").nth(1).and_then(|rest| rest.split("By computation").next()).unwrap_or("");
    let rows = table.lines().filter(|line| line.starts_with('|')).filter_map(|line| line.split(" | ").nth(1));
    let names =
        rows.flat_map(|row| row.split('`').skip(1).step_by(2)).filter(|name| name.starts_with(char::is_uppercase));
    let proved = proved(tree);
    names.filter(|name| !proved.contains(*name)).map(|name| format!("docs/GUIDE.md: {name} is not proved")).collect()
}
