//! The contracts of the operations: what each must say, and the files of the names in it.

use crate::source::{functions, uses, Clause, Function, Tree};
use std::collections::BTreeSet;

/// The operations, each by the file of its contract. The functions for C are all that `FOR_C` exports.
pub const OPERATIONS: [(&str, &str); 14] = [
    ("crates/decoder/src/lib.rt", "decode"),
    ("crates/encoder/src/lib.rt", "encode"),
    ("crates/comparing/src/lib.rt", "compare"),
    ("crates/picking/src/lib.rt", "greater_side"),
    ("crates/picking/src/lib.rt", "greater_part"),
    ("crates/comparing/src/oftenness.rt", "oftener"),
    ("crates/hashing/src/lib.rt", "fingerprint"),
    ("crates/enumerating/src/lib.rt", "count"),
    ("crates/enumerating/src/lib.rt", "list"),
    ("crates/marking/src/mark.rt", "mark"),
    ("crates/marking/src/report.rt", "report"),
    ("crates/converter/src/lib.rt", "convert"),
    ("crates/paging/src/lib.rt", "page"),
    ("crates/paging/src/lib.rt", "board"),
];
pub const FOR_C: &str = "crates/ackbo/src/lib.rt";
pub const TURN: &str = "crates/ackbo/src/turn.rt";
const EXPORTS: [&str; 2] = [FOR_C, TURN];

/// The functions whose contracts are believed, each with its file.
pub fn believed(tree: &Tree) -> Vec<(String, Function)> {
    let exported = EXPORTS
        .iter()
        .flat_map(|file| functions(&tree.text(file)).into_iter().filter(|f| f.exported).map(|f| (file.to_string(), f)));
    let named = OPERATIONS.iter().flat_map(|(file, name)| {
        let own = move |f: &Function| f.name == *name;
        functions(&tree.text(file)).into_iter().filter(own).map(|f| (file.to_string(), f))
    });
    named.chain(exported).collect()
}

/// What is wrong with the contracts.
pub fn faults(tree: &Tree) -> Vec<String> {
    let believed = believed(tree);
    let mut found: Vec<String> = believed.iter().flat_map(|(file, f)| contract(file, f)).collect();
    for (file, name) in OPERATIONS {
        if believed.iter().filter(|(own, f)| own == file && f.name == name).count() != 1 {
            found.push(format!("{file}: not one function {name}"));
        }
    }
    for file in tree.files("crates", ".rt").iter().filter(|file| !EXPORTS.contains(&file.as_str())) {
        if ["extern \"C\" fn", "no_mangle"].iter().any(|word| tree.text(file).contains(word)) {
            found.push(format!("{file}: a function is exported elsewhere than in {FOR_C} and {TURN}"));
        }
    }
    for file in EXPORTS {
        let own = believed.iter().filter(|(other, f)| other == file && f.exported).count();
        if tree.text(file).matches("no_mangle").count() != own {
            found.push(format!("{file}: a function is exported that is not for C"));
        }
    }
    found
}

/// A contract asks nothing, and says what the result and each buffer that may be written are equal to.
fn contract(file: &str, f: &Function) -> Vec<String> {
    let mut lacks: Vec<String> = Vec::new();
    if f.clauses.iter().any(|clause| clause.word != "ensures") {
        lacks.push("asks something of its callers".to_string());
    }
    let says = |what: &str| f.clauses.iter().any(|clause| equates(clause, what));
    let is_lent = f.result.contains('&');
    if is_lent && !says("result.ref_ptr") {
        lacks.push("does not say where its result begins".to_string());
    }
    if !f.result.is_empty() && !says(if is_lent { "result.now" } else { "result" }) {
        lacks.push("does not say what its result is".to_string());
    }
    for (name, of) in &f.parameters {
        if of.starts_with('&')
            && of.split_whitespace().any(|word| word.ends_with("mut"))
            && !says(&format!("{name}.new"))
        {
            lacks.push(format!("does not say what {name} is afterwards"));
        }
    }
    lacks.iter().map(|lack| format!("{file}: {} {lack}", f.name)).collect()
}

/// Whether a clause has an equation whose left side is that, or one function of it, as a fact of its own.
fn equates(clause: &Clause, what: &str) -> bool {
    clause.says.split(" × ").any(|fact| {
        let Some((left, _)) = fact.split_once(" ≡ ") else { return false };
        let left = left.trim();
        let left = left.strip_prefix('(').filter(|_| !left.starts_with(what)).unwrap_or(left);
        left == what
            || left
                .split_once(' ')
                .is_some_and(|(of, rest)| rest == what && of.chars().all(|c| c.is_alphanumeric() || c == '_'))
    })
}

/// The modules that the names in a contract are of. An operator is there if all of its parts are.
pub fn cited(tree: &Tree, file: &str, f: &Function) -> Vec<String> {
    let apart = |c: char| c.is_whitespace() || "(){}[],;.".contains(c);
    let words: BTreeSet<&str> = f.clauses.iter().flat_map(|clause| clause.says.split(apart)).collect();
    let parts = |name: &str| name.split('◌').filter(|part| !part.is_empty()).all(|part| words.contains(part));
    let there = |name: &str| words.contains(name) || name.contains('◌') && parts(name);
    uses(&tree.text(file)).into_iter().filter(|item| there(&item.name)).map(|item| item.module).collect()
}
