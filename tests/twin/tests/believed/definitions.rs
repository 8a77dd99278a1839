//! The definition files that the contracts and the statements reach, and what may stand in them.

use crate::contracts::{believed, cited};
use crate::source::{crate_of, uses, Tree, Use};
use crate::statements::{self, declarations};
use std::collections::{BTreeMap, BTreeSet};

/// The kit's own modules begin with these.
const KIT: [&str; 6] = ["Prim.", "lib.", "mathlib.", "native.", "Rattle.core.", "Rattle.std."];

/// The names of `mathlib.Core.List` that the prelude passes on.
const PRELUDE: &str = "Rattle.std.specs.Prelude";
const PASSED_ON: [&str; 5] = ["List", "[]", "◌∷◌", "◌++◌", "map"];

/// The module that a name of the kit's is of, the prelude for what it passes on.
fn meant(item: &Use) -> &str {
    let is_passed_on = item.module == "mathlib.Core.List" && PASSED_ON.contains(&item.original.as_str());
    if is_passed_on {
        PRELUDE
    } else {
        &item.module
    }
}

fn of_the_kit(module: &str) -> bool {
    KIT.iter().any(|start| module.starts_with(start))
}

/// What is wrong with the list of files, and with the names in the contracts and in the files.
pub fn faults(tree: &Tree) -> Vec<String> {
    let mut found = Vec::new();
    let mut open = statements::files(tree);
    for (file, f) in believed(tree) {
        found.extend(reach(tree, &file, cited(tree, &file, &f), &mut open));
        if f.clauses.iter().any(|clause| clause.says.contains("Rattle.")) {
            found.push(format!("{file}: {} names a module", f.name));
        }
    }
    let mut reached = BTreeSet::new();
    while let Some(file) = open.pop() {
        if reached.insert(file.clone()) && file.ends_with(".antt") {
            let used = uses(&tree.text(&file)).into_iter().map(|item| item.module).collect();
            found.extend(reach(tree, &file, used, &mut open));
            found.extend(hidden(tree, &file));
        }
    }
    let listed: BTreeSet<String> = tree.0["believed.txt"].lines().map(String::from).collect();
    found.extend(reached.difference(&listed).map(|file| format!("{file}: reached, and not in believed.txt")));
    found.extend(listed.difference(&reached).map(|file| format!("{file}: in believed.txt, and not reached")));
    let stands = |file: &&String| tree.has_functions(crate_of(file));
    found.extend(reached.iter().filter(stands).map(|file| format!("{file}: stands in a crate with functions")));
    let contracts = believed(tree).into_iter().map(|(file, _)| file);
    found.extend(kit_names(tree, &reached.iter().cloned().chain(contracts).collect()));
    found
}

/// Opens the files of some modules. A module is one of definitions or the kit's.
fn reach(tree: &Tree, by: &str, modules: Vec<String>, open: &mut Vec<String>) -> Vec<String> {
    let mut found = Vec::new();
    for module in modules {
        match tree.file_of(&module) {
            Some(file) => open.push(file),
            None if of_the_kit(&module) => {}
            None => found.push(format!("{by}: {module} has no definitions to believe")),
        }
    }
    found
}

/// A file names modules in `use` items alone, and has no block comment.
fn hidden(tree: &Tree, file: &str) -> Option<String> {
    let text = tree.text(file);
    let used: BTreeSet<String> = uses(&text).into_iter().map(|item| item.module).collect();
    let rest = used.iter().rev().fold(text, |text, module| text.replace(module.as_str(), ""));
    (rest.contains("Rattle.") || rest.contains("{-"))
        .then(|| format!("{file}: a module outside of `use`, or a block comment"))
}

/// A name of the kit's means one thing wherever the contracts and the definitions use it, and no definition has it.
fn kit_names(tree: &Tree, using: &BTreeSet<String>) -> Vec<String> {
    let items = using.iter().flat_map(|file| uses(&tree.text(file))).filter(|item| of_the_kit(&item.module));
    let mut meanings: BTreeMap<String, BTreeSet<String>> = BTreeMap::new();
    for item in items {
        let meaning = format!("{}.{}", meant(&item), item.original);
        meanings.entry(item.name).or_default().insert(meaning);
    }
    let several = meanings.iter().filter(|(_, of)| of.len() > 1);
    let mut found: Vec<String> = several.map(|(name, of)| format!("{name} means several things: {of:?}")).collect();
    for file in tree.files("crates", ".antt").iter().filter(|file| file.contains("/specs/")) {
        let own = declarations(&tree.text(file));
        let taken = own.iter().filter(|declaration| meanings.contains_key(&declaration.name));
        found.extend(taken.map(|declaration| format!("{file}: {} is the kit's", declaration.name)));
    }
    found
}

/// Only files of crates without functions say what they render.
pub fn rendering(tree: &Tree) -> Vec<String> {
    let renders = |file: &&String| tree.0[*file].contains("-- Renders:");
    let believed = |file: &&String| file.contains("/specs/") && !tree.has_functions(crate_of(file));
    let files = tree.files("crates", ".antt");
    files
        .iter()
        .filter(renders)
        .filter(|file| !believed(file))
        .map(|file| format!("{file}: says what it renders"))
        .collect()
}
