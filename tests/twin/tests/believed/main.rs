//! What must be believed: the contracts of the operations, the statements, and the definition files that these reach,
//! as `believed.txt` lists them. They stand in crates without functions, and only files there say what they render. A
//! check gives what is wrong with a tree of texts: nothing with the repository's, something with each attack on it.

mod attacks;
mod contracts;
mod definitions;
mod source;
mod statements;

use source::Tree;

fn fine(faults: Vec<String>) {
    assert!(faults.is_empty(), "{}", faults.join("\n"));
}

#[test]
fn contracts_say_all() {
    fine(contracts::faults(&Tree::of_the_repository()));
}

#[test]
fn what_must_be_believed_is_listed() {
    fine(definitions::faults(&Tree::of_the_repository()));
}

#[test]
fn only_crates_without_functions_say_what_they_render() {
    fine(definitions::rendering(&Tree::of_the_repository()));
}

#[test]
fn every_statement_is_proved() {
    fine(statements::faults(&Tree::of_the_repository()));
}

#[test]
fn what_the_readme_claims_is_proved() {
    fine(statements::claims(&Tree::of_the_repository()));
}
