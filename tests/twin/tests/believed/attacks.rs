//! Attacks on what must be believed: edits after which a proof shows less than its reader thinks, each with the fault
//! that is found.

use crate::contracts::{believed, FOR_C, TURN};
use crate::source::{closing, Tree};
use crate::{contracts, definitions, statements};

/// A file, what stands there, and what takes its place, where `~` is what stood there; a new file where nothing did.
type Edit = (&'static str, &'static str, &'static str);

const PICKING: &str = "crates/picking/src/lib.rt";
const SCORES: &str = "crates/guarantees/specs/Scores.antt";
const SCORE: &str = "use Rattle.operations.specs.Score";
const THEOREMS: &str = "crates/guarantees/proofs/Theorems.antt";
const THEOREM: &str = "pub full-scores : FullScore\nfull-scores = full-score\n";
const DECODE: &str = "#[unsafe(no_mangle)]\npub extern \"C\" fn ackbo_decode";

/// Definitions that are not on the list.
const UNLISTED: [(&[Edit], &str); 5] = [
    (&[(SCORES, SCORE, "use Rattle.operations.proofs.EntryLaws.{margin-fits}\n~")], "has no definitions to believe"),
    (&[(SCORES, SCORE, "use lib.Dec; use Rattle.picking.specs.Part\n~")], "picking/specs/Part.antt: reached"),
    (
        &[(
            "crates/operations/specs/Page.antt",
            "use Prim.Native.String",
            "pub use Rattle.operations.specs.Hidden.{\n  columns}\n~",
        )],
        "operations/specs/Hidden.antt: reached",
    ),
    (&[(SCORES, "score_of falling", "Rattle.operations.specs.Hidden.~")], "a module outside of `use`"),
    (&[("believed.txt", "crates/operations/specs/Turns.antt\n", "")], "operations/specs/Turns.antt: reached"),
];

/// Names of an operation's own in its contract, names of the kit's with another meaning, a function among definitions.
const RENAMED: [(&[Edit], &str); 6] = [
    (
        &[
            (PICKING, "result.now ≡ greater_part ", "result.now ≡ chosen_part "),
            (PICKING, "ghost use", "ghost use Rattle.picking.specs.Part.{chosen_part};\n~"),
        ],
        "picking/specs/Part.antt: stands in a crate with functions",
    ),
    (
        &[(PICKING, "Rattle.std.specs.Prelude.{◌≡◌}", "Rattle.picking.specs.Same.{◌≡◌}")],
        "picking/specs/Same.antt: reached",
    ),
    (&[("crates/operations/specs/Same.antt", "", "abbrev pub ◌≡◌ : ℕ → ℕ → Type 0\n")], "◌≡◌ is the kit's"),
    (&[(SCORES, "◌≤◌, ◌<◌}", "◌≤◌, ◌≤◌ as ◌<◌}")], "◌<◌ means several things"),
    (&[(PICKING, "greater_part book.now", "Rattle.picking.specs.Part.~")], "greater_part names a module"),
    (
        &[("crates/operations/src/lib.rt", "pub struct Error", "pub fn zero() -> u8 {\n    0\n}\n\n~")],
        "operations/src/lib.rt: stands in a crate with functions",
    ),
];

/// Functions without a contract, or with less than one.
const UNBOUND: [(&[Edit], &str); 5] = [
    (
        &[(FOR_C, DECODE, "#[unsafe(no_mangle)]\npub extern \"C\" fn zero(reply: &mut Values) -> u8 {\n    0\n}\n\n~")],
        "zero does not say what reply is afterwards",
    ),
    (
        &[(PICKING, "pub fn greater_side", "#[unsafe(no_mangle)]\npub fn zero() -> u8 {\n    0\n}\n\n~")],
        "exported elsewhere",
    ),
    (&[(PICKING, "-> Result<GreaterSide, Error>\n", "~    requires { 1 ≡ 2 }\n")], "greater_side asks something of its callers"),
    (&[(TURN, "(result ≡ code_of (turned ", "(0 ≡ code_of (turned ")], "ackbo_turn does not say what its result is"),
    (&[(TURN, "× (jobs.new ≡", "× (jobs.old ≡")], "ackbo_turn does not say what jobs is afterwards"),
];

/// Statements without a proof, and proofs of something else.
const UNPROVED: [(&[Edit], &str); 6] = [
    (&[(THEOREMS, THEOREM, "")], "FullScore is neither proved nor part of what is"),
    (&[(THEOREMS, ": FullScore", ": ⊥ → FullScore")], "FullScore is neither proved"),
    (&[(THEOREMS, THEOREM, "module _ (e : ⊥) where\n  pub full-scores : FullScore\n")], "FullScore is neither proved"),
    (&[(THEOREMS, ", FullScore}", ", ScoreNearest as FullScore}")], "FullScore is neither proved"),
    (&[("docs/GUIDE.md", "`FullScore`", "~, `ScoreRoundedTwice`")], "ScoreRoundedTwice is not proved"),
    (&[("crates/picking/proofs/PickLaws.antt", "use ", "-- Renders: 02, order 1.\n~")], "says what it renders"),
];

fn faults(tree: &Tree) -> Vec<String> {
    let checks =
        [contracts::faults, definitions::faults, definitions::rendering, statements::faults, statements::claims];
    checks.iter().flat_map(|check| check(tree)).collect()
}

fn attacked(edits: &[Edit]) -> Tree {
    let mut tree = Tree::of_the_repository();
    for (file, old, new) in edits {
        let text = tree.0.entry(file.to_string()).or_default();
        assert!(text.contains(old) && old.is_empty() == text.is_empty(), "{file}: no {old}");
        *text = if old.is_empty() { new.to_string() } else { text.replacen(old, &new.replace('~', old), 1) };
    }
    tree
}

#[test]
fn attacks_are_refused() {
    let attacks = [&UNLISTED[..], &RENAMED[..], &UNBOUND[..], &UNPROVED[..]].concat();
    for (edits, fault) in attacks {
        let found = faults(&attacked(edits));
        assert!(found.iter().any(|other| other.contains(fault)), "{fault}: {found:?}");
    }
}

/// A contract of which any clause is struck is refused.
#[test]
fn struck_clauses_are_noticed() {
    let tree = Tree::of_the_repository();
    for (file, function) in believed(&tree) {
        for struck in 0..function.clauses.len() {
            let mut less = tree.clone();
            let text = less.0.get_mut(&file).unwrap();
            let starts = [format!("fn {}(", function.name), format!("fn {}<", function.name)];
            let start = starts.iter().find_map(|start| text.find(start)).unwrap();
            let clause = start + text[start..].match_indices("    ensures ").nth(struck).unwrap().0;
            let open = clause + text[clause..].find('{').unwrap();
            let end = open + closing(&text[open..]) + "}\n".len();
            text.replace_range(clause..end, "");
            let found = contracts::faults(&less);
            assert!(!found.is_empty(), "{file}: clause {struck} of {} may be struck", function.name);
        }
    }
}
