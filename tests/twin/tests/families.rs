//! The families of terms have the sizes, relations and marks that their names say.

use twin::generate::families;
use twin::{compare, mark, Relation};

/// The counts of nodes that are measured.
const SIZES: [usize; 4] = [16, 32, 64, 128];

/// The relation that the part of a name after the shape stands for.
fn relation(name: &str) -> Relation {
    match name.split_once('/').map_or(name, |(_, kind)| kind) {
        "equal" => Relation::Equivalent,
        "nearly" | "first" | "end" | "top" => Relation::Less,
        "mark-10" => Relation::Unrelated,
        _ => Relation::Greater,
    }
}

#[test]
fn families_have_their_relation_at_equal_weights() {
    for family in families() {
        for nodes in SIZES {
            let (left, right) = family.pair(nodes);
            let comparison = compare(&family.book(), &left, &right).expect("the pair is read");
            assert_eq!(comparison.relation, relation(&family.name), "{} {nodes}", family.name);
            assert_eq!(comparison.margin, 0, "{} {nodes}", family.name);
        }
    }
}

#[test]
fn families_nearly_fill_their_sizes() {
    for family in families() {
        for nodes in SIZES {
            let (left, right) = family.pair(nodes);
            assert!(left.len().max(right.len()) <= nodes, "{} {nodes}", family.name);
            assert!(left.len().max(right.len()) * 3 >= nodes * 2, "{} {nodes}: {}", family.name, left.len());
        }
    }
}

#[test]
fn families_named_after_a_mark_have_it() {
    let mut named = 0;
    for family in families() {
        let Some(number) = family.name.strip_prefix("mark-") else { continue };
        for nodes in SIZES {
            let mut marks = [0];
            mark(&family.rule_book(nodes), &mut marks).expect("the rule is read");
            assert_eq!(marks[0].to_string(), number, "{nodes}");
        }
        named += 1;
    }
    assert_eq!(named, 5);
}

#[test]
fn family_names_differ() {
    let mut names: Vec<String> = families().into_iter().map(|family| family.name).collect();
    let count = names.len();
    names.sort();
    names.dedup();
    assert_eq!(names.len(), count);
}
