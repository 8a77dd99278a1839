//! Properties of the order on random terms, and agreement with a slow rendering of 01.

mod oracle;

use twin::format::System;
use twin::generate::{followed, Book, Random, Signature, Tree};
use twin::order::{Comparer, Orientation, Relation};
use twin::table::{Table, MAX_NODES};
use twin::{fingerprint, oftener, pick, Pick};

const SEED: u64 = 20_150_312;
const CASES: usize = 20_000;
/// The cases for each signature drawn.
const CASES_EACH: usize = 25;
/// The nodes that a random term starts from.
const SIZE: usize = 7;
/// The variables of generated terms.
const VARIABLES: usize = 16;

fn table(signature: &Signature) -> Table {
    System::from_packed(&Book::empty(signature.clone()).packed()).expect("the signature is admissible").table
}

/// Runs a test on many signatures, `CASES` times in all.
fn for_all(ground: bool, mut test: impl FnMut(&mut Random, &Signature, &mut Comparer)) {
    let mut random = Random::new(SEED);
    for _ in 0..CASES / CASES_EACH {
        let signature = if ground { Signature::complete(&mut random, false) } else { Signature::random(&mut random) };
        let table = table(&signature);
        let mut comparer = Comparer::new(&table);
        for _ in 0..CASES_EACH {
            test(&mut random, &signature, &mut comparer);
        }
    }
}

/// A pair aimed at a random mark, of no more nodes than a term may have.
fn pair(random: &mut Random, signature: &Signature) -> (Tree, Tree) {
    loop {
        let mark = random.between(1, 12) as u8;
        let (left, right) = signature.pair_in_context(random, mark, SIZE);
        if left.size().max(right.size()) <= MAX_NODES {
            return (left, right);
        }
    }
}

fn ground_terms(random: &mut Random, signature: &Signature) -> Vec<Tree> {
    (0..VARIABLES).map(|_| signature.tree(random, 3, 0)).collect()
}

/// A pair without variables.
fn ground_pair(random: &mut Random, signature: &Signature) -> (Tree, Tree) {
    loop {
        let (left, right) = pair(random, signature);
        let terms = ground_terms(random, signature);
        let (left, right) = (left.substitute(&terms), right.substitute(&terms));
        if left.size().max(right.size()) <= MAX_NODES {
            return (left, right);
        }
    }
}

/// How the left term stands to the right one, or nothing if one of them has too many nodes.
fn relation(comparer: &mut Comparer, left: &Tree, right: &Tree) -> Option<Relation> {
    let fits = left.size().max(right.size()) <= MAX_NODES;
    fits.then(|| comparer.compare(&left.words(), &right.words()).relation)
}

fn opposite(relation: Relation) -> Relation {
    match relation {
        Relation::Greater => Relation::Less,
        Relation::Less => Relation::Greater,
        other => other,
    }
}

#[test]
fn marks_and_margins_agree_with_the_slow_order() {
    let mut counts = [0; 12];
    for_all(false, |random, signature, comparer| {
        let (left, right) = pair(random, signature);
        let (orientation, margin) = comparer.orient(&left.words(), &right.words());
        assert_eq!(orientation as u8, oracle::mark(signature, &left, &right), "{signature:?} {left:?} {right:?}");
        assert_eq!(margin, oracle::weight(signature, &left) - oracle::weight(signature, &right));
        counts[orientation as usize] += 1;
    });
    assert!(counts[1..].iter().all(|&count| count > CASES / 100), "{counts:?}");
}

#[test]
fn picks_agree_with_the_slow_order() {
    let mut picked = [0; 2];
    for_all(false, |random, signature, _| {
        let (left, right) = pair(random, signature);
        let expected = match (oracle::mark(signature, &left, &right), oracle::mark(signature, &right, &left)) {
            (1..=6 | 11, _) => Pick::Left(left.size()),
            (_, 1..=6 | 11) => Pick::Right(right.size()),
            (9, _) => Pick::Equivalent,
            _ => Pick::Unrelated,
        };
        let book = Book::empty(signature.clone()).packed();
        let (s, t) = (left.words(), right.words());
        assert_eq!(pick(&book, &s, &t), Ok(expected), "{signature:?} {left:?} {right:?}");
        assert_eq!(pick(&book, &followed(random, &s), &followed(random, &t)), Ok(expected), "words after a term");
        picked[0] += usize::from(matches!(expected, Pick::Left(_)));
        picked[1] += usize::from(matches!(expected, Pick::Right(_)));
    });
    assert!(picked.iter().all(|&count| count > CASES / 20), "{picked:?}");
}

#[test]
fn fingerprints_agree_with_the_slow_ones_and_equivalent_terms_share_them() {
    let mut shared = 0;
    for_all(false, |random, signature, _| {
        let book = Book::empty(signature.clone()).packed();
        let (left, right) = pair(random, signature);
        let variant = signature.variant(random, &left);
        let [left_value, right_value, variant_value] = [&left, &right, &variant].map(|term| {
            let value = fingerprint(&book, &term.words()).expect("the term is read");
            assert_eq!(value, oracle::fingerprint(signature, term), "{signature:?} {term:?}");
            value
        });
        assert_eq!(left_value, variant_value, "{signature:?} {left:?} {variant:?}");
        let equal = oracle::canonical(signature, &left) == oracle::canonical(signature, &right);
        assert!(!equal || left_value == right_value, "{signature:?} {left:?} {right:?}");
        shared += usize::from(left_value == right_value && !equal);
    });
    // Few terms that are not AC-equivalent share a fingerprint.
    assert!(shared < CASES / 10, "{shared}");
}

#[test]
fn the_oftener_variable_agrees_with_the_slow_one_and_with_mark_7() {
    let mut counts = [0; VARIABLES + 1];
    for_all(false, |random, signature, comparer| {
        let aim = random.between(0, VARIABLES);
        let size = random.between(1, 2 * SIZE);
        let (left, right) =
            if random.one_in(4) { pair(random, signature) } else { signature.oftener_pair(random, aim, size) };
        let variable = oftener(&Book::empty(signature.clone()).packed(), &left.words(), &right.words());
        assert_eq!(variable, Ok(oracle::oftener(&left, &right)), "{signature:?} {left:?} {right:?}");
        let variable = variable.expect("the terms are read");
        let (orientation, _) = comparer.orient(&left.words(), &right.words());
        assert_eq!(variable < VARIABLES, orientation == Orientation::Variables, "{signature:?} {left:?} {right:?}");
        counts[variable] += 1;
    });
    assert!(counts.iter().all(|&count| count > CASES / 100), "{counts:?}");
}

#[test]
fn equivalence_agrees_with_canonical_forms() {
    for_all(false, |random, signature, comparer| {
        let (left, right) = pair(random, signature);
        let equal = oracle::canonical(signature, &left) == oracle::canonical(signature, &right);
        assert_eq!(relation(comparer, &left, &right) == Some(Relation::Equivalent), equal);
    });
}

#[test]
fn no_term_is_greater_than_an_equivalent_one() {
    for_all(false, |random, signature, comparer| {
        let (left, _) = pair(random, signature);
        let variant = signature.variant(random, &left);
        assert_eq!(relation(comparer, &left, &left), Some(Relation::Equivalent));
        assert_eq!(relation(comparer, &left, &variant), Some(Relation::Equivalent));
    });
}

#[test]
fn less_is_greater_the_other_way() {
    for_all(false, |random, signature, comparer| {
        let (left, right) = pair(random, signature);
        let there = relation(comparer, &left, &right).map(opposite);
        assert_eq!(relation(comparer, &right, &left), there);
    });
}

#[test]
fn equivalent_sides_give_the_same_mark() {
    for_all(false, |random, signature, comparer| {
        let (left, right) = pair(random, signature);
        let (left_variant, right_variant) = (signature.variant(random, &left), signature.variant(random, &right));
        let expected = comparer.orient(&left.words(), &right.words());
        assert_eq!(comparer.orient(&left_variant.words(), &right_variant.words()), expected);
    });
}

#[test]
fn the_order_is_transitive_and_respects_equivalence() {
    for_all(false, |random, signature, comparer| {
        let (left, right) = pair(random, signature);
        let mut family = vec![signature.lowered(random, &left), signature.lowered(random, &right)];
        family.push(signature.variant(random, &left));
        family.extend([signature.tree(random, SIZE, 2), left, right]);
        let words: Vec<Vec<u16>> = family.iter().map(Tree::words).collect();
        let relations: Vec<Vec<Relation>> =
            words.iter().map(|s| words.iter().map(|t| comparer.compare(s, t).relation).collect()).collect();
        let at_least = |s: usize, t: usize| matches!(relations[s][t], Relation::Greater | Relation::Equivalent);
        let members = 0..family.len();
        for (s, t) in
            members.clone().flat_map(|s| members.clone().map(move |t| (s, t))).filter(|&(s, t)| at_least(s, t))
        {
            for u in members.clone().filter(|&u| at_least(t, u)) {
                let strict = relations[s][t] == Relation::Greater || relations[t][u] == Relation::Greater;
                let expected = if strict { Relation::Greater } else { Relation::Equivalent };
                assert_eq!(relations[s][u], expected, "{:?}", [&family[s], &family[t], &family[u]]);
            }
        }
    });
}

#[test]
fn the_order_is_total_on_ground_terms() {
    for_all(true, |random, signature, comparer| {
        let (left, right) = ground_pair(random, signature);
        assert_ne!(relation(comparer, &left, &right), Some(Relation::Unrelated), "{signature:?} {left:?} {right:?}");
    });
}

#[test]
fn the_order_is_kept_by_contexts() {
    for_all(true, |random, signature, comparer| {
        let (left, right) = ground_pair(random, signature);
        // A ground context with its hole at one occurrence of variable 0.
        let mut words = signature.tree(random, SIZE, 0).words();
        let leaves = signature.numbers(|symbol| symbol.arity == 0);
        let holes: Vec<usize> =
            (0..words.len()).filter(|&place| leaves.iter().any(|&leaf| words[place] == u16::from(leaf))).collect();
        words[*random.choose(&holes).expect("a ground term has a constant")] = 256;
        let context = Tree::from_words(&signature.symbols, &words);
        let [left_filled, right_filled] = [&left, &right].map(|term| context.substitute(std::slice::from_ref(term)));
        if let Some(filled) = relation(comparer, &left_filled, &right_filled) {
            assert_eq!(Some(filled), relation(comparer, &left, &right), "{signature:?} {context:?} {left:?} {right:?}");
        }
    });
}

#[test]
fn the_order_is_kept_by_substitutions() {
    for_all(true, |random, signature, comparer| {
        let (left, right) = pair(random, signature);
        let terms = ground_terms(random, signature);
        let before = relation(comparer, &left, &right);
        let after = relation(comparer, &left.substitute(&terms), &right.substitute(&terms));
        if before != Some(Relation::Unrelated) && after.is_some() {
            assert_eq!(after, before, "{signature:?} {left:?} {right:?} {terms:?}");
        }
    });
}

#[test]
fn a_term_is_greater_than_its_arguments() {
    for_all(false, |random, signature, comparer| {
        let (term, _) = pair(random, signature);
        if let Tree::Application(_, arguments) = &term {
            for argument in arguments {
                assert_eq!(relation(comparer, &term, argument), Some(Relation::Greater));
            }
        }
    });
}

/// Two AC symbols in turn around a constant, 63 deep; the constants at the ends are parameters.
fn nested(innermost: u8, outer: [u8; 2], last_first: bool) -> Tree {
    (0..63).fold(Tree::Application(innermost, Vec::new()), |inner, depth| {
        let constant = Tree::Application(outer[depth % 2], Vec::new());
        let arguments = if last_first { vec![constant, inner] } else { vec![inner, constant] };
        Tree::Application(2 + (depth % 2) as u8, arguments)
    })
}

#[test]
fn deeply_nested_ac_terms_are_compared() {
    let symbol = |arity, rank| twin::table::Symbol { arity, ac: arity == 2, weight: 1, rank };
    for ranks in [[0, 1, 2, 3], [0, 1, 3, 2], [2, 3, 0, 1], [2, 3, 1, 0], [0, 3, 1, 2]] {
        let [o, z, plus, times] = ranks;
        let symbols = vec![symbol(0, o), symbol(0, z), symbol(2, plus), symbol(2, times)];
        let table = table(&Signature { w0: 1, symbols });
        let mut comparer = Comparer::new(&table);
        for outer in [[0, 0], [1, 1], [0, 1]] {
            let [high, low] = [1, 0].map(|innermost| nested(innermost, outer, false));
            assert_eq!(relation(&mut comparer, &high, &low), Some(Relation::Greater));
            assert_eq!(relation(&mut comparer, &low, &high), Some(Relation::Less));
            assert_eq!(relation(&mut comparer, &high, &nested(1, outer, true)), Some(Relation::Equivalent));
        }
    }
}
