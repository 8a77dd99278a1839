//! The longest sheet: `MAX_WORDS` words open and close, and no more fit a book.

use ackbo::layout::{FIRST_VARIABLE, HEADER_WORDS, MAX_BYTES, MAX_RULES, MAX_SYMBOLS, MAX_WORDS, SYMBOL_WORDS};

const BITS: usize = 8 * MAX_BYTES;
const HEADER_BITS: usize = 38;
const SYMBOL_BITS: usize = 28;
const VARIABLE_BITS: usize = 5;
const NODE_BITS: usize = 9;
const MAX_ARITY: usize = 7;

/// The most words of a sheet with so many symbols and sides. A side that is a variable has one node; to put a symbol of
/// arity a with a variables in place of a variable adds a nodes. In `room` bits, `nodes[room]` are added at most.
fn most_words(symbols: usize, sides: usize, nodes: &[usize]) -> Option<usize> {
    let room = BITS.checked_sub(HEADER_BITS + SYMBOL_BITS * symbols + VARIABLE_BITS * sides)?;
    let added = if sides > 0 { nodes[room] } else { 0 };
    Some(HEADER_WORDS + SYMBOL_WORDS * symbols + sides + added)
}

/// For each count of bits, the most nodes that symbols of these arities add in them.
fn added_nodes(arities: &[usize]) -> Vec<usize> {
    let mut nodes = vec![0; BITS + 1];
    for room in 0..=BITS {
        for &arity in arities {
            let bits = NODE_BITS + VARIABLE_BITS * arity - VARIABLE_BITS;
            if room >= bits {
                nodes[room] = nodes[room].max(nodes[room - bits] + arity);
            }
        }
    }
    nodes
}

/// The most words of a sheet whose symbols have these arities, at least one symbol of each.
fn most_words_of(arities: &[usize]) -> Option<usize> {
    let nodes = added_nodes(arities);
    let sides = || (0..=MAX_RULES).map(|rules| 2 * rules);
    let counts = (arities.len()..=MAX_SYMBOLS).flat_map(|symbols| sides().map(move |sides| (symbols, sides)));
    counts.filter_map(|(symbols, sides)| most_words(symbols, sides, &nodes)).max()
}

#[test]
fn no_sheet_is_longer() {
    let arities = |set: u8| (1..=MAX_ARITY).filter(|arity| set >> arity & 1 == 1).collect::<Vec<_>>();
    let sets = (1..=u8::MAX).map(arities).filter(|set| !set.is_empty());
    assert_eq!(sets.filter_map(|set| most_words_of(&set)).max(), Some(MAX_WORDS));
}

#[test]
fn the_longest_opens_and_closes() {
    const RULES: usize = 1_021;
    let mut sheet = vec![2, 1, 1, RULES as u16, 7, 0, 0, 0];
    let mut owed = (MAX_WORDS - sheet.len() - 2 * RULES) / MAX_ARITY;
    for _ in 0..2 * RULES {
        let symbols = owed.min(18);
        owed -= symbols;
        sheet.extend(vec![0; symbols]);
        sheet.extend(vec![FIRST_VARIABLE; 1 + (MAX_ARITY - 1) * symbols]);
    }
    assert_eq!(sheet.len(), MAX_WORDS);
    let book = ackbo::encoded(&sheet).unwrap();
    assert_eq!(book.len(), MAX_BYTES);
    assert_eq!(ackbo::decoded(&book).unwrap(), sheet);
    assert_eq!(ackbo::decode(&book, &mut vec![0; MAX_WORDS - 1]).unwrap_err().code, 13);
}
