//! Damage to rule files, to their words and to terms, aimed at each error of reading.

use super::{pack, Book, Field, Random, Role};
use crate::error::*;
use crate::table::{is_variable, FIRST_VARIABLE, MAX_NODES};

/// The bytes of the longest rule file.
const MAX_BYTES: usize = 32_768;
/// The greatest node word.
const LAST_VARIABLE: u16 = 271;
/// The greatest symbol number.
const LAST_SYMBOL: u16 = 255;

/// A packed rule file with up to three faults, at times with none.
pub fn damaged_packed(random: &mut Random, book: &Book) -> Vec<u8> {
    let mut bytes = pack(&damaged_fields(random, book));
    if random.one_in(2) {
        break_bytes(random, &mut bytes);
    }
    bytes
}

/// The words of a rule file with up to three faults, at times with none.
pub fn damaged_words(random: &mut Random, book: &Book) -> Vec<u16> {
    let mut words: Vec<u16> = damaged_fields(random, book).iter().map(|field| field.word).collect();
    if random.one_in(2) {
        break_words(random, &mut words);
    }
    words
}

fn damaged_fields(random: &mut Random, book: &Book) -> Vec<Field> {
    let mut fields = book.fields();
    for _ in 0..random.below(3) {
        break_field(random, &mut fields);
    }
    fields
}

/// The words of a term with one or two faults.
pub fn damaged_term(random: &mut Random, book: &Book, term: &[u16]) -> Vec<u16> {
    let mut words = term.to_vec();
    for _ in 0..random.between(1, 2) {
        match random.below(4) {
            0 => words.splice(0..0, grown(random, book)).for_each(drop),
            1 if !words.is_empty() => {
                let at = random.below(words.len());
                words[at] = random.between(book.signature.symbols.len(), LAST_SYMBOL.into()) as u16;
            }
            _ => break_words(random, &mut words),
        }
    }
    words
}

/// The words of a term and some after it: of one value that nodes have or lack, or of any values.
pub fn followed(random: &mut Random, term: &[u16]) -> Vec<u16> {
    let count = if random.one_in(8) { MAX_NODES } else { random.between(1, 4) };
    let any = |random: &mut Random| random.bits() as u16;
    let drawn = [0, FIRST_VARIABLE, LAST_VARIABLE, LAST_VARIABLE + 1, u16::MAX, any(random)];
    let after: Vec<u16> = match random.choose(&drawn) {
        Some(&word) if random.one_in(2) => vec![word; count],
        _ => (0..count).map(|_| any(random)).collect(),
    };
    [term, &after].concat()
}

/// Nodes of one symbol that calls for arguments, at times more than a term may have.
fn grown(random: &mut Random, book: &Book) -> Vec<u16> {
    let inner = book.signature.numbers(|symbol| symbol.arity > 0);
    match random.choose(&inner) {
        Some(&symbol) => vec![symbol.into(); random.between(1, MAX_NODES + 2)],
        None => Vec::new(),
    }
}

/// Breaks one field, aimed at an error from 3 to 10, at 17 or at 18.
pub fn break_field(random: &mut Random, fields: &mut Vec<Field>) {
    let aims: Vec<u8> = (FORM..=TOO_MANY_NODES).chain([OLD_FORM, OUT_OF_TURN]).collect();
    match aims[random.below(aims.len())] {
        FORM => fields[0].word = [0, 3, 4, 9, 15][random.below(5)],
        // The other one of the two forms.
        OLD_FORM => fields[0].word = 3 - fields[0].word.clamp(1, 2),
        OUT_OF_TURN => set(random, fields, Field::is_variable, |random, _| any_variable(random)),
        NO_SYMBOL => fields[1].word = 0,
        NO_WEIGHT => fields[2].word = 0,
        AC_ARITY => set(random, fields, of(Role::Ac), |_, _| 1),
        INADMISSIBLE if random.one_in(2) => lighten_unary(random, fields),
        INADMISSIBLE => {
            let less = if random.one_in(4) { u16::MAX } else { 1 };
            set(random, fields, of(Role::Weight), |_, word| word.saturating_sub(less));
        }
        RANK_TAKEN => {
            let first = fields.iter().find(|field| field.role == Role::Rank).map_or(0, |field| field.word);
            set(random, fields, of(Role::Rank), |_, _| first);
        }
        UNKNOWN_SYMBOL => {
            let count = usize::from(fields[1].word).min(LAST_SYMBOL.into());
            set(random, fields, of(Role::Node), |random, _| random.between(count, LAST_SYMBOL.into()) as u16);
        }
        _ => grow_side(random, fields),
    }
}

/// Lets one or two symbols of arity 1 weigh 0, whatever their ranks.
fn lighten_unary(random: &mut Random, fields: &mut [Field]) {
    let unary = |index: &usize| fields[*index].role == Role::Arity && fields[*index].word == 1;
    let arities: Vec<usize> = (0..fields.len()).filter(unary).collect();
    for _ in 0..random.between(1, 2) {
        if let Some(&arity) = random.choose(&arities) {
            fields[arity + 2].word = 0;
        }
    }
}

fn of(role: Role) -> impl Fn(&Field) -> bool {
    move |field| field.role == role
}

fn any_variable(random: &mut Random) -> u16 {
    random.between(FIRST_VARIABLE.into(), LAST_VARIABLE.into()) as u16
}

/// Replaces the word of one of the fields that satisfy a test, if there is one.
fn set(
    random: &mut Random,
    fields: &mut [Field],
    test: impl Fn(&Field) -> bool,
    word: impl Fn(&mut Random, u16) -> u16,
) {
    let places: Vec<usize> = (0..fields.len()).filter(|&index| test(&fields[index])).collect();
    if let Some(&place) = random.choose(&places) {
        fields[place].word = word(random, fields[place].word);
    }
}

/// Puts nodes of one inner symbol of the file before a root.
fn grow_side(random: &mut Random, fields: &mut Vec<Field>) {
    let of_role =
        |role: Role| -> Vec<usize> { (0..fields.len()).filter(|&index| fields[index].role == role).collect() };
    let (roots, arities) = (of_role(Role::Root), of_role(Role::Arity));
    let inner: Vec<usize> = (0..arities.len()).filter(|&number| fields[arities[number]].word > 0).collect();
    if let (Some(&root), Some(&symbol)) = (random.choose(&roots), random.choose(&inner)) {
        let nodes = vec![Field { role: Role::Node, word: symbol as u16 }; random.between(1, MAX_NODES + 2)];
        fields.splice(root..root, nodes);
    }
}

/// Flips a bit, cuts the end off, adds bytes, sets a bit of the last byte, or makes the file longer than any.
fn break_bytes(random: &mut Random, bytes: &mut Vec<u8>) {
    if bytes.is_empty() {
        return;
    }
    match random.below(9) {
        0 | 1 => {
            let at = random.below(bytes.len());
            bytes[at] ^= 1 << random.below(8);
        }
        2..=4 => bytes.truncate(random.below(bytes.len())),
        5 => bytes.truncate(bytes.len() - 1),
        6 => bytes.extend(std::iter::repeat_n(random.below(2) as u8, random.between(1, 3))),
        7 => *bytes.last_mut().expect("there is a byte") |= 1 << random.below(4),
        _ => bytes.resize(MAX_BYTES + random.between(1, 2), 0),
    }
}

/// Cuts the end off, adds words, or sets a word too wide, to another variable or to any word.
fn break_words(random: &mut Random, words: &mut Vec<u16>) {
    if words.is_empty() {
        return;
    }
    let at = random.below(words.len());
    match random.below(6) {
        0 | 1 => words.truncate(at),
        2 => words.extend(std::iter::repeat_n(FIRST_VARIABLE, random.between(1, 3))),
        3 => words[at] = LAST_VARIABLE + 1 + random.below(3) as u16,
        4 => words[at] = random.bits() as u16,
        _ if is_variable(words[at]) => words[at] = LAST_VARIABLE,
        _ => words[at] |= 1 << random.below(16),
    }
}
