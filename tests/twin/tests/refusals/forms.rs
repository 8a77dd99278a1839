//! Errors 17 and 18, and those of the converter.

use twin::{mark, Error};

use crate::packing::{book, header, node, pack, symbol, variable, SHEET};
use crate::{old, refuse_old, refuse_packed, refuse_words, sheet, RULES_AT};

#[test]
fn error_17_of_a_book_of_form_1_comes_before_the_other_fields() {
    refuse_packed(&[0x10], 17, 0);
    refuse_packed(&[0x1f; 5], 17, 0);
    refuse_packed(&old(&book(1, &[variable(0), variable(0)].concat())), 17, 0);
    refuse_packed(&old(&book(1, &variable(9))), 17, 0);
    refuse_packed(&vec![0x10; 32_768], 17, 0);
    refuse_packed(&vec![0x10; 32_769], 1, 0);
}

#[test]
fn the_converter_refuses_every_form_but_1() {
    for form in (0..16).filter(|&form| form != 1) {
        refuse_old(&[form << 4], 3, 0);
        refuse_old(&pack(&[vec![(form.into(), 4)], header(1, 1, 0)[1..].to_vec(), symbol(0, 0, 1, 0)].concat()), 3, 0);
    }
    refuse_old(&book(1, &[variable(0), variable(0)].concat()), 3, 0);
    refuse_old(&vec![0x20; 32_769], 1, 0);
}

#[test]
fn error_18_is_at_the_number_or_the_word() {
    let refuse = |nodes: &[Vec<(u32, usize)>], words: &[u16], bit: usize, word: usize| {
        refuse_packed(&book(1, &nodes.concat()), 18, RULES_AT + bit);
        refuse_words(&sheet(words), 18, SHEET.len() + word);
    };
    refuse(&[variable(1)], &[257], 1, 0);
    refuse(&[node(1), variable(15), node(0)], &[1, 271, 0], 10, 1);
    refuse(&[variable(0), variable(2)], &[256, 258], 6, 1);
    refuse(&[node(0), node(1), variable(1)], &[0, 1, 257], 19, 2);
    // Faults after it are not looked at; those before it, and the width, go first.
    refuse(&[variable(3), node(99)], &[259, 99], 1, 0);
    refuse(&[variable(0), variable(2), vec![(1, 1)]], &[256, 258, 999], 6, 1);
    refuse_packed(&book(1, &[node(1), node(99), variable(5)].concat()), 9, RULES_AT + 10);
    refuse_packed(&book(1, &[node(1).repeat(128), variable(5)].concat()), 10, RULES_AT + 128 * 9);
    refuse_packed(&book(1, &variable(15))[..12], 2, RULES_AT + 1);
    refuse_words(&sheet(&[99, 257]), 9, 12);
    refuse_words(&sheet(&[272]), 14, 12);
    refuse_words(&sheet(&[256, 273]), 14, 13);
    // Each rule starts anew.
    let second = [variable(0), variable(1), variable(1), variable(0)].concat();
    refuse_packed(&book(2, &second), 18, RULES_AT + 11);
    refuse_words(&[&[2, 2, 1, 2], &SHEET[4..], &[256, 257, 257, 256]].concat(), 18, 14);
}

#[test]
fn a_variable_is_in_turn_up_to_the_count_of_those_before_it() {
    let symbols = [header(2, 1, 1), symbol(2, 1, 0, 1), symbol(0, 0, 1, 0)].concat();
    let sum = |leaves: usize| vec![node(0); leaves - 1].concat();
    for (met, number) in (0..=16).flat_map(|met| (0..16).map(move |number| (met, number))) {
        // The variables met stand on the left side, or on the right one, or on both; then comes the number.
        for left in 0..=met {
            let lefts = [sum(left as usize + 1), (0..left).flat_map(variable).collect(), node(1)].concat();
            let rights = [sum((met - left) as usize + 1), (left..met).flat_map(variable).collect()].concat();
            let before = [symbols.clone(), lefts, rights].concat();
            let error = Error { code: 18, input: 0, offset: bits(&before) + 1 };
            let packed = pack(&[before, variable(number)].concat());
            let expected = if number <= met { Ok(()) } else { Err(error) };
            assert_eq!(mark(&packed, &mut [0]).map(drop), expected, "{number} after {met}, {left} of them on the left");
        }
    }
}

fn bits(fields: &[(u32, usize)]) -> usize {
    fields.iter().map(|(_, width)| width).sum()
}
