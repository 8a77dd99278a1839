//! Fingerprints of terms, 32 bits each, which AC-equivalent terms share.

use std::slice::Iter;

use crate::error::Error;
use crate::format::System;
use crate::reading::check_term;
use crate::table::Table;

/// What a value is multiplied by before an argument of a symbol that is not AC is added.
const ARGUMENT_FACTOR: u32 = 31;
/// What one more than the number of an AC symbol is multiplied by.
const AC_FACTOR: u32 = 65_599;

/// 02, order 2: the fingerprint of a term under a packed rule file.
pub fn fingerprint(book: &[u8], term: &[u16]) -> Result<u32, Error> {
    let system = System::from_packed(book)?;
    check_term(&system.table, term, 1)?;
    Ok(of_term(&system.table, term[0], &mut term[1..].iter()))
}

/// The fingerprint of the term of a root, whose other nodes come next. A leaf is a symbol without arguments.
fn of_term(table: &Table, root: u16, rest: &mut Iter<u16>) -> u32 {
    let start = u32::from(root) + 1;
    if table.is_ac(root) {
        return AC_FACTOR.wrapping_mul(start).wrapping_add(of_flattening(table, root, rest));
    }
    (0..table.arity(root)).fold(start, |value, _| {
        let argument = of_term(table, next(rest), rest);
        value.wrapping_mul(ARGUMENT_FACTOR).wrapping_add(argument)
    })
}

/// The sum over the top-flattening of a term whose root, an AC symbol, has been taken.
fn of_flattening(table: &Table, ac_symbol: u16, rest: &mut Iter<u16>) -> u32 {
    let mut sum = 0_u32;
    let mut called_for = 2;
    while called_for > 0 {
        let node = next(rest);
        if node == ac_symbol {
            called_for += 1;
        } else {
            sum = sum.wrapping_add(of_term(table, node, rest));
            called_for -= 1;
        }
    }
    sum
}

fn next(rest: &mut Iter<u16>) -> u16 {
    *rest.next().expect("a term has all its nodes")
}
