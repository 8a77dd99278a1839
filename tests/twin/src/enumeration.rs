//! The small expressions: how many variable-free terms of so many nodes there are, and a list of them. Terms are built
//! from their arguments, size by size, and sorted at the end.

use crate::error::{Error, NO_ROOM_FOR_TERMS, SIZE_OUT_OF_RANGE};
use crate::format::System;
use crate::table::Table;

/// The most nodes.
pub const MAX_SIZE: usize = 7;
/// The most terms that are counted.
pub const MAX_TERMS: u64 = 65_535;

/// 02, order 12: how many variable-free terms of n nodes there are under a packed rule file; none for "more".
pub fn count(book: &[u8], n: usize) -> Result<Option<usize>, Error> {
    let system = System::from_packed(book)?;
    let number = checked_number(&system.table, n)?;
    Ok((number <= MAX_TERMS).then_some(number as usize))
}

/// 02, order 12: writes them one after another, and gives the count of words.
pub fn list(book: &[u8], words: &mut [u16], n: usize) -> Result<usize, Error> {
    let system = System::from_packed(book)?;
    let number = checked_number(&system.table, n)?;
    if number > MAX_TERMS {
        return Err(Error::output(NO_ROOM_FOR_TERMS));
    }
    let listed = words.get_mut(..n * number as usize).ok_or(Error::output(NO_ROOM_FOR_TERMS))?;
    let mut terms = terms_by_size(&system.table, n).pop().expect("a size is at least 1");
    terms.sort();
    listed.copy_from_slice(&terms.concat());
    Ok(listed.len())
}

/// The number of terms, if n is a size.
fn checked_number(table: &Table, n: usize) -> Result<u64, Error> {
    if !(1..=MAX_SIZE).contains(&n) {
        return Err(Error { code: SIZE_OUT_OF_RANGE, input: 0, offset: 0 });
    }
    let mut numbers = vec![0];
    for size in 1..=n {
        let of_symbol = |arity: u8| rows_number(&numbers, size - 1, arity);
        numbers.push(table.symbols().iter().map(|symbol| of_symbol(symbol.arity)).sum());
    }
    Ok(numbers[n])
}

/// How many rows of so many terms have so many nodes, by the numbers of smaller terms: at most 255^7 times as many as
/// there are ways to cut 7 nodes into terms.
fn rows_number(numbers: &[u64], nodes: usize, terms: u8) -> u64 {
    if terms == 0 {
        return (nodes == 0).into();
    }
    (1..=nodes).map(|first| numbers[first] * rows_number(numbers, nodes - first, terms - 1)).sum()
}

/// The terms of each size up to n, where those of n nodes are few; smaller ones that no such term has are left out.
fn terms_by_size(table: &Table, n: usize) -> Vec<Vec<Vec<u16>>> {
    let mut terms: Vec<Vec<Vec<u16>>> = vec![Vec::new()];
    for size in 1..=n {
        let mut found = Vec::new();
        for (number, symbol) in table.symbols().iter().enumerate() {
            if size < n && !is_useful(table, n, size) {
                continue;
            }
            for arguments in rows(&terms, size - 1, symbol.arity) {
                found.push([vec![number as u16], arguments].concat());
            }
        }
        terms.push(found);
    }
    terms
}

/// Whether a term of that size may be a part of one of n nodes: some symbol and some constant fill the rest.
fn is_useful(table: &Table, n: usize, size: usize) -> bool {
    let has_constant = table.symbols().iter().any(|symbol| symbol.arity == 0);
    has_constant && table.symbols().iter().any(|symbol| (1..=n - size).contains(&symbol.arity.into()))
}

/// The rows of so many terms that have so many nodes.
fn rows(terms: &[Vec<Vec<u16>>], nodes: usize, count: u8) -> Vec<Vec<u16>> {
    if count == 0 {
        return if nodes == 0 { vec![Vec::new()] } else { Vec::new() };
    }
    let mut found = Vec::new();
    for first in 1..=nodes {
        let rest = rows(terms, nodes - first, count - 1);
        for term in &terms[first] {
            found.extend(rest.iter().map(|rest| [term.as_slice(), rest].concat()));
        }
    }
    found
}
