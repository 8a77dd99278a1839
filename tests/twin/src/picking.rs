//! Picking the greater of two terms, each at the front of its words.

use crate::error::Error;
use crate::format::System;
use crate::order::{Comparer, Relation};
use crate::reading::first_term;

/// The reply of `pick`: the side that is greater, with the count of words of its term, or why neither is.
#[derive(Clone, Copy, Debug, PartialEq, Eq)]
pub enum Pick {
    Left(usize),
    Right(usize),
    Equivalent,
    Unrelated,
}

/// 02, order 1: picks the greater of two terms under a packed rule file. Words may follow each term.
pub fn pick(book: &[u8], left: &[u16], right: &[u16]) -> Result<Pick, Error> {
    let system = System::from_packed(book)?;
    let left = first_term(&system.table, left, 1)?;
    let right = first_term(&system.table, right, 2)?;
    Ok(match Comparer::new(&system.table).compare(left, right).relation {
        Relation::Greater => Pick::Left(left.len()),
        Relation::Less => Pick::Right(right.len()),
        Relation::Equivalent => Pick::Equivalent,
        Relation::Unrelated => Pick::Unrelated,
    })
}
