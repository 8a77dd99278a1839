//! The variable test: which variable occurs oftener on the right.

use crate::error::Error;
use crate::format::System;
use crate::reading::check_term;
use crate::term::occurrences;

/// 02, order 3: the lowest variable that occurs oftener in the right term than in the left one, or 16.
pub fn oftener(book: &[u8], left: &[u16], right: &[u16]) -> Result<usize, Error> {
    let system = System::from_packed(book)?;
    check_term(&system.table, left, 1)?;
    check_term(&system.table, right, 2)?;
    Ok(occurrences(left).first_oftener(&occurrences(right)))
}
