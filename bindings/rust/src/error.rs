//! Refusals, as errors.

use core::fmt;

/// A refusal: its number, 1 to 19 or 22 to 25, the input at fault, 0 the first, and the place in it: a bit of a book, a
/// word of a sheet or of a term, a desk.
#[derive(Clone, Copy, Debug, PartialEq, Eq, Hash)]
pub struct Error {
    /// The number of the refusal; [`Error::refusal`] has its name and its words.
    pub code: u8,
    /// The input at fault, 0 the first that the operation takes.
    pub input: u8,
    /// The place in that input, from 0.
    pub offset: usize,
}

impl fmt::Display for Error {
    fn fmt(&self, formatter: &mut fmt::Formatter) -> fmt::Result {
        write!(formatter, "refusal {} of input {} at {}", self.code, self.input, self.offset)?;
        self.refusal().map_or(Ok(()), |refusal| write!(formatter, ": {refusal}"))
    }
}

impl core::error::Error for Error {}

/// The three numbers of an acceptance, or the refusal that they describe.
pub(crate) fn call(operation: impl FnOnce(*mut [i64; 3]) -> u8) -> Result<[i64; 3], Error> {
    let mut reply = [0; 3];
    match operation(&mut reply) {
        0 => Ok(reply),
        code => Err(Error { code, input: reply[0] as u8, offset: reply[1] as usize }),
    }
}
