//! Errors: the refusals of 01 and 02, with their numbers.

/// A refusal: its number, the input at fault (0 the first) and the offset there, in bits of a rule file or in
/// words.
#[derive(Clone, Copy, Debug, PartialEq, Eq)]
pub struct Error {
    pub code: u8,
    pub input: u8,
    pub offset: usize,
}

/// A rule file has more than 32,768 bytes.
pub const FILE_TOO_LONG: u8 = 1;
/// A field does not fit, or its word is missing.
pub const MISSING: u8 = 2;
/// The form is none that there is, or in converting not 1.
pub const FORM: u8 = 3;
/// There is no symbol.
pub const NO_SYMBOL: u8 = 4;
/// A variable weighs 0.
pub const NO_WEIGHT: u8 = 5;
/// An AC symbol has an arity other than 2.
pub const AC_ARITY: u8 = 6;
/// A constant weighs less than a variable, or a symbol of arity 1 weighs 0 and is not ranked above every other, or is
/// one of form 1.
pub const INADMISSIBLE: u8 = 7;
/// A rank is held by an earlier symbol.
pub const RANK_TAKEN: u8 = 8;
/// A symbol number is not below the count of symbols.
pub const UNKNOWN_SYMBOL: u8 = 9;
/// A side calls for a 129th node.
pub const TOO_MANY_NODES: u8 = 10;
/// A whole byte or a set bit follows the last rule.
pub const TRAILING_BITS: u8 = 11;
/// There are fewer mark bytes than rules.
pub const MARKS_TOO_SHORT: u8 = 12;
/// The words of a decoded file do not fit.
pub const WORDS_TOO_SHORT: u8 = 13;
/// A word is too wide for its field.
pub const TOO_WIDE: u8 = 14;
/// Words are left over.
pub const TRAILING_WORDS: u8 = 15;
/// The bytes of an encoded or a converted file do not fit.
pub const BYTES_TOO_SHORT: u8 = 16;
/// The form is 1, which converting alone reads.
pub const OLD_FORM: u8 = 17;
/// A variable's number is above the count of different variables before it in its rule.
pub const OUT_OF_TURN: u8 = 18;
/// A page has no room for a line for each rule.
pub const PAGE_TOO_SHORT: u8 = 19;
/// A count of nodes is not 1 to 7.
pub const SIZE_OUT_OF_RANGE: u8 = 22;
/// The terms are too many, or their words do not fit.
pub const NO_ROOM_FOR_TERMS: u8 = 23;
/// There are not 1 to 32 jobs, or the last served is none of them.
pub const NO_JOB: u8 = 24;
/// A job's book lies outside the buffer, is refused, or has fewer rules than the job's count.
pub const BAD_JOB: u8 = 25;

impl Error {
    /// The error of an output, the second input of its operation, that is too short.
    pub(crate) fn output(code: u8) -> Self {
        Error { code, input: 1, offset: 0 }
    }
}
