//! Marking the books of a class in turn.

use crate::error::call;
use crate::{sys, Error};

/// The most desks of a turn.
pub const MAX_DESKS: usize = 32;

/// The bytes of marks for a desk.
pub const DESK_MARKS: usize = 1023;

/// A desk: a book in a buffer, by its start and length there, and how many of its rules are marked.
#[derive(Clone, Copy, Debug, Default, PartialEq, Eq, Hash)]
#[repr(C)]
pub struct Desk {
    /// The byte of the buffer that the book begins at.
    pub start: usize,
    /// The count of the book's bytes.
    pub length: usize,
    /// How many of its rules are marked.
    pub marked: usize,
}

/// What a turn did.
#[derive(Clone, Copy, Debug, PartialEq, Eq, Hash)]
pub enum Turn {
    /// It marked a rule of the desk at that place.
    Served(usize),
    /// Nothing, since no desk has rules left.
    Idle,
}

/// A turn over 1 to [`MAX_DESKS`] desks, whose books lie in one buffer and may overlap: marks one rule, the one that
/// its count numbers, of the next desk after `last`, going round, that has rules left, adds one to that count, and
/// gives the place of that desk; idle where no desk has rules left, and nothing changes.
///
/// Rule r of desk d is marked at byte [`DESK_MARKS`] times d plus r. If each turn passes on the place that the one
/// before gave, a desk with rules left is served within as many turns as there are desks, whatever is done to the
/// others in between. For the first turn any desk's place will do; that of the last desk begins with desk 0.
///
/// # Errors
/// The first that holds: 24, of input 0, for other counts of desks and a `last` that is no desk; 25, of input 0 at the
/// lowest such desk, whose book does not lie in the buffer, is refused, or has fewer rules than the count; 12, of input
/// 2, where the marks are shorter than [`DESK_MARKS`] times the desks.
///
/// # Cost
/// The book of every desk is read, and one rule's sides are compared: about 0.1 ms for one book of the longest,
/// 0.9 ms for 8 and 3.5 ms for 32.
///
/// ```
/// use ackbo::{Desk, Turn};
///
/// // Two constants of weight 1 with ranks 1 and 0; the rules 0 -> 1 and 1 -> 0. Both desks have this book.
/// let sheet = [2, 2, 1, 2, 0, 0, 1, 1, 0, 0, 1, 0, 0, 1, 1, 0];
/// let mut buffer = [0; 17];
/// assert_eq!(ackbo::encode(&sheet, &mut buffer), Ok(17));
///
/// let mut desks = [Desk { start: 0, length: 17, marked: 0 }; 2];
/// let mut marks = vec![0; 2 * ackbo::DESK_MARKS];
/// let mut last = 1;
/// let mut served = Vec::new();
/// while let Turn::Served(place) = ackbo::turn(&mut desks, &buffer, &mut marks, last)? {
///     served.push(place);
///     last = place;
/// }
/// assert_eq!(served, [0, 1, 0, 1]);
/// assert_eq!((desks[0].marked, desks[1].marked), (2, 2));
/// assert_eq!((&marks[..3], &marks[1023..1026]), (&[2, 10, 0][..], &[2, 10, 0][..]));
///
/// desks[1].start = 1;
/// let error = ackbo::turn(&mut desks, &buffer, &mut marks, last).unwrap_err();
/// assert_eq!((error.code, error.input, error.offset), (25, 0, 1));
/// # Ok::<(), ackbo::Error>(())
/// ```
pub fn turn(desks: &mut [Desk], buffer: &[u8], marks: &mut [u8], last: usize) -> Result<Turn, Error> {
    let (list, count) = (desks.as_mut_ptr(), desks.len());
    call(|reply| unsafe {
        let (output, room) = (marks.as_mut_ptr(), marks.len());
        sys::ackbo_turn(list, count, buffer.as_ptr(), buffer.len(), output, room, last, reply)
    })
    .map(|[turn, place, _]| match turn {
        1 => Turn::Served(place as usize),
        _ => Turn::Idle,
    })
}
