//! Turns over desks at their limits: how many desks, where a book lies, its count, and the room for marks.

use ackbo::{turn, Desk, Turn, DESK_MARKS, MAX_DESKS};

const BOOK: &[u8] = include_bytes!("../../../samples/listing.book");

/// The desk of the listing, which has two rules, with so many of them marked.
fn listing(marked: usize) -> Desk {
    Desk { start: 0, length: 17, marked }
}

/// The refusal's number, input and place of a turn over the listing, which leaves desks and marks as they were.
fn refused(desks: &[Desk], room: usize, last: usize) -> (u8, u8, usize) {
    let (mut after, mut marks) = (desks.to_vec(), vec![7; room]);
    let error = turn(&mut after, BOOK, &mut marks, last).unwrap_err();
    assert!(after == desks && marks.iter().all(|&mark| mark == 7));
    (error.code, error.input, error.offset)
}

#[test]
fn one_to_32_desks_are_served() {
    for count in [1, 2, MAX_DESKS] {
        let (mut desks, mut marks) = (vec![listing(0); count], vec![7; DESK_MARKS * count]);
        let mut last = count - 1;
        for step in 0..2 * count {
            assert_eq!(turn(&mut desks, BOOK, &mut marks, last), Ok(Turn::Served(step % count)));
            last = step % count;
        }
        assert_eq!(turn(&mut desks, BOOK, &mut marks, last), Ok(Turn::Idle));
        assert_eq!(desks, vec![listing(2); count]);
        let stretch = |marks: &[u8]| marks[..2] == [2, 10] && marks[2..].iter().all(|&mark| mark == 7);
        assert!(marks.chunks(DESK_MARKS).all(stretch));
    }
    assert_eq!(refused(&[], 0, 0), (24, 0, 0));
    assert_eq!(refused(&[listing(3); MAX_DESKS + 1], 0, 0), (24, 0, 0));
}

#[test]
fn the_last_served_is_a_desk_and_comes_last() {
    assert_eq!(refused(&[listing(3); 2], 0, 2), (24, 0, 0));
    assert_eq!(refused(&[listing(0)], 0, usize::MAX), (24, 0, 0));
    for (marked, served) in [([1, 1, 1], 2), ([1, 1, 2], 0), ([2, 1, 2], 1)] {
        let (mut desks, mut marks) = (marked.map(listing), [0; 3 * DESK_MARKS]);
        assert_eq!(turn(&mut desks, BOOK, &mut marks, 1), Ok(Turn::Served(served)));
        assert_eq!((desks[served].marked, marks[DESK_MARKS * served + 1]), (2, 10));
    }
}

#[test]
fn the_lowest_desk_at_fault_is_told_before_the_marks() {
    let bad = [
        listing(3),
        Desk { start: 0, length: 16, marked: 0 },
        Desk { start: 0, length: 0, marked: 0 },
        Desk { start: 1, length: 17, marked: 0 },
        Desk { start: 17, length: 0, marked: 0 },
        Desk { start: 1, length: usize::MAX, marked: 0 },
        Desk { start: usize::MAX, length: 17, marked: 0 },
    ];
    for desk in bad {
        assert_eq!(refused(&[listing(2), desk, desk], 0, 0), (25, 0, 1), "{desk:?}");
    }
}

#[test]
fn marks_have_room_for_every_desk() {
    for marked in [0, 2] {
        assert_eq!(refused(&[listing(marked); 2], 2 * DESK_MARKS - 1, 0), (12, 2, 0));
    }
}
