//! The operations with room of their own agree with those that are lent it, and with the samples.

mod common;

use ackbo::{layout, Mark, Refusal};
use common::{bytes, text};

/// The samples that the operations read.
const READ: [&str; 3] = ["accepted", "listing", "sample"];

fn book(sample: &str) -> Vec<u8> {
    bytes(&format!("samples/{sample}.book"))
}

#[test]
fn opening_and_closing() {
    for sample in READ {
        let book = book(sample);
        let mut words = [0xffff; layout::MAX_WORDS];
        let count = ackbo::decode(&book, &mut words).unwrap();
        let sheet = ackbo::decoded(&book).unwrap();
        assert_eq!(sheet, words[..count], "{sample}");
        assert_eq!(ackbo::encoded(&sheet).unwrap(), book, "{sample}");
    }
}

#[test]
fn paging() {
    assert_eq!(ackbo::paged(&book("listing")).unwrap(), bytes("samples/listing.page"));
    assert_eq!(ackbo::paged(&[]).unwrap_err().refusal(), Some(Refusal::FieldMissing));
}

#[test]
fn converting() {
    assert_eq!(ackbo::converted(&book("old")).unwrap(), bytes("samples/old.converted"));
}

/// The lines that `marker` prints for the samples: their marks, margins and score.
#[test]
fn marks_and_margins_are_those_that_marker_prints() {
    for sample in READ {
        let (marked, rules) = ackbo::marked_with_margins(&book(sample)).unwrap();
        assert_eq!(ackbo::marked(&book(sample)).unwrap(), (marked, rules.iter().map(|rule| rule.0).collect()));
        assert_eq!(rules.iter().filter(|rule| rule.0.falls()).count(), marked.falling, "{sample}");

        let mut printed = format!("rules {}\n", marked.rules);
        for (number, (mark, margin)) in rules.iter().enumerate() {
            printed += &format!("{number} {} {margin}\n", mark.number());
        }
        let verdict = if marked.falling == marked.rules { "accepted" } else { "returned" };
        printed += &format!("score {}\n{verdict}\n", marked.score);
        assert_eq!(printed, text(&format!("samples/{sample}.out")), "{sample}");
    }
}

#[test]
fn refusals_come_through() {
    let refusal = |error: ackbo::Error| error.refusal().unwrap();
    assert_eq!(ackbo::decoded(&[]).map_err(refusal), Err(Refusal::FieldMissing));
    assert_eq!(ackbo::decoded(&[0; 32_769]).map_err(refusal), Err(Refusal::FileTooLong));
    assert_eq!(ackbo::converted(&[0; 32_769]).map_err(refusal), Err(Refusal::FileTooLong));
    assert_eq!(ackbo::converted(&book("listing")).map_err(refusal), Err(Refusal::WrongForm));
    assert_eq!(ackbo::marked(&book("old")).map_err(refusal), Err(Refusal::OldForm));
    assert_eq!(ackbo::marked_with_margins(&book("refused")).map_err(refusal), Err(Refusal::RankTaken));
    assert_eq!(ackbo::encoded(&[]).map_err(refusal), Err(Refusal::FieldMissing));

    let error = ackbo::marked(&book("refused")).unwrap_err();
    assert_eq!(error.to_string(), "refusal 8 of input 0 at 170: an earlier symbol has this rank");
}

/// A sheet whose book would be too long is refused with that, not for want of room.
#[test]
fn a_sheet_too_long_for_a_book() {
    let head = [2, 1, 1, 1_023, 7, 0, 0, 0];
    let side = [&[0; 18][..], &[layout::FIRST_VARIABLE; 109]].concat();
    let sheet = [&head[..], &side.repeat(2 * 1_023)].concat();
    assert_eq!(ackbo::encoded(&sheet).unwrap_err().refusal(), Some(Refusal::FileTooLong));
}

/// The parts of a damaged sheet: no panic, and no more rules than are there.
#[test]
fn rules_of_no_sheet() {
    let sheet = ackbo::decoded(&book("sample")).unwrap();
    assert_eq!(layout::rules(&sheet).count(), 12);
    for len in 0..sheet.len() {
        assert!(layout::rules(&sheet[..len]).count() < 12, "{len}");
    }
    for word in 0..sheet.len() {
        for other in [0, 3, 6, 255, 256, 0xffff] {
            let mut damaged = sheet.clone();
            damaged[word] = other;
            layout::rules(&damaged).for_each(drop);
        }
    }
}

#[test]
fn a_mark_pads() {
    assert_eq!(format!("[{:<14}]", Mark::LeftLighter), "[left lighter  ]");
}
