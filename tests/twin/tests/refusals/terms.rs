//! Errors of terms.

use twin::{compare, fingerprint, oftener, pick, Comparison, Error, Pick, Relation};

use crate::packing::book;
use crate::RULES_AT;

/// Words that do not begin with a term over the two symbols of `book`, with the error and its offset.
const BAD_TERMS: [(&[u16], u8, usize); 6] =
    [(&[], 2, 0), (&[1, 1], 2, 2), (&[272, 9], 14, 0), (&[1, u16::MAX], 14, 1), (&[2], 9, 0), (&[1, 255, 999], 9, 1)];
/// A term followed by other words, with the error of what must be one term, and its offset.
const FOLLOWED_TERMS: [(&[u16], u8, usize); 2] = [(&[0, 999], 15, 1), (&[256, 0, 0], 15, 1)];

#[test]
fn terms_are_checked_left_before_right() {
    let packed = book(0, &[]);
    let refuse = |left: &[u16], right: &[u16], code, input, offset| {
        assert_eq!(compare(&packed, left, right), Err(Error { code, input, offset }), "{left:?} {right:?}");
        assert_eq!(oftener(&packed, left, right), Err(Error { code, input, offset }), "{left:?} {right:?}");
    };
    for (term, code, offset) in BAD_TERMS.into_iter().chain(FOLLOWED_TERMS) {
        refuse(term, &[0], code, 1, offset);
        refuse(term, &[999], code, 1, offset);
        refuse(&[0], term, code, 2, offset);
    }
    for longer in [[1; 128].to_vec(), [1; 129].to_vec(), [[1; 128].as_slice(), &[999, 0]].concat()] {
        refuse(&longer, &[0], 10, 1, 128);
        refuse(&[0], &longer, 10, 2, 128);
    }
    let full = [[1; 127].as_slice(), &[0]].concat();
    refuse(&[full.as_slice(), &[0]].concat(), &[0], 15, 1, 128);
    let reply = Comparison { relation: Relation::Greater, margin: 127 };
    assert_eq!(compare(&packed, &full, &[0]), Ok(reply));
    // The rules and the padding of the book are read too.
    let refused = Error { code: 11, input: 0, offset: RULES_AT };
    assert_eq!(compare(&book(0, &[(1, 2)]), &[], &[]), Err(refused));
}

#[test]
fn terms_to_pick_from_are_checked_left_before_right() {
    let packed = book(0, &[]);
    for (term, code, offset) in BAD_TERMS {
        let [left, right] = [1, 2].map(|input| Err(Error { code, input, offset }));
        assert_eq!(pick(&packed, term, &[0]), left, "{term:?}");
        assert_eq!(pick(&packed, term, &[999]), left, "{term:?}");
        assert_eq!(pick(&packed, &[0], term), right, "{term:?}");
        assert_eq!(pick(&packed, &[0, 999], term), right, "{term:?}");
    }
    assert_eq!(pick(&packed, &[0, 999], &[1, 0, 999]), Ok(Pick::Right(2)));
    assert_eq!(pick(&packed, &[1, 256, 0], &[256, 0, 0]), Ok(Pick::Left(2)));
}

#[test]
fn a_term_without_fingerprint_is_refused() {
    let packed = book(0, &[]);
    for (term, code, offset) in BAD_TERMS.into_iter().chain(FOLLOWED_TERMS) {
        assert_eq!(fingerprint(&packed, term), Err(Error { code, input: 1, offset }), "{term:?}");
    }
    for after in [&[][..], &[0], &[1], &[999]] {
        let longer = [[1; 128].as_slice(), after].concat();
        assert_eq!(fingerprint(&packed, &longer), Err(Error { code: 10, input: 1, offset: 128 }));
    }
}

#[test]
fn variables_of_terms_have_any_numbers() {
    let packed = book(0, &[]);
    for number in 256..272 {
        assert_eq!(compare(&packed, &[number], &[number]).map(|reply| reply.relation), Ok(Relation::Equivalent));
        assert_eq!(pick(&packed, &[1, number], &[number]), Ok(Pick::Left(2)));
        assert_eq!(oftener(&packed, &[0], &[1, number]), Ok(usize::from(number - 256)));
        assert_eq!(fingerprint(&packed, &[number]), Ok(u32::from(number) + 1));
    }
}
