//! Slices of no length, without memory behind them, and one slice lent as both terms.

use twin::generate::{families, Family};
use twin::table::MAX_NODES;
use twin::Error;

use crate::check::error;

fn rule_books() -> Vec<Vec<u8>> {
    families().iter().map(|family: &Family| family.rule_book(MAX_NODES)).collect()
}

/// The code of an error, and 0 for none.
fn code<T>(result: &Result<T, Error>) -> u8 {
    result.as_ref().err().map_or(0, |error| error.code)
}

#[test]
fn empty_inputs_agree_with_the_twin() {
    let (mut words, mut bytes) = ([7; 4], [7; 4]);
    assert_eq!(ackbo::decode(&[], &mut words).map_err(error), twin::decode(&[], &mut [7; 4]));
    assert_eq!(ackbo::encode(&[], &mut bytes).map_err(error), twin::encode(&[], &mut [7; 4]));
    assert_eq!(ackbo::mark(&[], &mut bytes).map_err(error).err(), twin::mark(&[], &mut [7; 4]).err());
    assert_eq!(ackbo::page(&[], &mut bytes).map_err(error), twin::page(&[], &mut [7; 4]));
    assert_eq!(ackbo::compare(&[], &[], &[]).map_err(error).err(), twin::compare(&[], &[], &[]).err());
    assert_eq!(ackbo::pick(&[], &[], &[]).map_err(error).err(), twin::pick(&[], &[], &[]).err());
    assert_eq!(ackbo::fingerprint(&[], &[]).map_err(error), twin::fingerprint(&[], &[]));
    assert_eq!(ackbo::oftener(&[], &[], &[]).map_err(error).err(), twin::oftener(&[], &[], &[]).err());
    assert_eq!(ackbo::convert(&[], &mut bytes).map_err(error), twin::convert(&[], &mut [7; 4]));
    assert_eq!((words, bytes), ([7; 4], [7; 4]));
}

#[test]
fn empty_outputs_agree_with_the_twin() {
    for book in rule_books() {
        let mut words = vec![0; book.len() * 8];
        let len = twin::decode(&book, &mut words).expect("the book is read");
        let decoded = twin::decode(&book, &mut []);
        let encoded = twin::encode(&words[..len], &mut []);
        let marked = twin::mark(&book, &mut []);
        let old = [&[book[0] - 0x10], &book[1..]].concat();
        let converted = twin::convert(&old, &mut []);
        let paged = twin::page(&book, &mut []);
        let codes = [code(&decoded), code(&encoded), code(&marked), code(&converted), code(&paged)];
        assert_eq!(codes, [13, 16, 12, 16, 19]);
        assert_eq!(ackbo::decode(&book, &mut []).map_err(error), decoded);
        assert_eq!(ackbo::encode(&words[..len], &mut []).map_err(error), encoded);
        assert_eq!(ackbo::mark(&book, &mut []).map_err(error).err(), marked.err());
        assert_eq!(ackbo::convert(&old, &mut []).map_err(error), converted);
        assert_eq!(ackbo::page(&book, &mut []).map_err(error), paged);
    }
}

#[test]
fn empty_terms_agree_with_the_twin() {
    for family in families() {
        let (book, (term, _)) = (family.book(), family.pair(MAX_NODES));
        assert_eq!(code(&twin::fingerprint(&book, &[])), 2);
        assert_eq!(ackbo::fingerprint(&book, &[]).map_err(error), twin::fingerprint(&book, &[]));
        for (left, right) in [(&[][..], &[][..]), (&[], &term), (&term, &[])] {
            let refused = twin::compare(&book, left, right);
            assert_eq!(code(&refused), 2);
            assert_eq!(ackbo::compare(&book, left, right).map_err(error).err(), refused.err());
            assert_eq!(ackbo::pick(&book, left, right).map_err(error).err(), refused.err());
            assert_eq!(ackbo::oftener(&book, left, right).map_err(error).err(), refused.err());
        }
    }
}

#[test]
fn a_term_is_equivalent_to_itself_in_one_memory() {
    for family in families() {
        let (left, right) = family.pair(MAX_NODES);
        for term in [left, right] {
            let same = ackbo::Comparison { relation: ackbo::Relation::Equivalent, margin: 0 };
            assert_eq!(ackbo::compare(&family.book(), &term, &term), Ok(same));
            assert_eq!(ackbo::pick(&family.book(), &term, &term), Ok(ackbo::Side::Equivalent));
            assert_eq!(ackbo::oftener(&family.book(), &term, &term), Ok(None));
        }
    }
}
