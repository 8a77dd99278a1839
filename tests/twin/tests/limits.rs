//! 01's limits, and outputs that are too short, just long enough or longer.

mod packing;

use packing::{book, header, node, pack, symbol, variable, FILLER, SHEET};
use twin::generate::{Book, Random, Signature};
use twin::{compare, convert, decode, encode, fingerprint, mark, oftener, page, pick};
use twin::{Comparison, Error, Marked, Pick, Relation};

#[test]
fn an_encoded_book_has_at_most_32_768_bytes() {
    let mut random = Random::new(1);
    for many_rules in [false, true] {
        let mut book = Book::largest(&mut random, many_rules);
        let mut bytes = vec![FILLER; 32_769];
        assert_eq!(encode(&book.words(), &mut bytes), Ok(32_768));
        assert_eq!(bytes[32_768], FILLER);
        assert_eq!(bytes[..32_768], book.packed());
        assert!(mark(&bytes[..32_768], &mut vec![0; 1_023]).is_ok());
        assert_eq!(encode(&book.words(), &mut bytes[..32_767]), Err(Error { code: 16, input: 1, offset: 0 }));
        book.rules.pop();
        let long = book.rules.iter().max_by_key(|(left, right)| left.len() + right.len()).unwrap().clone();
        book.rules.push(long.clone());
        while book.bits() <= 32_768 * 8 {
            let shortest =
                (0..book.rules.len()).min_by_key(|&i| book.rules[i].0.len() + book.rules[i].1.len()).unwrap();
            book.rules[shortest] = long.clone();
        }
        let long_error = Error { code: 1, input: 0, offset: 0 };
        assert_eq!(encode(&book.words(), &mut bytes), Err(long_error));
        assert_eq!(encode(&book.words(), &mut []), Err(long_error), "1 goes before 16");
        let left_over = Error { code: 15, input: 0, offset: book.words().len() };
        assert_eq!(encode(&[book.words(), vec![0]].concat(), &mut bytes), Err(left_over), "15 goes before 1");
    }
}

#[test]
fn outputs_may_be_long_and_must_not_be_short() {
    let packed = book(2, &[node(1), variable(0), node(0), node(0), variable(0)].concat());
    let words = [SHEET[..3].to_vec(), vec![2], SHEET[4..].to_vec(), vec![1, 256, 0, 0, 256]].concat();
    let mut output = [u16::from(FILLER); 20];
    assert_eq!(decode(&packed, &mut output[..16]), Err(Error { code: 13, input: 1, offset: 0 }));
    assert_eq!(output, [u16::from(FILLER); 20]);
    assert_eq!(decode(&packed, &mut output[..17]), Ok(17));
    assert_eq!(output[..17], words);
    assert_eq!(decode(&packed, &mut output), Ok(17));
    assert_eq!(output[17..], [u16::from(FILLER); 3]);

    let len = packed.len();
    let mut bytes = [FILLER; 40];
    assert_eq!(encode(&words, &mut bytes[..len - 1]), Err(Error { code: 16, input: 1, offset: 0 }));
    assert_eq!(bytes, [FILLER; 40]);
    assert_eq!(encode(&words, &mut bytes), Ok(len));
    assert_eq!(bytes[..len], packed);
    assert_eq!(bytes[len..], [FILLER; 40][len..]);

    let mut marks = [FILLER; 3];
    assert_eq!(mark(&packed, &mut marks[..1]), Err(Error { code: 12, input: 1, offset: 0 }));
    assert_eq!(marks, [FILLER; 3]);
    assert_eq!(mark(&packed, &mut marks), Ok(Marked { rules: 2, falling: 1, score: 50 }));
    assert_eq!(marks, [1, 7, FILLER]);

    let mut lines = [FILLER; 131];
    assert_eq!(page(&packed, &mut lines[..129]), Err(Error { code: 19, input: 1, offset: 0 }));
    assert_eq!(lines, [FILLER; 131]);
    assert_eq!(page(&packed, &mut lines), Ok(130));
    assert_eq!(lines[..65], *b"   0 falls by weight                                     1      \n");
    assert_eq!(lines[65..130], *b"   1 variable added                                      0      \n");
    assert_eq!(lines[130], FILLER);
}

#[test]
fn a_converted_book_is_as_long_as_the_old_one() {
    let mut random = Random::new(2);
    let too_short = Err(Error { code: 16, input: 1, offset: 0 });
    for many_rules in [false, true] {
        let book = Book::largest(&mut random, many_rules).without_wrapper();
        let mut old = book.aged(&mut random).packed();
        let mut bytes = vec![FILLER; 32_770];
        for room in [0, 1, 32_767] {
            assert_eq!(convert(&old, &mut bytes[..room]), too_short);
            assert!(bytes.iter().all(|&byte| byte == FILLER));
        }
        assert_eq!(convert(&old, &mut bytes), Ok(32_768));
        assert_eq!(bytes[..32_768], book.packed());
        assert_eq!(bytes[32_768..], [FILLER; 2]);
        old.push(0);
        assert_eq!(convert(&old, &mut bytes), Err(Error { code: 1, input: 0, offset: 0 }));
        assert_eq!(convert(&old, &mut []), Err(Error { code: 1, input: 0, offset: 0 }));
    }
    // No rules, and a last byte without padding.
    for new in [book(0, &[]), book(1, &[node(0), node(0)].concat())] {
        let mut old = new.clone();
        old[0] -= 0x10;
        let mut bytes = [FILLER; 20];
        assert_eq!(convert(&old, &mut bytes[..new.len() - 1]), too_short);
        assert_eq!(convert(&old, &mut bytes), Ok(new.len()));
        assert_eq!(bytes[..new.len()], new);
        assert!(bytes[new.len()..].iter().all(|&byte| byte == FILLER));
    }
}

#[test]
fn symbol_255_is_unknown_to_every_book() {
    let mut signature = Signature { w0: 1, symbols: Vec::new() };
    let constant = |rank| twin::table::Symbol { arity: 0, ac: false, weight: 1, rank };
    signature.symbols = (0..255).map(constant).collect();
    let packed = Book::empty(signature).packed();
    assert!(compare(&packed, &[254], &[0]).is_ok());
    assert_eq!(compare(&packed, &[255], &[0]), Err(Error { code: 9, input: 1, offset: 0 }));
    assert_eq!(compare(&packed, &[0], &[271]).map(|reply| reply.margin), Ok(0));
    assert_eq!(compare(&packed, &[0], &[272]), Err(Error { code: 14, input: 2, offset: 0 }));
}

#[test]
fn marks_for_1_023_rules() {
    let packed = book(1_023, &[node(1), node(0), node(0)].concat().repeat(1_023));
    let mut marks = [FILLER; 1_024];
    assert_eq!(mark(&packed, &mut marks[..1_022]), Err(Error { code: 12, input: 1, offset: 0 }));
    assert_eq!(marks, [FILLER; 1_024]);
    let marked = Marked { rules: 1_023, falling: 1_023, score: 100 };
    assert_eq!(mark(&packed, &mut marks[..1_023]), Ok(marked));
    assert_eq!(mark(&packed, &mut marks), Ok(marked));
    assert_eq!(marks[..1_023], [1; 1_023]);
    assert_eq!(marks[1_023], FILLER);
}

#[test]
fn a_page_of_1_023_rules() {
    let packed = book(1_023, &[node(1), node(0), node(0)].concat().repeat(1_023));
    let mut lines = [FILLER; 66_496];
    assert_eq!(page(&packed, &mut lines[..66_494]), Err(Error { code: 19, input: 1, offset: 0 }));
    assert_eq!(lines, [FILLER; 66_496]);
    assert_eq!(page(&packed, &mut lines[..66_495]), Ok(66_495));
    assert_eq!(page(&packed, &mut lines), Ok(66_495));
    for (number, line) in lines[..66_495].chunks(65).enumerate() {
        assert_eq!(
            line,
            format!("{number:>4} falls by weight                                     1      \n").as_bytes()
        );
    }
    assert_eq!(lines[66_495], FILLER);
    assert_eq!(page(&book(0, &[]), &mut []), Ok(0), "no rules fit a page of no bytes");
}

#[test]
fn the_widest_margin_of_a_rule() {
    let symbols = [symbol(0, 0, 65_535, 0), symbol(1, 0, 65_535, 1)].concat();
    let (light, heavy) = (node(0), [node(1).repeat(127), node(0)].concat());
    let rules = [light.clone(), heavy.clone(), heavy, light].concat();
    let mut lines = [FILLER; 130];
    assert_eq!(page(&pack(&[header(2, 65_535, 2), symbols, rules].concat()), &mut lines), Ok(130));
    assert_eq!(lines[..65], *b"   0 left lighter                                 -8322945      \n");
    assert_eq!(lines[65..], *b"   1 falls by weight                               8322945      \n");
}

#[test]
fn a_side_may_weigh_128_times_the_greatest_weight() {
    let packed = pack(&[header(2, 65_535, 0), symbol(0, 0, 65_535, 0), symbol(1, 0, 65_535, 1)].concat());
    let full = [[1; 127].as_slice(), &[0]].concat();
    let reply = compare(&packed, &[0], &full).unwrap();
    assert_eq!(reply, Comparison { relation: Relation::Less, margin: -127 * 65_535 });
}

#[test]
fn a_picked_term_of_128_nodes_may_be_followed() {
    let packed = book(0, &[]);
    let full = [[1; 127].as_slice(), &[0]].concat();
    for after in [&[][..], &[0], &[1], &[256], &[999; 3]] {
        let followed = [&full, after].concat();
        assert_eq!(pick(&packed, &followed, &[0]), Ok(Pick::Left(128)));
        assert_eq!(pick(&packed, &[0], &followed), Ok(Pick::Right(128)));
        assert_eq!(pick(&packed, &followed, &full), Ok(Pick::Equivalent));
        // The 129th node is refused whatever stands there.
        let longer = [[1; 128].as_slice(), after].concat();
        assert_eq!(pick(&packed, &longer, &followed), Err(Error { code: 10, input: 1, offset: 128 }));
        assert_eq!(pick(&packed, &followed, &longer), Err(Error { code: 10, input: 2, offset: 128 }));
    }
}

#[test]
fn fingerprints_of_128_nodes_and_of_the_greatest_words() {
    let packed = book(0, &[]);
    // Each of 127 symbols 1 adds 31 times 2.
    let full = [[1; 127].as_slice(), &[0]].concat();
    assert_eq!(fingerprint(&packed, &full), Ok(127 * 62 + 1));
    assert_eq!(fingerprint(&packed, &[1; 128]), Err(Error { code: 10, input: 1, offset: 128 }));
    assert_eq!(fingerprint(&packed, &[&full, &[0][..]].concat()), Err(Error { code: 15, input: 1, offset: 128 }));
    assert_eq!(fingerprint(&packed, &[271]), Ok(272));
    // Symbol 254 after 254 constants: AC, or of arity 7 with a value of 7,016,633,685,442 before it wraps.
    let constants: Vec<_> = (0..254).flat_map(|rank| symbol(0, 0, 1, rank)).collect();
    let table = |last| pack(&[header(255, 1, 0), constants.clone(), last].concat());
    assert_eq!(fingerprint(&table(symbol(2, 1, 0, 254)), &[254, 253, 254, 271, 0]), Ok(65_599 * 255 + 254 + 272 + 1));
    assert_eq!(fingerprint(&table(symbol(7, 0, 0, 254)), &[254, 0, 0, 0, 0, 0, 0, 0]), Ok(2_952_091_074));
}

#[test]
fn every_variable_is_counted_up_to_64_times() {
    let packed = pack(&[header(2, 1, 0), symbol(2, 1, 0, 0), symbol(0, 0, 1, 1)].concat());
    let sum = |leaves: &[u16]| [&vec![0; leaves.len() - 1], leaves].concat();
    for variable in 0..16 {
        let word = 256 + variable as u16;
        let all = sum(&[word; 64]);
        let one_less = sum(&[[word; 63].as_slice(), &[1]].concat());
        assert_eq!(oftener(&packed, &one_less, &all), Ok(variable));
        assert_eq!(oftener(&packed, &all, &one_less), Ok(16));
        assert_eq!(oftener(&packed, &all, &all), Ok(16));
        // All higher ones occur oftener too, and all lower ones less often.
        let (lower, higher): (Vec<u16>, Vec<u16>) = ((256..word).chain([1]).collect(), (word..272).collect());
        assert_eq!(oftener(&packed, &sum(&lower), &sum(&higher)), Ok(variable));
    }
    assert_eq!(oftener(&packed, &[1], &[0; 128]), Err(Error { code: 10, input: 2, offset: 128 }));
    assert_eq!(
        oftener(&packed, &[1], &[sum(&[271; 64]), vec![271]].concat()),
        Err(Error { code: 15, input: 2, offset: 127 })
    );
}
