//! The words, names and limits here, in the C header, in the documents and in the proved crates are the same.

mod common;

use ackbo::{layout, Mark, Refusal};
use common::{bytes, text};

/// A number, its name as C writes it, and its words.
type Row = (u8, String, String);

/// A CamelCase name as C writes it.
fn screaming(name: &str) -> String {
    let mut written = String::new();
    for letter in name.chars() {
        if letter.is_ascii_uppercase() && !written.is_empty() {
            written.push('_');
        }
        written.push(letter.to_ascii_uppercase());
    }
    written
}

fn marks() -> Vec<Row> {
    Mark::ALL.iter().map(|mark| (mark.number(), screaming(&format!("{mark:?}")), mark.to_string())).collect()
}

fn refusals() -> Vec<Row> {
    let row = |refusal: &Refusal| (refusal.number(), screaming(&format!("{refusal:?}")), refusal.to_string());
    Refusal::ALL.iter().map(row).collect()
}

/// The rows of a table of the C header.
fn header_rows(table: &str) -> Vec<Row> {
    let header = text("include/ackbo_text.h");
    let (_, rest) = header.split_once(&format!("#define {table}(ROW)")).expect("the table is there");
    let lines = rest.lines().skip(1).map_while(|line| line.trim().strip_prefix("ROW("));
    lines
        .map(|line| {
            let (row, _) = line.rsplit_once("\")").expect("a row ends with its words");
            let mut fields = row.splitn(3, ", ");
            let mut field = || fields.next().expect("a row has three fields");
            let (number, name, words) = (field(), field(), field());
            (number.parse().unwrap(), name.to_string(), words.trim_start_matches('"').to_string())
        })
        .collect()
}

/// The cells of the rows of `docs/MARKS.md` that begin with a number, between a heading and the next of its depth.
fn document_rows(heading: &str) -> Vec<Vec<String>> {
    let document = text("docs/MARKS.md");
    let (_, rest) = document.split_once(&format!("\n## {heading}\n")).expect("the heading is there");
    let section = rest.split("\n## ").next().unwrap();
    let cells = |line: &str| line.trim_matches('|').split('|').map(|cell| cell.trim().to_string()).collect::<Vec<_>>();
    let numbered = |row: &Vec<String>| row.len() > 2 && row[0].parse::<u8>().is_ok();
    section.lines().filter(|line| line.starts_with('|')).map(cells).filter(numbered).collect()
}

/// The first two cells of these rows: the numbers and the words.
fn document_words(heading: &str) -> Vec<(u8, String)> {
    document_rows(heading).into_iter().map(|row| (row[0].parse().unwrap(), row[1].clone())).collect()
}

/// The value of a constant: what stands between its name, after `before`, and `after`.
fn value<'a>(source: &'a str, before: &str, after: &str) -> &'a str {
    let (_, rest) = source.split_once(before).unwrap_or_else(|| panic!("{before} is there"));
    rest.split(after).next().unwrap()
}

/// The numbers of refusals that are still to come.
const TO_COME: [u8; 2] = [20, 21];

#[test]
fn numbers_have_no_other_gaps() {
    let last_refusal = Refusal::ALL.len() + TO_COME.len();
    for number in 0..=u8::MAX {
        assert_eq!(Mark::new(number).is_some(), (1..=Mark::ALL.len()).contains(&number.into()), "{number}");
        let is_refusal = (1..=last_refusal).contains(&number.into()) && !TO_COME.contains(&number);
        assert_eq!(Refusal::new(number).is_some(), is_refusal, "{number}");
        assert!(Mark::new(number).is_none_or(|mark| mark.number() == number));
        assert!(Refusal::new(number).is_none_or(|refusal| refusal.number() == number));
    }
}

#[test]
fn the_header_has_the_same_rows() {
    assert_eq!(header_rows("ACKBO_MARKS"), marks());
    assert_eq!(header_rows("ACKBO_REFUSALS"), refusals());
}

#[test]
fn the_document_has_the_same_rows() {
    let words = |rows: Vec<Row>| rows.into_iter().map(|(number, _, words)| (number, words)).collect::<Vec<_>>();
    assert_eq!(document_words("Marks"), words(marks()));
    assert_eq!(document_words("Refusals"), words(refusals()));
}

#[test]
fn the_documents_examples_have_their_marks() {
    for row in document_rows("Marks") {
        let (book, rule) = row[3].split_once(' ').unwrap_or(("sample", &row[3]));
        let (_, marks) = ackbo::marked(&bytes(&format!("samples/{book}.book"))).unwrap();
        let rule: usize = rule.parse().unwrap();
        assert_eq!(marks[rule].text(), row[1], "{book}, rule {rule}");
    }
}

/// The proved crates give each of their codes the number and the name that it has here.
#[test]
fn the_proved_codes_have_names() {
    let rows = refusals();
    let source = text("crates/format/src/lib.rt");
    let codes = value(&source, "pub enum ErrorCode {", "}");
    let codes: Vec<_> =
        codes.lines().filter_map(|line| line.trim().strip_suffix(',')?.split_once(" = ")).collect();
    assert!(codes.len() >= 18);
    for (name, number) in codes {
        let name = screaming(name);
        let row = rows.iter().find(|row| row.1 == name).unwrap_or_else(|| panic!("{name} has a row"));
        assert_eq!(row.0.to_string(), number, "{name}");
    }
}

#[test]
fn the_limits_are_the_same() {
    let proved = text("crates/format/src/lib.rt");
    let header = text("include/ackbo_text.h");
    let limits = [
        ("MAX_BYTES", layout::MAX_BYTES),
        ("MAX_RULES", layout::MAX_RULES),
        ("MAX_SYMBOLS", layout::MAX_SYMBOLS),
        ("MAX_NODES", layout::MAX_NODES),
        ("VARIABLES", layout::VARIABLES),
        ("FIRST_VARIABLE", layout::FIRST_VARIABLE.into()),
    ];
    for (name, limit) in limits {
        let declared = value(&proved, &format!("pub const {name}: "), ";");
        assert_eq!(declared.split_once(" = ").unwrap().1, limit.to_string(), "{name}");
        assert_eq!(
            value(&header, &format!("ACKBO_{name} = "), "\n").trim_end_matches(','),
            limit.to_string(),
            "{name}"
        );
    }
    assert_eq!(value(&header, "ACKBO_MAX_WORDS = ", ","), layout::MAX_WORDS.to_string());
}

#[test]
fn the_version_is_the_same() {
    assert_eq!(value(&text("include/ackbo_text.h"), "ACKBO_VERSION \"", "\""), env!("CARGO_PKG_VERSION"));
}

#[test]
fn a_page_has_the_words_of_the_marks() {
    let book = bytes("samples/sample.book");
    let (_, marks) = ackbo::marked(&book).unwrap();
    let mut page = vec![0; ackbo::LINE_BYTES * marks.len()];
    ackbo::page(&book, &mut page).unwrap();
    for (line, mark) in page.chunks(ackbo::LINE_BYTES).zip(marks) {
        assert_eq!(std::str::from_utf8(&line[5..45]).unwrap().trim_end(), mark.text());
    }
}
