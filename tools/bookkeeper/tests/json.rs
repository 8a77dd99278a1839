//! `mark --json`: it is JSON, its keys are those of `docs/BOOKS.md`, and it says what `mark` says.

mod common;

use common::{printed, sample, sample_path};
use twin::generate::{Book, Random};

/// The seed and the count of generated books.
const SEED: u64 = 20_006;
const BOOKS: usize = 300;

/// The keys of the whole and of a rule, in their order.
const WHOLE: [&str; 6] = ["keys", "count", "falling", "score", "verdict", "rules"];
const RULE: [&str; 13] = [
    "rule",
    "line",
    "text",
    "mark",
    "words",
    "falls",
    "margin",
    "in_the_way",
    "changes",
    "falls_turned",
    "offers",
    "same_as",
    "turned_of",
];

/// A value of JSON, as far as it is told apart here.
#[derive(Clone, Debug, PartialEq)]
enum Value {
    Null,
    Truth(bool),
    Number(i64),
    Text(String),
    List(Vec<Value>),
    Object(Vec<(String, Value)>),
}

impl Value {
    fn get(&self, key: &str) -> &Value {
        let Value::Object(pairs) = self else { panic!("{self:?} is no object") };
        &pairs.iter().find(|(other, _)| other == key).unwrap_or_else(|| panic!("{key} is missing")).1
    }

    fn keys(&self) -> Vec<&str> {
        let Value::Object(pairs) = self else { panic!("{self:?} is no object") };
        pairs.iter().map(|(key, _)| key.as_str()).collect()
    }

    fn list(&self) -> &[Value] {
        let Value::List(values) = self else { panic!("{self:?} is no list") };
        values
    }
}

/// A reader of JSON, which panics at what is none.
struct Reader<'a>(std::iter::Peekable<std::str::Chars<'a>>);

impl Reader<'_> {
    fn whole(text: &str) -> Value {
        let mut reader = Reader(text.chars().peekable());
        let value = reader.value();
        assert_eq!((reader.sign(), reader.0.next()), (None, None));
        value
    }

    /// The next sign after blanks.
    fn sign(&mut self) -> Option<char> {
        while self.0.next_if(|sign| " \n".contains(*sign)).is_some() {}
        self.0.peek().copied()
    }

    fn value(&mut self) -> Value {
        match self.sign().expect("a value") {
            '{' => Value::Object(self.row('{', '}', |reader| {
                let key = reader.text();
                assert_eq!(reader.sign(), Some(':'));
                reader.0.next();
                (key, reader.value())
            })),
            '[' => Value::List(self.row('[', ']', Reader::value)),
            '"' => Value::Text(self.text()),
            _ => self.plain(),
        }
    }

    fn row<T>(&mut self, open: char, close: char, read: impl Fn(&mut Self) -> T) -> Vec<T> {
        assert_eq!(self.0.next(), Some(open));
        let mut values = Vec::new();
        while self.sign() != Some(close) {
            if !values.is_empty() {
                assert_eq!(self.0.next(), Some(','));
            }
            values.push(read(self));
        }
        self.0.next();
        values
    }

    fn text(&mut self) -> String {
        assert_eq!(self.sign(), Some('"'));
        self.0.next();
        let mut text = String::new();
        loop {
            match self.0.next().expect("a string ends") {
                '"' => return text,
                '\\' => text.push(self.0.next().filter(|sign| "\"\\".contains(*sign)).expect("a sign that is escaped")),
                sign => text.push(sign),
            }
        }
    }

    fn plain(&mut self) -> Value {
        let mut word = String::new();
        while let Some(sign) = self.0.next_if(|sign| sign.is_ascii_alphanumeric() || *sign == '-') {
            word.push(sign);
        }
        match word.as_str() {
            "null" => Value::Null,
            "true" => Value::Truth(true),
            "false" => Value::Truth(false),
            _ => Value::Number(word.parse().expect("a number")),
        }
    }
}

fn marked(file: &[u8]) -> (Value, String) {
    let arguments = |option| ["mark", "file", option];
    let json = Reader::whole(&printed(&arguments("--json"), &[("file", file)]));
    (json, printed(&["mark", "file"], &[("file", file)]))
}

#[test]
fn json_says_what_mark_says() {
    let mut random = Random::new(SEED);
    let books = (0..BOOKS).map(|_| Book::random(&mut random, 6).packed());
    let files = [sample("sample.txt"), sample("wrapper.txt"), sample("listing.book")];
    for file in books.chain(files).filter(|file| std::str::from_utf8(file).is_err() || file.starts_with(b"#")) {
        let (json, text) = marked(&file);
        assert_eq!(json.keys(), WHOLE);
        let rules = json.get("rules").list();
        assert_eq!(json.get("count"), &Value::Number(rules.len() as i64));
        for (number, rule) in rules.iter().enumerate() {
            assert_eq!(rule.keys(), RULE);
            assert_eq!(rule.get("rule"), &Value::Number(number as i64));
            let (Value::Text(words), Value::Number(mark)) = (rule.get("words"), rule.get("mark")) else { panic!() };
            let Value::Number(margin) = rule.get("margin") else { panic!() };
            assert!(text.contains(&format!("    {words} (mark {mark}), margin {margin}\n")));
            assert_eq!(rule.get("falls"), &Value::Truth(words.starts_with("falls")));
            for (key, before) in [("in_the_way", "in the way"), ("changes", "change")] {
                for line in rule.get(key).list() {
                    let Value::Text(line) = line else { panic!("{line:?}") };
                    assert!(text.contains(&format!("    {before}: {line}\n")), "{line}");
                }
            }
        }
    }
}

#[test]
fn keys_are_documented() {
    let page = std::fs::read_to_string(sample_path("../docs/BOOKS.md")).unwrap();
    let (_, section) = page.split_once("\n## mark --json\n").expect("the section is there");
    let section = section.split("\n## ").next().unwrap();
    for key in WHOLE.iter().chain(&RULE).chain(&["symbol", "above", "weight", "wrapper", "lost"]) {
        assert!(section.contains(&format!("`{key}`")), "{key}");
    }
}

#[test]
fn names_are_escaped() {
    let text = "w0 1\nsymbol \"\\ arity 0 weight 1 rank 0\n\"\\ -> \"\\\n";
    let (json, _) = marked(text.as_bytes());
    assert_eq!(json.get("rules").list()[0].get("text"), &Value::Text("\"\\ -> \"\\".into()));
    assert_eq!(json.get("rules").list()[0].get("line"), &Value::Number(3));
}
