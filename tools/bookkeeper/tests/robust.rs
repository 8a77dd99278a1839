//! Bad texts never panic: random ones, mutated good ones, long and deep ones.

mod common;

use common::{printed, run_on};
use twin::generate::{Book, Random};

/// The seed, and the counts of inputs of each kind.
const SEED: u64 = 20_002;
const RANDOM_TEXTS: usize = 60_000;
const MUTATED_TEXTS: usize = 60_000;
/// The most bytes of what is said of a text: 20 faults, each with its line, cut if it is long.
const MOST_WORDS: usize = 8_000;

/// Parts of random texts.
const PARTS: [&str; 44] = [
    "w0",
    "variables",
    "symbol",
    "order",
    "arity",
    "ac",
    "weight",
    "rank",
    "x",
    "y",
    "f",
    "z",
    "0",
    "1",
    "2",
    "255",
    "65535",
    "65536",
    "99999999999999999999",
    "(",
    ")",
    ",",
    "->",
    ">",
    "+",
    "*",
    "-",
    "=>",
    "#",
    "\n",
    "\n",
    "\n",
    " ",
    " ",
    "\t",
    "\r\n",
    "é",
    "⊕",
    "\u{feff}",
    "\0",
    "\u{7f}",
    "'",
    "_",
    "∀x",
];
/// A beginning with which random texts have something to speak of.
const HEAD: &str = "w0 1\nvariables x y\nsymbol z arity 0 weight 1\nsymbol f arity 1 weight 1\n\
                    symbol + arity 2 ac weight 0\norder + > f > z\n";

fn random_text(random: &mut Random) -> String {
    let mut text = String::from(if random.one_in(2) { HEAD } else { "" });
    for _ in 0..random.below(40) {
        text += random.choose(&PARTS).unwrap();
        text += if random.one_in(3) { "" } else { " " };
    }
    text
}

/// A text with one to four small changes, of signs or of words.
fn mutated(random: &mut Random, text: &str) -> String {
    let mut text = text.to_string();
    let of_words = random.one_in(2);
    for _ in 0..random.between(1, 4) {
        text = if of_words { other_word(random, &text) } else { other_signs(random, &text) };
    }
    text
}

/// A text with signs cut out, put in or exchanged.
fn other_signs(random: &mut Random, text: &str) -> String {
    let mut signs: Vec<char> = text.chars().collect();
    let place = random.below(signs.len() + 1);
    let other = random.below(signs.len() + 1);
    match random.below(5) {
        0 => signs.truncate(place.max(signs.len() / 2)),
        1 => drop(signs.splice(place..place, random.choose(&PARTS).unwrap().chars())),
        2 if place < signs.len() => drop(signs.remove(place)),
        3 if place.max(other) < signs.len() => signs.swap(place, other),
        _ => drop(signs.drain(place..(place + random.below(12)).min(signs.len()))),
    }
    signs.into_iter().collect()
}

/// A text with a word, a number oftener than others, in place of another.
fn other_word(random: &mut Random, text: &str) -> String {
    let mut words: Vec<String> = text.split(' ').map(str::to_string).collect();
    let place = random.below(words.len());
    let is_number = |word: &str| !word.is_empty() && word.bytes().all(|byte| byte.is_ascii_digit());
    let number = words.iter().skip(place).position(|word| is_number(word)).map(|after| place + after);
    let source = words[random.below(words.len())].clone();
    match number {
        Some(number) if !random.one_in(4) => words[number] = random.below(9).to_string(),
        _ => words[place] = source,
    }
    words.join(" ")
}

/// Runs commands on a text; hands back the status of assembling it.
fn check(random: &mut Random, text: &str) -> usize {
    let files = [("text", text.as_bytes())];
    let outcome = run_on(&["assemble", "text"], &files);
    assert_eq!(outcome.complaint.is_some(), outcome.status >= 2, "{text}");
    assert!(outcome.status <= 3 && outcome.status != 1, "{text}");
    if outcome.status == 0 {
        let listed = printed(&["list", "text", "--text"], &files);
        let again = run_on(&["assemble", "text"], &[("text", listed.as_bytes())]);
        assert!(again.output == outcome.output, "{text}");
    }
    if outcome.status == 0 || random.one_in(8) {
        assert!(run_on(&["mark", "text"], &files).status <= 3);
        assert!(run_on(&["pick", "text", random.choose(&PARTS).unwrap(), &random_text(random)], &files).status <= 3);
        assert!(run_on(&["fingerprint", "text", "--", &random_text(random)], &files).status <= 3);
        assert!(run_on(&["list", "text", "--book", "--names", "text"], &files).status <= 3);
    }
    outcome.status.into()
}

#[test]
fn random_texts() {
    let mut random = Random::new(SEED);
    let mut statuses = [0; 4];
    for _ in 0..RANDOM_TEXTS {
        let text = random_text(&mut random);
        statuses[check(&mut random, &text)] += 1;
    }
    println!("random texts: {} assembled, {} refused, {} wrong", statuses[0], statuses[2], statuses[3]);
    assert!(statuses[0] > 1_000 && statuses[3] > 1_000);
}

#[test]
fn mutated_texts() {
    let mut random = Random::new(SEED);
    let mut statuses = [0; 4];
    let mut text = String::new();
    for round in 0..MUTATED_TEXTS {
        if round % 16 == 0 {
            let book = Book::random(&mut random, 4).packed();
            text = printed(&["list", "book", "--book"], &[("book", &book)]);
        }
        let mutated = mutated(&mut random, &text);
        statuses[check(&mut random, &mutated)] += 1;
    }
    println!("mutated texts: {} assembled, {} refused, {} wrong", statuses[0], statuses[2], statuses[3]);
    assert!(statuses.iter().enumerate().all(|(status, &count)| status == 1 || count > 1_000), "{statuses:?}");
}

#[test]
fn long_and_deep_texts() {
    let many = 200_000;
    for rule in [
        format!("{}x -> x", "(".repeat(many)),
        format!("{}x{} -> x", "f(".repeat(many), ")".repeat(many)),
        format!("x{} -> x", " + x".repeat(many)),
        "f(".repeat(many),
        "x -> ".repeat(many),
        "x".repeat(many),
        "+".repeat(many),
        format!("order {}z", "z > ".repeat(many)),
        format!("variables {}", (0..many).map(|number| format!("v{number} ")).collect::<String>()),
        (0..many / 4).map(|number| format!("symbol s{number} arity 0 weight 1 rank 9\n")).collect(),
        "z -> z\n".repeat(many),
    ] {
        let text = format!("{}{rule}", HEAD.replace("order + > f > z\n", ""));
        let outcome = run_on(&["assemble", "text"], &[("text", text.as_bytes())]);
        assert!(outcome.status >= 2 && outcome.complaint.is_some_and(|words| words.len() < MOST_WORDS));
        let outcome = run_on(&["assemble", "text"], &[("text", format!("{HEAD}{rule}").as_bytes())]);
        assert!(outcome.complaint.is_none_or(|words| words.len() < MOST_WORDS));
    }
}
