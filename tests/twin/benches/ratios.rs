//! Times of the library and of the twin on the same inputs, in rounds that alternate, and their ratios; lists of small
//! terms against a loop in C, `list.c`. A word after `--` keeps the rows whose name contains it.

use std::hint::black_box;
use std::time::{Duration, Instant};

use ackbo::{Desk, Turn};
use twin::generate::{families, Book, Family, Random, Signature, MAX_RULES};
use twin::jobs::{JOB_MARKS, MAX_JOBS};
use twin::page::LINE_BYTES;
use twin::table::{Symbol, MAX_NODES, VARIABLES};
use twin::{Job, Pick};

const SEED: u64 = 32_768;
/// The rounds whose median is taken; many short ones, so that few are interrupted.
const ROUNDS: usize = 61;
/// The least time of a round.
const ROUND_TIME: Duration = Duration::from_micros(150);
/// More words than any book has.
const MAX_WORDS: usize = 60_000;
const MAX_BYTES: usize = 32_768;
/// The rules of a typical book at most.
const TYPICAL_RULES: usize = 24;
/// The node word of a variable.
const VARIABLE: u16 = 256;
const SIZES: [usize; 4] = [16, 32, 64, 128];

/// The words after a term where picking is measured with some.
const WORDS_AFTER: usize = 64;

/// Books to list small terms of, by a name, how many symbols they have of each arity, and the nodes of the terms.
const LISTS: [(&str, [usize; 8], usize); 12] = [
    ("23 of arity 2", [1, 0, 23, 0, 0, 0, 0, 0], 7),
    ("23 of arity 2, 231 of arity 7", [1, 0, 23, 0, 0, 0, 0, 231], 7),
    ("39 of arity 3", [1, 0, 0, 39, 0, 0, 0, 0], 7),
    ("7 of arity 1", [1, 7, 0, 0, 0, 0, 0, 0], 6),
    ("5 constants, 15 of arity 1", [5, 15, 0, 0, 0, 0, 0, 0], 4),
    ("128 constants, 127 of arity 1", [128, 127, 0, 0, 0, 0, 0, 0], 2),
    ("6 constants, 1 of arity 6", [6, 0, 0, 0, 0, 0, 1, 0], 7),
    ("01's sample", [3, 1, 2, 0, 0, 0, 0, 0], 7),
    ("01's sample", [3, 1, 2, 0, 0, 0, 0, 0], 4),
    ("1 of each arity, 248 of arity 7", [1, 1, 1, 1, 1, 1, 1, 248], 7),
    ("254 of arity 6", [1, 0, 0, 0, 0, 0, 254, 0], 7),
    ("255 constants", [255, 0, 0, 0, 0, 0, 0, 0], 1),
];

extern "C" {
    /// The words of the terms of so many nodes, by `list.c`.
    fn list_terms(arities: *const u8, symbols: usize, nodes: usize, words: *mut u16) -> usize;
}

/// Two terms and the packed book that they are under.
struct Pair {
    book: Vec<u8>,
    left: Vec<u16>,
    right: Vec<u16>,
}

/// Books in one buffer, as the library and as the twin take them.
struct Class {
    buffer: Vec<u8>,
    desks: [Desk; MAX_JOBS],
    jobs: [Job; MAX_JOBS],
}

impl Class {
    fn new(books: impl Iterator<Item = Book>) -> Self {
        let mut class = Class {
            buffer: Vec::new(),
            desks: [Desk::default(); MAX_JOBS],
            jobs: [Job { start: 0, length: 0, marked: 0 }; MAX_JOBS],
        };
        for (index, book) in books.enumerate() {
            let (packed, start, marked) = (book.packed(), class.buffer.len(), book.rules.len() / 2);
            class.desks[index] = Desk { start, length: packed.len(), marked };
            class.jobs[index] = Job { start, length: packed.len(), marked };
            class.buffer.extend(packed);
        }
        class
    }
}

/// Microseconds of one call.
#[derive(Clone, Copy)]
struct Times {
    ours: f64,
    twin: f64,
}

impl Times {
    fn ratio(self) -> f64 {
        self.ours / self.twin
    }
}

/// The rows measured so far, and the word that their names contain.
struct Report {
    filter: String,
    rows: Vec<(String, f64)>,
}

fn main() {
    let filter = std::env::args().skip(1).find(|argument| !argument.starts_with('-')).unwrap_or_default();
    let mut report = Report { filter, rows: Vec::new() };
    println!("Times in microseconds of one call; ratio: library / twin.\n");
    report.books();
    report.turns();
    report.pairs();
    report.terms();
    report.lists();
    report.summary();
}

impl Report {
    fn wants(&self, name: &str) -> bool {
        name.contains(&self.filter)
    }

    /// Opening, closing, marking, pages and converting of books.
    fn books(&mut self) {
        println!("| books | library | twin | ratio |\n|---|---|---|---|");
        let mut random = Random::new(SEED);
        let mut largest =
            |many_rules| -> Vec<Book> { (0..4).map(|_| Book::largest(&mut random, many_rules)).collect() };
        let (many_rules, full_sides) = (largest(true), largest(false));
        let typical: Vec<Book> = (0..40).map(|_| Book::random(&mut random, TYPICAL_RULES)).collect();
        let empty: Vec<Book> = (0..20).map(|_| Book::empty(Signature::random(&mut random))).collect();
        let all_symbols: Vec<Book> = (0..20).map(|_| book_of_255_symbols(&mut random)).collect();
        for (name, books) in [("many rules", &many_rules), ("full sides", &full_sides), ("typical", &typical)] {
            self.decode(&format!("decode {name}"), books);
            self.encode(&format!("encode {name}"), books);
            self.mark(&format!("mark {name}"), books);
            self.page(&format!("page {name}"), books);
            self.convert(&format!("convert {name}"), books);
        }
        self.mark("mark no rules", &empty);
        self.mark("mark 255 symbols", &all_symbols);
    }

    fn decode(&mut self, name: &str, books: &[Book]) {
        let packed: Vec<Vec<u8>> = books.iter().map(Book::packed).collect();
        let (mut ours, mut twins) = (vec![0; MAX_WORDS], vec![0; MAX_WORDS]);
        self.row(
            name,
            &packed,
            |book| ackbo::decode(book, &mut ours).expect("the book is read"),
            |book| twin::decode(book, &mut twins).expect("the book is read"),
        );
    }

    fn encode(&mut self, name: &str, books: &[Book]) {
        let words: Vec<Vec<u16>> = books.iter().map(Book::words).collect();
        let (mut ours, mut twins) = (vec![0; MAX_BYTES], vec![0; MAX_BYTES]);
        self.row(
            name,
            &words,
            |words| ackbo::encode(words, &mut ours).expect("the words are read"),
            |words| twin::encode(words, &mut twins).expect("the words are read"),
        );
    }

    fn mark(&mut self, name: &str, books: &[Book]) {
        let packed: Vec<Vec<u8>> = books.iter().map(Book::packed).collect();
        let (mut ours, mut twins) = ([0; MAX_RULES], [0; MAX_RULES]);
        self.row(
            name,
            &packed,
            |book| ackbo::mark(book, &mut ours).expect("the book is read").falling,
            |book| twin::mark(book, &mut twins).expect("the book is read").falling,
        );
    }

    fn page(&mut self, name: &str, books: &[Book]) {
        let packed: Vec<Vec<u8>> = books.iter().map(Book::packed).collect();
        let (mut ours, mut twins) = (vec![0; MAX_RULES * LINE_BYTES], vec![0; MAX_RULES * LINE_BYTES]);
        self.row(
            name,
            &packed,
            |book| ackbo::page(book, &mut ours).expect("the book is read"),
            |book| twin::page(book, &mut twins).expect("the book is read"),
        );
    }

    /// Converting the books in form 1, their variables renamed.
    fn convert(&mut self, name: &str, books: &[Book]) {
        let mut random = Random::new(SEED);
        let packed: Vec<Vec<u8>> = books.iter().map(|book| book.aged(&mut random).packed()).collect();
        let (mut ours, mut twins) = (vec![0; MAX_BYTES], vec![0; MAX_BYTES]);
        self.row(
            name,
            &packed,
            |book| ackbo::convert(book, &mut ours).expect("the book is of form 1"),
            |book| twin::convert(book, &mut twins).expect("the book is of form 1"),
        );
    }

    /// A turn over 1, 8 and 32 jobs, each with a book of its own of which half the rules are marked; the one that is
    /// marked is in the middle of the first book.
    fn turns(&mut self) {
        println!("\n| turns | library | twin | ratio |\n|---|---|---|---|");
        let mut random = Random::new(SEED);
        let mut class = |make: &dyn Fn(&mut Random) -> Book| Class::new((0..MAX_JOBS).map(|_| make(&mut random)));
        let classes = [
            ("many rules", class(&|random| Book::largest(random, true))),
            ("full sides", class(&|random| Book::largest(random, false))),
            ("typical", class(&|random| Book::random(random, TYPICAL_RULES))),
        ];
        for (name, class) in &classes {
            for count in [1, 8, MAX_JOBS] {
                self.turn(&format!("turn of {count}, {name}"), class, count);
            }
        }
    }

    fn turn(&mut self, name: &str, class: &Class, count: usize) {
        let (mut ours, mut twins) = (vec![0; JOB_MARKS * count], vec![0; JOB_MARKS * count]);
        self.row(
            name,
            std::slice::from_ref(class),
            |class| {
                let mut desks = class.desks;
                let turn = ackbo::turn(&mut desks[..count], &class.buffer, &mut ours, count - 1);
                match turn.expect("the books are read") {
                    Turn::Served(place) => place,
                    Turn::Idle => count,
                }
            },
            |class| {
                let mut jobs = class.jobs;
                let turn = twin::turn(&mut jobs[..count], &class.buffer, &mut twins, count - 1);
                turn.expect("the books are read").unwrap_or(count)
            },
        );
    }

    /// Measures one call on each of the inputs, and takes the mean.
    fn row<T>(
        &mut self,
        name: &str,
        inputs: &[T],
        mut ours: impl FnMut(&T) -> usize,
        mut twins: impl FnMut(&T) -> usize,
    ) {
        if !self.wants(name) {
            return;
        }
        let mut mean = Times { ours: 0.0, twin: 0.0 };
        for input in inputs {
            assert_eq!(ours(input), twins(input), "{name}");
            let times = measure([&mut || ours(black_box(input)), &mut || twins(black_box(input))]);
            mean.ours += times[0] / inputs.len() as f64;
            mean.twin += times[1] / inputs.len() as f64;
        }
        println!("| {name} | {:.2} | {:.2} | {:.2} |", mean.ours, mean.twin, mean.ratio());
        self.rows.push((name.into(), mean.ratio()));
    }

    /// Operations on the sides of a rule of a typical book, on a long and deep pair under the smallest book with its
    /// symbols, and on the sides of the longest rule of a book of 32,768 bytes, each under its book.
    fn pairs(&mut self) {
        println!("\n| pairs | library | twin | ratio |\n|---|---|---|---|");
        let mut random = Random::new(SEED);
        let typical: Vec<Book> = (0..40).map(|_| Book::random(&mut random, TYPICAL_RULES)).collect();
        let largest: Vec<Book> = (0..4).map(|_| Book::largest(&mut random, false)).collect();
        for (name, pairs) in [
            ("typical", longest_rules(&typical)),
            ("128 nodes", vec![family_pair("mark-10"), family_pair("deepest/nearly")]),
            ("largest", longest_rules(&largest)),
        ] {
            self.compare(&format!("compare {name}"), &pairs);
            self.pick(&format!("pick {name}"), &pairs);
            let followed: Vec<Pair> = pairs.iter().map(followed).collect();
            self.pick(&format!("pick {name}, followed"), &followed);
            self.fingerprint(&format!("fingerprint {name}"), &pairs);
            self.oftener(&format!("oftener {name}"), &pairs);
        }
        self.fingerprint("fingerprint a bag of 64", &[family_pair("wide-constants/equal")]);
        self.fingerprint("fingerprint 64 leaves", &[family_pair("left-comb/equal")]);
        self.fingerprint("fingerprint 63 bags", &[family_pair("deepest/equal")]);
        self.oftener("oftener variable 0", &[variables_pair(Some(0))]);
        self.oftener("oftener variable 15", &[variables_pair(Some(15))]);
        self.oftener("oftener none", &[variables_pair(None)]);
    }

    fn compare(&mut self, name: &str, pairs: &[Pair]) {
        self.row(
            name,
            pairs,
            |pair| ackbo::compare(&pair.book, &pair.left, &pair.right).expect("the terms are read").relation as usize,
            |pair| twin::compare(&pair.book, &pair.left, &pair.right).expect("the terms are read").relation as usize,
        );
    }

    fn pick(&mut self, name: &str, pairs: &[Pair]) {
        self.row(
            name,
            pairs,
            |pair| ackbo::pick(&pair.book, &pair.left, &pair.right).expect("the terms are read").part().len(),
            |pair| match twin::pick(&pair.book, &pair.left, &pair.right).expect("the terms are read") {
                Pick::Left(count) | Pick::Right(count) => count,
                Pick::Equivalent | Pick::Unrelated => 0,
            },
        );
    }

    /// The fingerprints of the left terms.
    fn fingerprint(&mut self, name: &str, pairs: &[Pair]) {
        self.row(
            name,
            pairs,
            |pair| ackbo::fingerprint(&pair.book, &pair.left).expect("the term is read") as usize,
            |pair| twin::fingerprint(&pair.book, &pair.left).expect("the term is read") as usize,
        );
    }

    fn oftener(&mut self, name: &str, pairs: &[Pair]) {
        self.row(
            name,
            pairs,
            |pair| {
                let variable = ackbo::oftener(&pair.book, &pair.left, &pair.right).expect("the terms are read");
                variable.map_or(VARIABLES, usize::from)
            },
            |pair| twin::oftener(&pair.book, &pair.left, &pair.right).expect("the terms are read"),
        );
    }

    /// Comparing pairs of terms, each family under the smallest book with its symbols. The last columns are less the
    /// time of comparing a variable with itself under that book.
    fn terms(&mut self) {
        println!("\n| terms | nodes | library | twin | ratio | library, terms alone | twin, terms alone | ratio |");
        println!("|---|---|---|---|---|---|---|---|");
        for family in families().iter().filter(|family| self.wants(&family.name)).collect::<Vec<&Family>>() {
            let book = family.book();
            for nodes in SIZES {
                let (left, right) = family.pair(nodes);
                let (times, alone) = compare(&book, &left, &right);
                print!("| {} | {nodes} | {:.2} | {:.2} | {:.2} ", family.name, times.ours, times.twin, times.ratio());
                println!("| {:.2} | {:.2} | {:.2} |", alone.ours, alone.twin, alone.ratio());
                self.rows.push((format!("{} {nodes}", family.name), times.ratio()));
            }
        }
    }

    /// Lists of small terms against the loop in C, which is given the arities. The last columns are less the time of
    /// reading the book.
    fn lists(&mut self) {
        println!("\n| lists | nodes | words | library | C | ratio | library, past the book | ratio |");
        println!("|---|---|---|---|---|---|---|---|");
        for (name, counts, nodes) in LISTS.into_iter().filter(|(name, ..)| self.wants(&format!("list {name}"))) {
            let arities: Vec<u8> = counts.iter().zip(0..).flat_map(|(&count, arity)| vec![arity; count]).collect();
            let book = book_of_arities(&arities);
            let ours = ackbo::listed(&book, nodes).expect("the terms are few");
            let mut words = vec![0; ours.len()];
            let mut by_c = |words: &mut [u16]| unsafe {
                list_terms(black_box(arities.as_ptr()), arities.len(), nodes, words.as_mut_ptr())
            };
            assert_eq!((by_c(&mut words), &words), (ours.len(), &ours), "{name}");
            let mut room = words.clone();
            let [library, c, reading] = measure([
                &mut || ackbo::list(black_box(&book), &mut words, nodes).expect("there is room"),
                &mut || by_c(&mut room),
                &mut || ackbo::count(black_box(&book), 0).expect_err("0 is no size").offset,
            ]);
            print!("| {name} | {nodes} | {} | {library:.2} | {c:.2} | {:.2} ", ours.len(), library / c);
            println!("| {:.2} | {:.2} |", library - reading, (library - reading) / c);
        }
    }

    fn summary(&self) {
        let slower = self.rows.iter().filter(|(_, ratio)| *ratio > 1.0).count();
        println!("\n{} rows, {slower} with a ratio above 1", self.rows.len());
        if let Some((name, ratio)) = self.rows.iter().max_by(|(_, a), (_, b)| a.total_cmp(b)) {
            println!("greatest ratio: {ratio:.2}, {name}");
        }
    }
}

/// A book without rules whose symbols have those arities.
fn book_of_arities(arities: &[u8]) -> Vec<u8> {
    let symbols = arities.iter().zip(0..).map(|(&arity, rank)| Symbol { arity, ac: false, weight: 1, rank });
    Book::empty(Signature { w0: 1, symbols: symbols.collect() }).packed()
}

fn book_of_255_symbols(random: &mut Random) -> Book {
    loop {
        let book = Book::random(random, TYPICAL_RULES);
        if book.signature.symbols.len() == 255 && !book.rules.is_empty() {
            return book;
        }
    }
}

/// The sides of the longest rule of each book that has rules.
fn longest_rules(books: &[Book]) -> Vec<Pair> {
    let longest = |book: &Book| {
        let (left, right) = book.rules.iter().max_by_key(|(left, right)| left.len() + right.len())?.clone();
        Some(Pair { book: book.packed(), left, right })
    };
    books.iter().filter_map(longest).collect()
}

/// The largest pair of a family, under its book.
fn family_pair(name: &str) -> Pair {
    let family = families().into_iter().find(|family| family.name == name).expect("a family's name");
    let (left, right) = family.pair(MAX_NODES);
    Pair { book: family.book(), left, right }
}

/// Two sums of 63 variables and a constant, which one variable takes the place of on the right.
fn variables_pair(oftener: Option<u16>) -> Pair {
    let mut pair = family_pair("wide-variables/equal");
    let constant = *pair.left.iter().find(|&&word| word < VARIABLE && word != pair.left[0]).expect("there is one");
    if let (Some(number), Some(leaf)) = (oftener, pair.right.iter_mut().find(|word| **word == constant)) {
        *leaf = VARIABLE + number;
    }
    pair
}

/// The pair with words after both terms.
fn followed(pair: &Pair) -> Pair {
    let after = |term: &Vec<u16>| [term.as_slice(), &[VARIABLE; WORDS_AFTER]].concat();
    Pair { book: pair.book.clone(), left: after(&pair.left), right: after(&pair.right) }
}

/// The times of a comparison, and those without what the book costs.
fn compare(book: &[u8], left: &[u16], right: &[u16]) -> (Times, Times) {
    let ours =
        |left, right| ackbo::compare(black_box(book), black_box(left), black_box(right)).expect("the terms are read");
    let twins =
        |left, right| twin::compare(black_box(book), black_box(left), black_box(right)).expect("the terms are read");
    assert_eq!(ours(left, right).relation as usize, twins(left, right).relation as usize);
    assert_eq!(ours(left, right).margin, twins(left, right).margin);
    let [ours, twin, our_book, twin_book] = measure([
        &mut || ours(left, right).relation as usize,
        &mut || twins(left, right).relation as usize,
        &mut || ours(&[VARIABLE], &[VARIABLE]).relation as usize,
        &mut || twins(&[VARIABLE], &[VARIABLE]).relation as usize,
    ]);
    (Times { ours, twin }, Times { ours: ours - our_book, twin: twin - twin_book })
}

/// The median times of one run of each, in microseconds.
fn measure<const N: usize>(mut runs: [&mut dyn FnMut() -> usize; N]) -> [f64; N] {
    let repeats = runs.each_mut().map(|run| repeats(run));
    let mut rounds = [const { Vec::new() }; N];
    for _ in 0..ROUNDS {
        for (index, run) in runs.iter_mut().enumerate() {
            rounds[index].push(time(repeats[index], run).as_secs_f64() * 1e6 / f64::from(repeats[index]));
        }
    }
    rounds.map(|mut times| {
        times.sort_by(f64::total_cmp);
        times[ROUNDS / 2]
    })
}

/// The runs that fill a round.
fn repeats(run: &mut dyn FnMut() -> usize) -> u32 {
    let mut repeats = 1;
    while time(repeats, run) < ROUND_TIME {
        repeats *= 2;
    }
    repeats
}

fn time(repeats: u32, run: &mut dyn FnMut() -> usize) -> Duration {
    let start = Instant::now();
    for _ in 0..repeats {
        black_box(run());
    }
    start.elapsed()
}
