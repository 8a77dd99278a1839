//! How often each error came up.

use twin::Error;

/// The errors of reading a book.
pub const BOOK_ERRORS: [u8; 13] = [1, 2, 3, 4, 5, 6, 7, 8, 9, 10, 11, 17, 18];
/// The errors of reading a book of form 1, as the converter does.
pub const OLD_BOOK_ERRORS: [u8; 11] = [1, 2, 3, 4, 5, 6, 7, 8, 9, 10, 11];
/// The errors of a term.
pub const TERM_ERRORS: [u8; 5] = [2, 9, 10, 14, 15];

/// The calls of one operation, those accepted, and the refused ones by input and code.
#[derive(Default)]
pub struct Counts {
    calls: usize,
    accepted: usize,
    errors: [[usize; 26]; 3],
}

impl Counts {
    pub fn add<T>(&mut self, result: &Result<T, Error>) {
        self.calls += 1;
        match result {
            Ok(_) => self.accepted += 1,
            Err(error) => self.errors[usize::from(error.input)][usize::from(error.code)] += 1,
        }
    }

    pub fn calls(&self) -> usize {
        self.calls
    }

    pub fn accepted(&self) -> usize {
        self.accepted
    }

    pub fn print(&self, operation: &str) {
        println!("{operation}: {} calls, {} accepted", self.calls, self.accepted);
        for (input, counts) in self.errors.iter().enumerate() {
            let reached = counts.iter().enumerate().filter(|(_, &count)| count > 0);
            let list: Vec<String> = reached.map(|(code, count)| format!("{code}: {count}")).collect();
            if !list.is_empty() {
                println!("  refused for input {input}, by number: {}", list.join(", "));
            }
        }
    }

    /// Asserts that each of these errors of an input came up, and no other one of it.
    pub fn require(&self, input: usize, codes: &[u8]) {
        for (code, &count) in self.errors[input].iter().enumerate() {
            assert_eq!(count > 0, codes.contains(&(code as u8)), "error {code} of input {input} came up {count} times");
        }
    }
}
