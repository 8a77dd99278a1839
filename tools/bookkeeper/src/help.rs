//! What `bookkeeper --help` prints.

/// The versions of the program and of the library's interface.
pub fn version() -> String {
    format!("bookkeeper {}, ackbo {}\n", env!("CARGO_PKG_VERSION"), ackbo::VERSION)
}

pub const TEXT: &str = "\
bookkeeper: rule books as texts, and what the library says of them

  bookkeeper assemble FILE [-o BOOK]            the book of a text
  bookkeeper list BOOK [--names FILE]           a book as a text
  bookkeeper mark FILE                          each rule with its mark and margin, what may be changed, the verdict
      --brief    only the rules that do not fall    --json    for programs    --listing    as marker prints them
  bookkeeper page FILE                          the page for the notice board, 64 characters a rule
  bookkeeper convert BOOK [-o BOOK]             a stored book of form 1 as one of form 2
  bookkeeper compare FILE LEFT RIGHT            how two terms stand to each other
  bookkeeper pick FILE LEFT RIGHT               two terms as the rule that falls
  bookkeeper fingerprint FILE TERM              the number that AC-equal terms share
  bookkeeper terms FILE N [--count]             the variable-free terms of N nodes, 1 to 7, or how many there are
  bookkeeper import TRS [-o FILE]               a TRS text, (VAR ..)(THEORY (AC ..))(RULES ..), as a text to complete
  bookkeeper export FILE [-o TRS]               the rules as a TRS text, with weights and order in a comment
  bookkeeper --version                          the versions of the program and of the library's interface

FILE is a text or a book, - the standard input. A book has no names: + for its first AC symbol, c0, f1 by number and
x, y, z for variables, or those of a text by --names FILE. What is UTF-8 without control characters is taken for a
text; --text and --book say which it is. -o FILE writes to a file, which is none that is read; -- ends the options.

A text, by an example (docs/BOOKS.md has the grammar):

  w0 1                              # the weight of a variable
  variables x y
  symbol zero arity 0 weight 1
  symbol +    arity 2 ac weight 0   # an operator stands between its arguments
  symbol neg  arity 1 weight 1
  order neg > + > zero              # or `rank 2` and so on at the end of the symbols' lines
  x + zero -> x
  neg(neg(x)) -> x

  $ bookkeeper mark FILE
  rule 0, line 7: x + zero -> x
      falls by weight (mark 1), margin 1
  ..

Exit status: 0 the book is accepted, or the question answered; 1 it is returned, or pick finds neither side greater;
2 the library refuses the book, a term or N; 3 the arguments or the text are wrong, or a file cannot be read or
written. Results go to the standard output, complaints to the standard error.
";
