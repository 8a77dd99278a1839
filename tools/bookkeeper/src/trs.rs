//! The exchange text of rewriting, TRS: `(VAR ..)`, `(THEORY (AC ..))`, `(RULES ..)` and `(COMMENT ..)`.
//!
//! `token` and `read` read one, `system` is what they read; `import` makes a text of it, and `export` one of a book. A
//! TRS text has no weights and no order: `export` puts them into a comment, where `import` finds them again.

pub mod export;
pub mod import;
mod name;
mod read;
mod system;
mod token;

/// The words that begin the parts of a TRS text.
pub const SECTIONS: [&str; 5] = ["VAR", "RULES", "THEORY", "COMMENT", "STRATEGY"];

/// The words that begin the lines of weights and of the order.
const CERTIFICATE: [&str; 3] = ["w0 ", "symbol ", "order "];
