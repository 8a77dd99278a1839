//! Generated inputs, the same for the same seed: signatures, terms, pairs of terms aimed at each mark, rule files from
//! empty to largest, and damage aimed at each error. `call` draws a whole call of one of the operations.
//!
//! - `Random::new(seed)` is the source of all choices.
//! - `Signature::random`, `Signature::tree`, `Signature::variant`, `Signature::lowered`, `Signature::pair` and
//!   `Signature::oftener_pair` make terms.
//! - `Book::random`, `Book::of_all_variables`, `Book::empty` and `Book::largest` make valid rule files; `Book::aged`
//!   gives one of form 1; `packed` and `words` write them.
//! - `damaged_packed`, `damaged_words` and `damaged_term` make inputs that are mostly refused; `followed` puts words
//!   after a term.
//! - `call` makes a `Call`; `Call::run` gives the `Reply` of this crate.
//! - `families` are pairs of terms that grow with a count of nodes.

mod book;
mod calls;
mod damage;
mod families;
mod pairs;
mod random;
mod shapes;
mod signature;
mod tree;

pub use book::{pack, Book, Field, Role, Rule, MAX_RULES};
pub use calls::{call, Call, Reply, UNTOUCHED};
pub use damage::{break_field, damaged_packed, damaged_term, damaged_words, followed};
pub use families::{families, Family};
pub use random::Random;
pub use signature::Signature;
pub use tree::Tree;
