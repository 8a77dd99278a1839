//! A second implementation of the rule file format and of AC-KBO, written from the papers alone, to be compared with
//! the first one. `reading` and `format` read and write rule files, `coding` opens, closes and converts them, `order`
//! compares terms, `picking` picks the greater one, `fingerprint` gives a number that AC-equivalent terms share,
//! `variables` names a variable that occurs oftener on the right, `enumeration` counts and lists small terms, `marking`
//! orients the rules of a file, `page` puts them on a page, `jobs` marks the rules of many files in turn, and
//! `generate` makes inputs of every kind: valid, damaged, largest and empty ones. Below, 01 is the scope paper, 02 the
//! requests after it, and 000, 001 and 004 are the articles that 01 cites.

mod ackbo;
mod bits;
pub mod coding;
pub mod enumeration;
pub mod error;
pub mod fingerprint;
pub mod format;
pub mod generate;
pub mod jobs;
pub mod marking;
mod multiset;
pub mod order;
pub mod page;
pub mod picking;
mod reading;
mod source;
pub mod table;
mod term;
pub mod variables;

pub use coding::{convert, decode, encode};
pub use enumeration::{count, list};
pub use error::Error;
pub use fingerprint::fingerprint;
pub use jobs::{turn, Job};
pub use marking::{mark, report, Marked};
pub use order::{compare, Comparison, Relation};
pub use page::{board, page};
pub use picking::{pick, Pick};
pub use variables::oftener;
