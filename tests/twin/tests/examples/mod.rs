//! Theories with rules, as the program `cases` has them.

pub mod articles;
pub mod sample;
