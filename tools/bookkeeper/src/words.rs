//! The words for marks and refusals.

pub use ackbo::{Mark, Refusal};
