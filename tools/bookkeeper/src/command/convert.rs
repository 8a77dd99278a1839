//! `convert`: a stored book of form 1 as one of form 2.

use super::Answer;
use crate::complaint::ACCEPTED;
use crate::input::{self, Read};
use crate::options::Options;
use crate::refusal;

pub fn run(options: &Options, read: Read) -> Answer {
    let [file] = options.operands(["BOOK"])?;
    let old = input::bytes(read, file)?;
    let mut book = vec![0; old.len()];
    match ackbo::convert(&old, &mut book) {
        Ok(_) => Ok((book, ACCEPTED)),
        Err(error) => Err(refusal::of_book(error, &old).of(file)),
    }
}
