//! `assemble`: the book of a text.

use super::Answer;
use crate::complaint::ACCEPTED;
use crate::input::{self, Read};
use crate::options::Options;

pub fn run(options: &Options, read: Read) -> Answer {
    let [file] = options.operands(["FILE"])?;
    let book = input::text(read, file)?.assemble().map_err(|complaint| complaint.of(file))?;
    Ok((book, ACCEPTED))
}
