//! `export`: a book as a TRS text.

use super::Answer;
use crate::complaint::ACCEPTED;
use crate::input::{self, Read};
use crate::options::Options;
use crate::trs;

pub fn run(options: &Options, read: Read) -> Answer {
    let [file] = options.operands(["FILE"])?;
    let loaded = input::load(read, file, options)?;
    Ok((trs::export::text(&loaded).into(), ACCEPTED))
}
