//! `list`: a book as a text.

use super::Answer;
use crate::complaint::ACCEPTED;
use crate::input::{self, Read};
use crate::options::Options;
use crate::print;

pub fn run(options: &Options, read: Read) -> Answer {
    let [file] = options.operands(["BOOK"])?;
    let loaded = input::load(read, file, options)?;
    Ok((print::book(&loaded.sheet, &loaded.names).into(), ACCEPTED))
}
