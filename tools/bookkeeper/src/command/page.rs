//! `page`: the page for the notice board, a line of 64 characters for each rule.

use super::Answer;
use crate::input::{self, Read};
use crate::marks::Marking;
use crate::options::Options;
use crate::refusal;

pub fn run(options: &Options, read: Read) -> Answer {
    let [file] = options.operands(["FILE"])?;
    let loaded = input::load(read, file, options)?;
    let mut page = vec![0; ackbo::LINE_BYTES * loaded.sheet.rules().len()];
    ackbo::page(&loaded.book, &mut page).map_err(|error| refusal::of_book(error, &loaded.book))?;
    Ok((page, Marking::of(&loaded)?.status()))
}
