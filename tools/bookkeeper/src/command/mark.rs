//! `mark`: the marks of a book, in words, by lines of numbers, or as JSON.

use super::Answer;
use crate::complaint::Complaint;
use crate::input::{self, Read};
use crate::marks::Marking;
use crate::options::Options;
use crate::{json, listing, report};

pub fn run(options: &Options, read: Read) -> Answer {
    let [file] = options.operands(["FILE"])?;
    let loaded = input::load(read, file, options)?;
    let marking = Marking::of(&loaded)?;
    let text = match (options.brief, options.json, options.listing) {
        (brief, false, false) => report::text(&loaded, &marking, brief),
        (false, true, false) => json::text(&loaded, &marking),
        (false, false, true) => listing::text(&marking),
        _ => return Err(Complaint::of_use("of --brief, --json and --listing mark takes one")),
    };
    Ok((text.into(), marking.status()))
}
