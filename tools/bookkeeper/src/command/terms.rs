//! `terms`: the small terms under a book, one a line, or how many there are.

use ackbo::TermCount;

use super::Answer;
use crate::complaint::{quoted, Complaint, ACCEPTED};
use crate::input::{self, Loaded, Read};
use crate::options::Options;
use crate::print::Printer;
use crate::refusal;

pub fn run(options: &Options, read: Read) -> Answer {
    let [file, nodes] = options.operands(["FILE", "N"])?;
    let wrong = |_| Complaint::of_use(format!("{} is no count of nodes", quoted(nodes)));
    let nodes = nodes.parse::<usize>().map_err(wrong)?;
    let loaded = input::load(read, file, options)?;
    let text = if options.count { count(&loaded, nodes)? } else { list(&loaded, nodes)? };
    Ok((text.into(), ACCEPTED))
}

fn count(loaded: &Loaded, nodes: usize) -> Result<String, Complaint> {
    Ok(match ackbo::count(&loaded.book, nodes).map_err(refusal::of_terms)? {
        TermCount::Exactly(number) => format!("{number}\n"),
        TermCount::More => "more\n".into(),
    })
}

fn list(Loaded { book, sheet, names, .. }: &Loaded, nodes: usize) -> Result<String, Complaint> {
    let words = ackbo::listed(book, nodes).map_err(refusal::of_terms)?;
    let printer = Printer { sheet, names, variables: &[] };
    Ok(words.chunks(nodes).map(|term| printer.term(term) + "\n").collect())
}
