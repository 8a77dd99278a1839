//! `fingerprint`: the number that AC-equal terms share.

use super::question::Question;
use super::Answer;
use crate::complaint::ACCEPTED;
use crate::input::Read;
use crate::options::Options;

pub fn run(options: &Options, read: Read) -> Answer {
    let [file, term] = options.operands(["FILE", "TERM"])?;
    let question = Question::read(options, read, file, &[term])?;
    let reply = ackbo::fingerprint(&question.loaded.book, &question.words(0));
    Ok((format!("{}\n", reply.map_err(|error| question.refused(error))?).into(), ACCEPTED))
}
