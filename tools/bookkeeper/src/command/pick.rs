//! `pick`: two terms as the rule that falls.

use ackbo::Side;

use super::question::Question;
use super::Answer;
use crate::complaint::{ACCEPTED, RETURNED};
use crate::input::Read;
use crate::options::Options;

pub fn run(options: &Options, read: Read) -> Answer {
    let [file, left, right] = options.operands(["FILE", "LEFT", "RIGHT"])?;
    let question = Question::read(options, read, file, &[left, right])?;
    let (left, right) = (question.words(0), question.words(1));
    let side = ackbo::pick(&question.loaded.book, &left, &right).map_err(|error| question.refused(error))?;
    let rule = |greater: &[u16], other: &[u16]| format!("{} -> {}\n", question.print(greater), question.print(other));
    let (text, status) = match side {
        Side::Left(part) => (rule(part, &right), ACCEPTED),
        Side::Right(part) => (rule(part, &left), ACCEPTED),
        Side::Equivalent => ("neither: the terms are AC-equal\n".into(), RETURNED),
        Side::Unrelated => ("neither: the terms are unrelated\n".into(), RETURNED),
    };
    Ok((text.into(), status))
}
