//! `compare`: how two terms stand to each other, and by which case of the order.

use ackbo::Relation;

use super::question::Question;
use super::Answer;
use crate::complaint::ACCEPTED;
use crate::input::Read;
use crate::options::Options;
use crate::sheet::renumbered;
use crate::trial;
use crate::words::Mark;

/// What the words of a mark of a rule that falls begin with.
const FALLS: &str = "falls ";

pub fn run(options: &Options, read: Read) -> Answer {
    let [file, left, right] = options.operands(["FILE", "LEFT", "RIGHT"])?;
    let question = Question::read(options, read, file, &[left, right])?;
    let (left, right) = (question.words(0), question.words(1));
    let reply = ackbo::compare(&question.loaded.book, &left, &right).map_err(|error| question.refused(error))?;
    let words = |left: &[u16], right: &[u16]| {
        let (left, right) = renumbered(left, right);
        let mark = trial::rule_mark(&question.loaded.sheet, (&left, &right));
        mark.and_then(Mark::new).map_or("", Mark::text)
    };
    let case = |words: &'static str| words.strip_prefix(FALLS).map_or(String::new(), |case| format!(", {case}"));
    let (relation, why) = match reply.relation {
        Relation::Greater => ("is greater than", case(words(&left, &right))),
        Relation::Less => ("is less than", case(words(&right, &left))),
        Relation::Equivalent => ("is AC-equal to", String::new()),
        Relation::Unrelated => {
            let both = (words(&left, &right), words(&right, &left));
            ("is unrelated to", format!(", {} one way and {} the other", both.0, both.1))
        }
    };
    let (left, right) = (question.print(&left), question.print(&right));
    Ok((format!("{left} {relation} {right}{why}, margin {}\n", reply.margin).into(), ACCEPTED))
}
