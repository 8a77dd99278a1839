//! All refusals of a text: the library gives the first, and the next one once that is mended.

use ackbo::Error;

use crate::complaint::Complaint;
use crate::field::{find, Field as Name, Source, ARITY, RANK, W0, WEIGHT};
use crate::parse::MOST_FAULTS;
use crate::refusal;
use crate::sheet::{self, ENTRY, FIRST_VARIABLE, HEADER};
use crate::text::{Fields, Text};

/// The refusal of an AC symbol, which is placed at its arity.
const AC_NOT_BINARY: u8 = 6;
/// The arity that goes with every weight and AC mark.
const FREE_ARITY: u16 = 2;
/// The words of w0 and of the count of rules in a sheet; those of a symbol's fields after its first word.
const W0_WORD: usize = 2;
const RULES_WORD: usize = 3;
const AC_WORD: usize = 1;
const WEIGHT_WORD: usize = 2;
const RANK_WORD: usize = 3;

/// The complaints of a text whose fields the library refused first with this.
pub fn refusals(text: &Text, fields: Fields, first: Error) -> Complaint {
    let mut mender = Mender { shortened: vec![0; fields.rules.len()], fields, ranks_hold: true };
    let (mut faults, mut found) = (Vec::new(), Some(first));
    while let Some(error) = found.filter(|_| faults.len() <= MOST_FAULTS) {
        let words = mender.fields.words();
        let name = find(Source::Words(&words), error.offset).field;
        let place = mender.fields.get(error.offset).map_or(text.end, |field| field.place);
        if mender.is_sure(name) {
            faults.push(refusal::of_text(error, &words, place, mender.word(error, name), &text.names));
        }
        found = mender.mend(error, name).and_then(|()| sheet::encode(&mender.fields.words()).err());
    }
    Complaint::all(faults, MOST_FAULTS).unwrap_or_else(|| Complaint::refused("the library refuses the book"))
}

/// The fields of a text, mended so far.
struct Mender {
    fields: Fields,
    /// By how many words each rule is shorter than it was.
    shortened: Vec<usize>,
    /// Whether all ranks are those of the text.
    ranks_hold: bool,
}

impl Mender {
    /// The word of a refusal in the text's own sheet.
    fn word(&self, error: Error, name: Name) -> usize {
        let rule = if let Name::Node { rule, .. } = name { rule } else { 0 };
        error.offset + self.shortened.iter().take(rule).sum::<usize>()
    }

    /// Whether the fault of a field is the text's own: a symbol of arity 1 may weigh 0 by its rank.
    fn is_sure(&self, name: Name) -> bool {
        let arity = |symbol: usize| self.fields.head[HEADER + ENTRY * symbol].word;
        self.ranks_hold || !matches!(name, Name::Entry { symbol, part: WEIGHT } if arity(symbol) == 1)
    }

    /// Mends the field at fault, if that leaves a text to be asked about.
    fn mend(&mut self, error: Error, name: Name) -> Option<()> {
        match name {
            Name::Header(W0) => self.fields.head[W0_WORD].word = 1,
            Name::Entry { symbol, part } => self.mend_symbol(error, HEADER + ENTRY * symbol, part)?,
            Name::Node { rule, .. } => self.mend_rule(rule),
            _ => return None,
        }
        Some(())
    }

    /// Mends a symbol whose first word is given. No rule is read under an arity that is not its author's.
    fn mend_symbol(&mut self, error: Error, first: usize, part: &str) -> Option<()> {
        let head = &mut self.fields.head;
        match part {
            ARITY if error.code == AC_NOT_BINARY => head[first + AC_WORD].word = 0,
            ARITY => {
                head[first].word = FREE_ARITY;
                head[RULES_WORD].word = 0;
                self.fields.rules.clear();
            }
            WEIGHT => head[first + WEIGHT_WORD].word = head[W0_WORD].word,
            RANK => {
                let taken = |rank: &u16| head[HEADER..].chunks(ENTRY).any(|entry| entry[RANK_WORD].word == *rank);
                let free = (0..=u16::from(u8::MAX)).find(|rank| !taken(rank))?;
                head[first + RANK_WORD].word = free;
                self.ranks_hold = false;
            }
            _ => return None,
        }
        Some(())
    }

    /// Puts the rule from a variable to itself in the place of a rule.
    fn mend_rule(&mut self, rule: usize) {
        let nodes = &mut self.fields.rules[rule];
        let whole = nodes.len() + self.shortened[rule];
        nodes.truncate(2);
        nodes.iter_mut().for_each(|node| node.word = FIRST_VARIABLE);
        self.shortened[rule] = whole - nodes.len();
    }
}
