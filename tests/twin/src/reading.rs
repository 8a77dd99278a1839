//! Reading rule files and terms: one description for packed bits and for words, and for both forms.

use crate::bits::BitCursor;
use crate::error::*;
use crate::format::{Form, System, MAX_BYTES};
use crate::source::{width, Source, WordCursor};
use crate::table::{Symbol, Table, FIRST_VARIABLE, MAX_NODES, VARIABLES};

/// The arity of every AC symbol.
const AC_SYMBOL_ARITY: u8 = 2;
/// The node word after that of the last variable: where it is next, no variable is out of turn.
const ALL_VARIABLES: u16 = FIRST_VARIABLE + VARIABLES as u16;

/// Room for the nodes of a side.
type Side = [u16; MAX_NODES];

/// Reads a packed rule file of a form, the first input of its operation.
pub fn read_packed(packed: &[u8], form: Form) -> Result<System, Error> {
    if packed.len() > MAX_BYTES {
        return Err(Error { code: FILE_TOO_LONG, input: 0, offset: 0 });
    }
    read_system(&mut BitCursor::new(packed), form)
}

/// Reads a rule file of a form in words, the first input of its operation.
pub fn read_words(words: &[u16], form: Form) -> Result<System, Error> {
    read_system(&mut WordCursor::new(words, 0), form)
}

fn read_system<S: Source>(source: &mut S, form: Form) -> Result<System, Error> {
    read_form(source, form)?;
    let symbols = nonzero(source, width::SYMBOL_COUNT, NO_SYMBOL)?;
    let w0 = nonzero(source, width::W0, NO_WEIGHT)?;
    let rules = usize::from(source.field(width::RULE_COUNT)?);
    let mut table = Table::new(w0);
    let mut taken = [false; 1 << width::RANK];
    let mut weights = Vec::new();
    for _ in 0..symbols {
        let (symbol, weight_offset) = read_symbol(source, form, w0, &mut taken)?;
        table.push(symbol);
        weights.push(weight_offset);
    }
    check_wrapper(source, &table, &weights)?;
    let mut system = System::new(table, rules);
    let mut side = [0; MAX_NODES];
    for _ in 0..rules {
        read_rule(source, &mut system, first_in_turn(form), &mut side)?;
    }
    source.finish()?;
    Ok(system)
}

/// Reads the form, which must be the given one.
fn read_form<S: Source>(source: &mut S, form: Form) -> Result<(), Error> {
    let offset = source.offset();
    let found = source.field(width::FORM)?;
    if found == form as u16 {
        return Ok(());
    }
    let code = if found == Form::One as u16 { OLD_FORM } else { FORM };
    Err(source.error(code, offset))
}

/// A field that must not be 0.
fn nonzero<S: Source>(source: &mut S, width: u32, code: u8) -> Result<u16, Error> {
    let offset = source.offset();
    match source.field(width)? {
        0 => Err(source.error(code, offset)),
        value => Ok(value),
    }
}

/// The next symbol and the offset of its weight; `taken` holds the ranks of the earlier ones.
fn read_symbol<S: Source>(source: &mut S, form: Form, w0: u16, taken: &mut [bool]) -> Result<(Symbol, usize), Error> {
    let arity_offset = source.offset();
    let arity = source.field(width::ARITY)? as u8;
    let ac = source.field(width::AC)? == 1;
    if ac && arity != AC_SYMBOL_ARITY {
        return Err(source.error(AC_ARITY, arity_offset));
    }
    let weight_offset = source.offset();
    let weight = source.field(width::WEIGHT)?;
    let least = match arity {
        0 => w0,
        1 if form == Form::One => 1,
        _ => 0,
    };
    if weight < least {
        return Err(source.error(INADMISSIBLE, weight_offset));
    }
    let rank_offset = source.offset();
    let rank = source.field(width::RANK)? as u8;
    if std::mem::replace(&mut taken[usize::from(rank)], true) {
        return Err(source.error(RANK_TAKEN, rank_offset));
    }
    Ok((Symbol { arity, ac, weight, rank }, weight_offset))
}

/// Refuses the first symbol of arity 1 that weighs 0 and whose rank is not above every other; `weights` holds the
/// offsets of the weights.
fn check_wrapper<S: Source>(source: &S, table: &Table, weights: &[usize]) -> Result<(), Error> {
    let highest = table.symbols().iter().map(|symbol| symbol.rank).max();
    for (symbol, &offset) in table.symbols().iter().zip(weights) {
        if symbol.is_wrapper() && Some(symbol.rank) != highest {
            return Err(source.error(INADMISSIBLE, offset));
        }
    }
    Ok(())
}

/// The first variable in turn in a rule.
fn first_in_turn(form: Form) -> u16 {
    match form {
        Form::One => ALL_VARIABLES,
        Form::Two => FIRST_VARIABLE,
    }
}

/// Reads both sides of a rule; `next` is the first variable in turn.
fn read_rule<S: Source>(source: &mut S, system: &mut System, mut next: u16, side: &mut Side) -> Result<(), Error> {
    for _ in 0..2 {
        let len = read_side(source, &system.table, &mut next, side)?;
        system.push_side(&side[..len]);
    }
    Ok(())
}

/// Reads a term in prefix order; hands back the count of its nodes. A variable above `next`, the first one that has not
/// been met, is out of turn.
fn read_side<S: Source>(source: &mut S, table: &Table, next: &mut u16, side: &mut Side) -> Result<usize, Error> {
    let mut len = 0;
    let mut called_for = 1;
    while called_for > 0 {
        if len == MAX_NODES {
            return Err(source.error(TOO_MANY_NODES, source.offset()));
        }
        let (node, offset) = source.node()?;
        let arity = table.known_arity(node).ok_or_else(|| source.error(UNKNOWN_SYMBOL, offset))?;
        if node > *next {
            return Err(source.error(OUT_OF_TURN, offset));
        }
        *next += u16::from(node == *next);
        side[len] = node;
        len += 1;
        called_for = called_for - 1 + arity;
    }
    Ok(len)
}

/// Reads a term over a table at the front of the words of an input; hands back the position after it.
fn read_term<'a>(table: &Table, words: &'a [u16], input: u8) -> Result<WordCursor<'a>, Error> {
    let mut source = WordCursor::new(words, input);
    read_side(&mut source, table, &mut { ALL_VARIABLES }, &mut [0; MAX_NODES])?;
    Ok(source)
}

/// Checks that the words of an input are one term over a table.
pub fn check_term(table: &Table, words: &[u16], input: u8) -> Result<(), Error> {
    read_term(table, words, input)?.finish()
}

/// The term over a table at the front of the words of an input; the words after it are not looked at.
pub fn first_term<'a>(table: &Table, words: &'a [u16], input: u8) -> Result<&'a [u16], Error> {
    let end = read_term(table, words, input)?.offset();
    Ok(&words[..end])
}
