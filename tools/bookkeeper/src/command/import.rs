//! `import`: the text of a TRS text.

use super::Answer;
use crate::complaint::ACCEPTED;
use crate::input::{self, Read};
use crate::look;
use crate::options::Options;
use crate::trs;

pub fn run(options: &Options, read: Read) -> Answer {
    let [file] = options.operands(["TRS"])?;
    let bytes = input::bytes(read, file)?;
    let text = look::utf8(&bytes).and_then(|source| {
        let text = trs::import::text(source);
        text.map_err(|complaint| complaint.shown(source))
    });
    Ok((text.map_err(|complaint| complaint.of(file))?.into(), ACCEPTED))
}
