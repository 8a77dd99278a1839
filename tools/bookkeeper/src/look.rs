//! What the bytes of a file are: a text, a text in another encoding, or a book.

use crate::complaint::{Complaint, Place};
use crate::hint;
use crate::input::MAX_INPUT;

/// Of this many bytes of a text with bytes that do not belong there, one may be such a byte.
const ONE_WRONG_OF: usize = 8;
/// The greatest form of a book; its first byte has the form in its upper half.
const LAST_FORM: u8 = 3;

/// Whether bytes look like a text: UTF-8, as far as they were read, without control characters other than those that
/// part lines and words; or a text with a few bytes that do not belong there, or in UTF-16.
pub fn like_text(bytes: &[u8]) -> bool {
    let cut_off = |error: std::str::Utf8Error| error.error_len().is_none() && bytes.len() > MAX_INPUT;
    let whole = std::str::from_utf8(bytes).map_or_else(cut_off, |_| true) && !bytes.iter().any(control);
    let wrong = bytes.iter().filter(|byte| control(byte) || !byte.is_ascii()).count();
    whole || is_utf16(bytes) || wrong * ONE_WRONG_OF <= bytes.len()
}

fn control(byte: &u8) -> bool {
    byte.is_ascii_control() && !b"\t\n\r".contains(byte)
}

fn is_utf16(bytes: &[u8]) -> bool {
    bytes.starts_with(&[0xff, 0xfe]) || bytes.starts_with(&[0xfe, 0xff])
}

/// Whether bytes may be those of a book: they begin with a form.
pub fn may_be_book(bytes: &[u8]) -> bool {
    bytes.first().is_some_and(|byte| (1..=LAST_FORM).contains(&(byte >> 4)))
}

/// The source of a text that bytes have, or what they are instead.
pub fn source(bytes: &[u8]) -> Result<&str, Complaint> {
    let source = utf8(bytes)?;
    match hint::of_section(source) {
        Some(hint) => Err(Complaint::of_use(hint)),
        None => Ok(source),
    }
}

/// The source that bytes have, of whatever kind.
pub fn utf8(bytes: &[u8]) -> Result<&str, Complaint> {
    if bytes.len() > MAX_INPUT {
        return Err(Complaint::of_use(format!("a text has at most {MAX_INPUT} bytes")));
    }
    if is_utf16(bytes) {
        return Err(Complaint::of_use("the text is UTF-16, and is read as UTF-8 alone"));
    }
    std::str::from_utf8(bytes).map_err(|error| not_utf8(bytes, error.valid_up_to()))
}

/// The complaint of a byte that is not UTF-8, with its line as far as that can be shown.
fn not_utf8(bytes: &[u8], at: usize) -> Complaint {
    let before = String::from_utf8_lossy(&bytes[..at]);
    let line = before.split('\n').count();
    let column = before.rsplit('\n').next().map_or(0, |start| start.chars().count()) + 1;
    let text = format!("the byte {:#04x} is not UTF-8, which a text is written in", bytes[at]);
    Complaint::at(Place { line, column }, text).shown(&String::from_utf8_lossy(bytes))
}
