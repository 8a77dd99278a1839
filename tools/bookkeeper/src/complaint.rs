//! What the program complains of, with the status that it then ends with.

use std::{fmt, iter};

/// The status of a book that is accepted, or of a question that is answered.
pub const ACCEPTED: u8 = 0;
/// The status of a book that is returned, or of a question without an answer.
pub const RETURNED: u8 = 1;
/// The status of what the library refuses.
pub const REFUSED: u8 = 2;
/// The status of wrong arguments, and of an input that is no text.
pub const MISUSED: u8 = 3;

/// The most characters of an author's text that a complaint repeats.
const QUOTED: usize = 40;

/// A place in a text; both numbers count from 1, columns by characters.
#[derive(Clone, Copy, Debug, PartialEq, Eq)]
pub struct Place {
    pub line: usize,
    pub column: usize,
}

impl fmt::Display for Place {
    fn fmt(&self, formatter: &mut fmt::Formatter) -> fmt::Result {
        write!(formatter, "line {}, column {}", self.line, self.column)
    }
}

/// The most characters of a line that a complaint shows, and how many of them stand before the place.
const SHOWN: usize = 100;
const SHOWN_BEFORE: usize = 60;

/// A complaint, with its status; the place in a text that it is of, and that line with a mark below the place; and the
/// complaints that follow it.
#[derive(Clone, Debug, PartialEq, Eq)]
pub struct Complaint {
    pub status: u8,
    pub text: String,
    place: Option<Place>,
    excerpt: String,
    more: Vec<Complaint>,
}

impl Complaint {
    fn new(status: u8, text: impl Into<String>, place: Option<Place>) -> Self {
        Complaint { status, text: text.into(), place, excerpt: String::new(), more: Vec::new() }
    }

    /// Of the arguments, or of a file as a whole.
    pub fn of_use(text: impl Into<String>) -> Self {
        Self::new(MISUSED, text, None)
    }

    /// Of a place in a text.
    pub fn at(place: Place, text: impl fmt::Display) -> Self {
        Self::new(MISUSED, text.to_string(), Some(place))
    }

    /// Of the library.
    pub fn refused(text: impl Into<String>) -> Self {
        Self::new(REFUSED, text, None)
    }

    /// Of the library, for what stands at a place.
    pub fn refused_at(place: Place, text: impl Into<String>) -> Self {
        Self::new(REFUSED, text, Some(place))
    }

    /// Several complaints in a row, the first ones of them, with the first one's status; none of none.
    pub fn all(mut complaints: Vec<Complaint>, most: usize) -> Option<Self> {
        if complaints.len() > most {
            complaints.truncate(most);
            complaints.push(Self::of_use(format!("the first {most} faults are told, and there are more")));
        }
        let mut complaints = complaints.into_iter();
        let first = complaints.next()?;
        Some(Complaint { more: complaints.collect(), ..first })
    }

    /// The complaint with a hint after its text, if there is one.
    pub fn hinted(self, hint: Option<String>) -> Self {
        let text = hint.iter().fold(self.text, |text, hint| format!("{text}; {hint}"));
        Complaint { text, ..self }
    }

    /// The complaint with the lines of the source that it is of.
    pub fn shown(mut self, source: &str) -> Self {
        self.excerpt = self.place.map_or(String::new(), |place| excerpt(source, place));
        self.more = self.more.into_iter().map(|complaint| complaint.shown(source)).collect();
        self
    }

    /// The complaint with the name of its file, as `file:line:column:`, before each one.
    pub fn of(self, file: &str) -> Self {
        let name = self.place.map_or(file.into(), |Place { line, column }| format!("{file}:{line}:{column}"));
        self.named(&name, |complaint| complaint.of(file))
    }

    /// The complaint with the name of a term, and the place in it, before each one.
    pub fn of_term(self, term: &str) -> Self {
        let name = self.place.map_or(term.into(), |place| format!("{term}: {place}"));
        self.named(&name, |complaint| complaint.of_term(term))
    }

    fn named(self, name: &str, rest: impl Fn(Complaint) -> Complaint) -> Self {
        let text = format!("{name}: {}{}", self.text, self.excerpt);
        Complaint { more: self.more.into_iter().map(rest).collect(), ..Self::new(self.status, text, None) }
    }

    /// All of it, a complaint after another.
    pub fn told(self) -> String {
        let more = self.more.into_iter().map(Complaint::told);
        iter::once(self.text).chain(more).collect::<Vec<_>>().join("\n")
    }
}

/// A line of a source with a mark below a place, each after the end of a line and four blanks; nothing past its end.
fn excerpt(source: &str, Place { line, column }: Place) -> String {
    let text = source.strip_prefix('\u{feff}').unwrap_or(source).split('\n').nth(line - 1).unwrap_or_default();
    let skipped = column.saturating_sub(SHOWN_BEFORE);
    let visible = |sign: char| if sign.is_control() && sign != '\t' { ' ' } else { sign };
    let shown: String = text.chars().map(visible).skip(skipped).take(SHOWN).collect();
    if shown.trim().is_empty() {
        return String::new();
    }
    let blank = |sign: char| if sign == '\t' { '\t' } else { ' ' };
    let before: String =
        shown.chars().chain(iter::repeat(' ')).take(column - 1 - skipped.min(column - 1)).map(blank).collect();
    format!("\n    {}\n    {before}^", shown.trim_end())
}

/// A part of an author's text in quotes, cut if it is long.
pub fn quoted(text: &str) -> String {
    match text.char_indices().nth(QUOTED) {
        Some((end, _)) => format!("`{}..`", &text[..end]),
        None => format!("`{text}`"),
    }
}

/// A count with its noun, `1 argument` or `2 arguments`.
pub fn counted(count: usize, noun: &str) -> String {
    format!("{count} {noun}{}", if count == 1 { "" } else { "s" })
}
