//! The program: reads files, makes one call, writes.

use std::io::{self, Write};
use std::process::ExitCode;

use bookkeeper::command::{run, MISUSED};
use bookkeeper::files::{self, Files};

/// Complains on the standard error, if it is there. A line that begins with a place in a file, to which editors go from
/// there, and the lines of a text that are shown stand as they are.
fn complain(text: &str) {
    for line in text.split('\n') {
        let name = if line.starts_with(' ') || has_place(line) { "" } else { "bookkeeper: " };
        let _ = writeln!(io::stderr(), "{name}{line}");
    }
}

/// Whether a line begins with `FILE:LINE:COLUMN:`.
fn has_place(line: &str) -> bool {
    let mut parts = line.split(": ").next().unwrap_or_default().rsplitn(3, ':');
    let mut number = || parts.next().is_some_and(|part| part.parse::<usize>().is_ok());
    number() && number() && parts.next().is_some()
}

/// Complains of the arguments or of a file.
fn misused(text: &str) -> ExitCode {
    complain(text);
    MISUSED.into()
}

fn main() -> ExitCode {
    let arguments: Result<Vec<String>, _> =
        std::env::args_os().skip(1).map(|argument| argument.into_string()).collect();
    let Ok(arguments) = arguments else { return misused("an argument is not UTF-8") };
    let mut files = Files::default();
    let outcome = run(&arguments, &mut |name| files.read(name));
    if let Some(text) = &outcome.complaint {
        complain(text);
        return outcome.status.into();
    }
    let name = outcome.file.as_deref().unwrap_or("standard output");
    if files.were_read(outcome.file.as_deref()) {
        return misused(&format!("{name}: the output would take the place of an input; -o takes another file"));
    }
    let written = match &outcome.file {
        Some(file) => files::write(file, &outcome.output),
        None => files::print(&outcome.output),
    };
    match written {
        Ok(()) => outcome.status.into(),
        Err(error) => misused(&format!("{name}: {error}")),
    }
}
