//! The program itself: statuses, streams, files.

mod common;

use std::io::Write;
use std::process::{Command, Output, Stdio};

use common::{sample, sample_path};

fn program() -> Command {
    Command::new(env!("CARGO_BIN_EXE_bookkeeper"))
}

/// Runs the program with bytes on the standard input.
fn fed(arguments: &[&str], input: &[u8]) -> Output {
    let streams = |command: &mut Command| {
        command.stdin(Stdio::piped()).stdout(Stdio::piped()).stderr(Stdio::piped()).spawn().unwrap()
    };
    let mut child = streams(program().args(arguments));
    // A program that refuses its arguments does not read its input.
    let _ = child.stdin.take().unwrap().write_all(input);
    child.wait_with_output().unwrap()
}

#[test]
fn statuses() {
    for (arguments, input, status) in [
        (&["mark", "-"][..], sample("accepted.book"), 0),
        (&["mark", "-"], sample("sample.txt"), 1),
        (&["mark", "-"], sample("refused.book"), 2),
        (&["mark", "-"], b"w0\n".to_vec(), 3),
        (&["mark"], Vec::new(), 3),
        (&["--help"], Vec::new(), 0),
        (&["mark", "--help"], Vec::new(), 0),
    ] {
        let output = fed(arguments, &input);
        assert_eq!(output.status.code(), Some(status), "{arguments:?}");
        assert_eq!((output.stdout.is_empty(), output.stderr.is_empty()), (status >= 2, status < 2), "{arguments:?}");
    }
}

#[test]
fn file_to_file() {
    let book = std::env::temp_dir().join(format!("bookkeeper-{}.book", std::process::id()));
    let status = program().arg("assemble").arg(sample_path("sample.txt")).arg("-o").arg(&book).status().unwrap();
    let written = std::fs::read(&book);
    let _ = std::fs::remove_file(&book);
    assert_eq!((status.code(), written.unwrap()), (Some(0), sample("sample.book")));
    let absent = fed(&["assemble", "-", "-o", "/absent/book"], &sample("sample.txt"));
    assert_eq!(absent.status.code(), Some(3));
}

#[test]
fn help_teaches_a_text_that_assembles() {
    let help = String::from_utf8(fed(&["help"], &[]).stdout).unwrap();
    let lines = help.lines().skip_while(|line| !line.starts_with("  w0")).take_while(|line| !line.is_empty());
    let text: String = lines.map(|line| format!("{line}\n")).collect();
    let output = fed(&["mark", "-"], text.as_bytes());
    assert_eq!(output.status.code(), Some(0), "{text}");
    let told = "rule 0, line 7: x + zero -> x\n    falls by weight (mark 1), margin 1\n";
    assert!(String::from_utf8(output.stdout).unwrap().starts_with(told));
}

/// A complaint that has a place begins with it, and every other one with the program's name.
#[test]
fn complaints_begin_with_places() {
    let complaint = |arguments: &[&str], input: &[u8]| String::from_utf8(fed(arguments, input).stderr).unwrap();
    assert!(complaint(&["mark", "-"], b"w0\n").starts_with("-:1:3: the weight of a variable, a number, is missing"));
    assert!(complaint(&["mark", "-"], b"w0\n").ends_with("\n    w0\n      ^\n"));
    assert!(complaint(&["mark", "-"], &sample("refused.book")).starts_with("bookkeeper: -: symbol 4, rank 3: "));
    assert!(complaint(&["mark"], b"").starts_with("bookkeeper: the command takes FILE"));
    let term = complaint(&["pick", "-", "u)", "u"], &sample("sample.txt"));
    assert!(term.starts_with("bookkeeper: the first term: line 1, column 2: "), "{term}");
}

#[test]
fn long_inputs_end() {
    let text = fed(&["mark", "-"], &vec![b'x'; 5 << 20]);
    assert_eq!(text.status.code(), Some(3));
    let book = fed(&["mark", "-"], &vec![0; 5 << 20]);
    assert_eq!(book.status.code(), Some(2));
}
