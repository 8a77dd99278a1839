//! What the tests share: runs of the program on files in memory, and the files of `samples/`.
#![allow(dead_code)]

use std::io;
use std::path::PathBuf;

use bookkeeper::command::{run, Outcome};

/// Runs the program on files given by name.
pub fn run_on(arguments: &[&str], files: &[(&str, &[u8])]) -> Outcome {
    let arguments: Vec<String> = arguments.iter().map(|argument| argument.to_string()).collect();
    let mut read = |name: &str| {
        let file = files.iter().find(|(file, _)| *file == name);
        file.map(|(_, bytes)| bytes.to_vec()).ok_or_else(|| io::ErrorKind::NotFound.into())
    };
    run(&arguments, &mut read)
}

/// The output of a run that is answered, as a text.
pub fn printed(arguments: &[&str], files: &[(&str, &[u8])]) -> String {
    let outcome = run_on(arguments, files);
    assert_eq!(outcome.complaint, None, "{arguments:?}");
    String::from_utf8(outcome.output).expect("the output is a text")
}

/// The path of a sample.
pub fn sample_path(name: &str) -> PathBuf {
    PathBuf::from(env!("CARGO_MANIFEST_DIR")).join("../../samples").join(name)
}

/// A file of `samples/`.
pub fn sample(name: &str) -> Vec<u8> {
    std::fs::read(sample_path(name)).expect("the sample is there")
}
