//! Nothing is lost: no output replaces an input, and a write that fails has status 3 and leaves what was there.

mod common;

use std::fs::{self, File};
use std::io::{Read, Write};
use std::path::PathBuf;
use std::process::{Command, Output, Stdio};

use common::sample;

fn program() -> Command {
    Command::new(env!("CARGO_BIN_EXE_bookkeeper"))
}

/// A folder of a test, which goes when the test ends.
struct Folder(PathBuf);

impl Folder {
    fn new(test: &str) -> Self {
        let folder = std::env::temp_dir().join(format!("bookkeeper-{test}-{}", std::process::id()));
        fs::create_dir(&folder).unwrap();
        Folder(folder)
    }

    /// The path of a file, and the file with bytes in it.
    fn path(&self, name: &str) -> PathBuf {
        self.0.join(name)
    }

    fn file(&self, name: &str, bytes: &[u8]) -> PathBuf {
        fs::write(self.path(name), bytes).unwrap();
        self.path(name)
    }

    fn names(&self) -> Vec<String> {
        let entries = fs::read_dir(&self.0).unwrap();
        let mut names: Vec<String> = entries.map(|entry| entry.unwrap().file_name().into_string().unwrap()).collect();
        names.sort();
        names
    }
}

impl Drop for Folder {
    fn drop(&mut self) {
        let _ = fs::remove_dir_all(&self.0);
    }
}

/// Checks that a run has status 3, a complaint with these words and no output.
fn misused(ended: &Output, words: &str) {
    let complaint = String::from_utf8_lossy(&ended.stderr);
    assert_eq!(ended.status.code(), Some(3), "{complaint}");
    assert!(complaint.starts_with("bookkeeper: ") && complaint.contains(words), "{complaint}");
    assert!(ended.stdout.is_empty());
}

#[test]
fn output_is_no_input() {
    let folder = Folder::new("same");
    let text = folder.file("text", &sample("sample.txt"));
    fs::hard_link(&text, folder.path("hard")).unwrap();
    std::os::unix::fs::symlink(&text, folder.path("soft")).unwrap();
    let other = folder.path("../").join(folder.0.file_name().unwrap()).join("text");
    for name in [text.clone(), folder.path("hard"), folder.path("soft"), other] {
        for command in ["assemble", "mark", "list", "page"] {
            let ended = program().arg(command).arg(&text).arg("-o").arg(&name).output().unwrap();
            misused(&ended, "would take the place of an input");
        }
        let ended = program().args(["assemble", "-", "-o"]).arg(&name).stdin(File::open(&text).unwrap()).output();
        misused(&ended.unwrap(), "would take the place of an input");
    }
    let append = File::options().append(true).open(&text).unwrap();
    let ended = program().arg("mark").arg(&text).stdout(append).output().unwrap();
    misused(&ended, "standard output: the output would take the place of an input");
    let book = folder.file("book", &sample("sample.book"));
    let ended = program().arg("list").arg(&book).arg("--names").arg(&text).arg("-o").arg(&text).output().unwrap();
    misused(&ended, "would take the place of an input");
    assert_eq!(fs::read(&text).unwrap(), sample("sample.txt"));
}

#[test]
fn output_takes_the_place_of_another_file() {
    use std::os::unix::fs::PermissionsExt;
    let folder = Folder::new("place");
    let (text, book) = (folder.file("text", &sample("sample.txt")), folder.file("book", b"old"));
    fs::set_permissions(&book, fs::Permissions::from_mode(0o640)).unwrap();
    std::os::unix::fs::symlink(&book, folder.path("link")).unwrap();
    let status = program().arg("assemble").arg(&text).arg("-o").arg(folder.path("link")).status().unwrap();
    assert_eq!((status.code(), fs::read(&book).unwrap()), (Some(0), sample("sample.book")));
    assert_eq!(fs::metadata(&book).unwrap().permissions().mode() & 0o777, 0o640);
    assert!(fs::symlink_metadata(folder.path("link")).unwrap().is_symlink());
    assert_eq!(folder.names(), ["book", "link", "text"]);
}

#[test]
fn refused_book_leaves_the_output() {
    let folder = Folder::new("refused");
    let (old, kept) = (folder.file("old", &sample("sample.book")), folder.file("kept", b"kept"));
    let ended = program().arg("convert").arg(&old).arg("-o").arg(&kept).output().unwrap();
    assert_eq!((ended.status.code(), fs::read(&kept).unwrap()), (Some(2), b"kept".to_vec()));
    let ended = program().arg("convert").arg(&old).arg("-o").arg(folder.path("new")).output().unwrap();
    assert_eq!((ended.status.code(), folder.path("new").exists()), (Some(2), false));
}

/// The shell lets no file grow, and lets the program live on or ends it.
#[test]
fn failed_write_leaves_the_output() {
    let folder = Folder::new("failed");
    let (text, kept) = (folder.file("text", &sample("sample.txt")), folder.file("kept", b"kept"));
    let run = |signal: &str| {
        let script = format!("{signal} ulimit -f 0; exec \"$@\"");
        let mut shell = Command::new("sh");
        shell.args(["-c", &script, "sh", env!("CARGO_BIN_EXE_bookkeeper"), "assemble"]);
        shell.arg(&text).arg("-o").arg(&kept).output().unwrap()
    };
    misused(&run("trap '' XFSZ;"), "kept: ");
    assert_eq!((fs::read(&kept).unwrap(), folder.names()), (b"kept".to_vec(), vec!["kept".into(), "text".into()]));
    assert_eq!(run("").status.code(), None);
    assert_eq!(fs::read(&kept).unwrap(), b"kept");
}

#[test]
fn full_disk_and_folders_that_take_no_file() {
    let folder = Folder::new("full");
    let text = folder.file("text", &sample("sample.txt"));
    for output in ["/dev/full", "/proc/book", "/absent/book", "/tmp"] {
        misused(&program().arg("assemble").arg(&text).args(["-o", output]).output().unwrap(), output);
    }
    let full = File::options().write(true).open("/dev/full").unwrap();
    misused(&program().arg("mark").arg(&text).stdout(full).output().unwrap(), "standard output: ");
}

#[test]
fn closed_pipe_is_told() {
    let rules = "z -> z\n".repeat(1_000);
    let text = format!("w0 1\nsymbol z arity 0 weight 1 rank 0\n{rules}");
    let mut command = program();
    command.args(["mark", "-"]).stdin(Stdio::piped()).stdout(Stdio::piped()).stderr(Stdio::piped());
    let mut child = command.spawn().unwrap();
    let mut output = child.stdout.take().unwrap();
    child.stdin.take().unwrap().write_all(text.as_bytes()).unwrap();
    output.read_exact(&mut [0; 4]).unwrap();
    drop(output);
    misused(&child.wait_with_output().unwrap(), "standard output: ");
}

#[test]
fn unreadable_inputs_are_told() {
    let folder = Folder::new("unread");
    for input in [folder.path("absent"), folder.0.clone()] {
        misused(&program().arg("mark").arg(&input).output().unwrap(), input.to_str().unwrap());
    }
    misused(&program().args(["mark", "-"]).stdin(File::open(&folder.0).unwrap()).output().unwrap(), "-: ");
}
