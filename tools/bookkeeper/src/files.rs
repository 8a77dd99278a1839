//! The files of the program: inputs are read up to a limit, and an output takes a place only when it is whole.

use std::ffi::OsString;
use std::fs::{self, File, Metadata, OpenOptions};
use std::io::{self, Read, Write};
use std::os::fd::AsFd;
use std::os::unix::fs::MetadataExt;
use std::path::{Path, PathBuf};

use crate::input::MAX_INPUT;

/// The files that a run reads.
#[derive(Debug, Default)]
pub struct Files {
    /// The device and the number of each.
    read: Vec<(u64, u64)>,
}

impl Files {
    /// Reads a file, `-` for the standard input, up to one byte more than is ever used.
    pub fn read(&mut self, name: &str) -> io::Result<Vec<u8>> {
        let file = match name {
            "-" => File::from(io::stdin().as_fd().try_clone_to_owned()?),
            _ => File::open(name)?,
        };
        let found = file.metadata()?;
        if found.is_file() {
            self.read.push(identity(&found));
        }
        let mut bytes = Vec::new();
        file.take(MAX_INPUT as u64 + 1).read_to_end(&mut bytes)?;
        Ok(bytes)
    }

    /// Whether an output, by any name, or the standard output, is a file that was read.
    pub fn were_read(&self, output: Option<&str>) -> bool {
        let found = match output {
            Some(name) => fs::metadata(name),
            None => io::stdout().as_fd().try_clone_to_owned().and_then(|output| File::from(output).metadata()),
        };
        found.is_ok_and(|found| self.read.contains(&identity(&found)))
    }
}

fn identity(found: &Metadata) -> (u64, u64) {
    (found.dev(), found.ino())
}

/// Writes a file: whole, beside it, and then into its place, so that a write that fails leaves what was there. A link
/// stays one; what is no file, such as a terminal or a pipe, is written as it is.
pub fn write(name: &str, bytes: &[u8]) -> io::Result<()> {
    let target = fs::canonicalize(name).unwrap_or_else(|_| name.into());
    if !target.exists() {
        return replace(&target, bytes, None);
    }
    let mut present = OpenOptions::new().write(true).open(&target)?;
    let found = present.metadata()?;
    if found.is_file() {
        return replace(&target, bytes, Some(found));
    }
    present.write_all(bytes)
}

/// Puts a new file in the place of another, with the rights of the one that was there.
fn replace(target: &Path, bytes: &[u8], found: Option<Metadata>) -> io::Result<()> {
    let temporary = beside(target);
    let mut output = OpenOptions::new().write(true).create_new(true).open(&temporary)?;
    let rights = || found.map_or(Ok(()), |found| output.set_permissions(found.permissions()));
    let written = rights().and_then(|()| output.write_all(bytes)).and_then(|()| output.sync_all());
    let done = written.and_then(|()| fs::rename(&temporary, target));
    done.inspect_err(|_| drop(fs::remove_file(&temporary)))
}

/// A name in the folder of a file that no other run takes.
fn beside(target: &Path) -> PathBuf {
    let mut name = OsString::from(".");
    name.push(target.file_name().unwrap_or_default());
    name.push(format!(".{}", std::process::id()));
    target.with_file_name(name)
}

/// Writes to the standard output.
pub fn print(bytes: &[u8]) -> io::Result<()> {
    let mut output = io::stdout().lock();
    output.write_all(bytes)?;
    output.flush()
}
