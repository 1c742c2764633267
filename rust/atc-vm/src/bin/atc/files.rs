//! Files and the standard streams.

use crate::failure::{reason, Failure};
use crate::place::on_one_line;
use std::ffi::OsStr;
use std::fs::{self, File, OpenOptions};
use std::io::{self, Read, Write};
use std::path::{Path, PathBuf};
use std::process;

/// No file is read further. A contract or vector is refused long before; ops text and storage are not so long.
pub const MOST: usize = 64 << 20;

/// A file's name and its bytes, and the text to place marks in.
#[derive(Debug)]
pub struct Source {
    pub name: String,
    pub bytes: Vec<u8>,
    /// The bytes; up to the first that isn't UTF-8 the places in both are the same.
    pub text: String,
}

impl Source {
    pub fn of(name: String, bytes: Vec<u8>) -> Source {
        let text = String::from_utf8_lossy(&bytes).into_owned();
        Source { name, bytes, text }
    }
}

/// A file, or standard input for `-`.
pub fn read(path: &OsStr) -> Result<Source, Failure> {
    let (name, read) = if path == "-" {
        ("standard input".to_string(), all(io::stdin().lock()))
    } else {
        let name = on_one_line(&path.to_string_lossy());
        (name, File::open(path).and_then(all))
    };
    let bytes = read.map_err(|error| {
        let why = if Path::new(path).is_dir() {
            "it is a directory".to_string()
        } else {
            reason(&error)
        };
        Failure::File(format!("can't read {name}: {why}"))
    })?;
    Ok(Source::of(name, bytes))
}

// One byte more than the most, where there are so many.
fn all(file: impl Read) -> io::Result<Vec<u8>> {
    let mut bytes = Vec::new();
    file.take(MOST as u64 + 1).read_to_end(&mut bytes)?;
    Ok(bytes)
}

/// For files without a refusal of their own for being too long.
pub fn not_too_long(source: &Source) -> Result<(), Failure> {
    if source.bytes.len() > MOST {
        return Err(Failure::File(format!(
            "{} is longer than {} MiB",
            source.name,
            MOST >> 20
        )));
    }
    Ok(())
}

/// Writes a file whole or not at all: to another beside it, which then takes its name. What is no ordinary file, such as
/// a device or a pipe, is written directly.
pub fn write(path: &OsStr, text: &str) -> Result<(), Failure> {
    let written = match fs::metadata(path) {
        Ok(there) if there.is_dir() => Err(io::Error::other("it is a directory")),
        Ok(there) if !there.is_file() => OpenOptions::new()
            .write(true)
            .open(path)
            .and_then(|file| fill(file, text)),
        // A link is followed.
        Ok(_) => fs::canonicalize(path).and_then(|path| replace(&path, text)),
        Err(_) => replace(Path::new(path), text),
    };
    let name = on_one_line(&path.to_string_lossy());
    written.map_err(|error| Failure::File(format!("can't write {name}: {}", reason(&error))))
}

fn fill(mut file: File, text: &str) -> io::Result<()> {
    file.write_all(text.as_bytes())?;
    file.flush()
}

fn replace(path: &Path, text: &str) -> io::Result<()> {
    let beside = beside(path);
    let file = OpenOptions::new()
        .write(true)
        .create_new(true)
        .open(&beside)?;
    let written = keep_permissions(path, &file)
        .and_then(|()| file.try_clone())
        .and_then(|copy| fill(copy, text))
        .and_then(|()| file.sync_all())
        .and_then(|()| fs::rename(&beside, path));
    if written.is_err() {
        // The first error is the one to tell.
        let _ = fs::remove_file(&beside);
    }
    written
}

fn keep_permissions(path: &Path, file: &File) -> io::Result<()> {
    match fs::metadata(path) {
        Ok(there) => file.set_permissions(there.permissions()),
        Err(_) => Ok(()),
    }
}

fn beside(path: &Path) -> PathBuf {
    path.with_file_name(format!(".atc.{}.part", process::id()))
}

/// Whether two paths lead to one file.
pub fn same(a: &OsStr, b: &OsStr) -> bool {
    match (fs::canonicalize(a), fs::canonicalize(b)) {
        (Ok(a), Ok(b)) => a == b,
        _ => false,
    }
}

/// Writes to standard output and sees to it that all is written.
pub fn say(text: &str) -> Result<(), Failure> {
    let mut out = io::stdout().lock();
    out.write_all(text.as_bytes())
        .and_then(|()| out.flush())
        .map_err(Failure::output)
}

/// The same with the command's status, which a closed pipe doesn't change: who reads has had enough.
pub fn tell(text: &str, status: u8) -> Result<u8, Failure> {
    match say(text) {
        Err(Failure::ClosedPipe) | Ok(()) => Ok(status),
        Err(failure) => Err(failure),
    }
}

/// Writes to standard error. Nothing can be said where that fails.
pub fn complain(text: &str) {
    let mut err = io::stderr().lock();
    let _ = err.write_all(text.as_bytes()).and_then(|()| err.flush());
}
