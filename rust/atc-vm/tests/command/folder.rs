//! A folder of files for a test, and the command run in it.

use crate::json::{self, Value};
use std::ffi::OsStr;
use std::fs;
use std::path::PathBuf;
use std::process::{Command, Output};
use std::sync::atomic::{AtomicU32, Ordering};

/// It is removed at the end of the test.
pub struct Folder {
    pub path: PathBuf,
}

impl Folder {
    pub fn new() -> Folder {
        static COUNT: AtomicU32 = AtomicU32::new(0);
        let count = COUNT.fetch_add(1, Ordering::Relaxed);
        let path = std::env::temp_dir().join(format!("atc-{}-{count}", std::process::id()));
        fs::create_dir_all(&path).unwrap();
        Folder { path }
    }

    pub fn with<const N: usize>(files: [(&str, &str); N]) -> Folder {
        let folder = Folder::new();
        for (name, text) in files {
            folder.put(name, text);
        }
        folder
    }

    pub fn put(&self, name: impl AsRef<OsStr>, bytes: impl AsRef<[u8]>) {
        fs::write(self.path.join(name.as_ref()), bytes).unwrap();
    }

    pub fn command<S: AsRef<OsStr>>(&self, words: impl IntoIterator<Item = S>) -> Command {
        let mut command = Command::new(env!("CARGO_BIN_EXE_atc"));
        command.args(words).current_dir(&self.path);
        command
    }

    pub fn atc<S: AsRef<OsStr>>(&self, words: impl IntoIterator<Item = S>) -> Told {
        Told::of(self.command(words).output().unwrap())
    }

    /// The command line in one string.
    pub fn say(&self, line: &str) -> Told {
        self.atc(line.split(' '))
    }
}

impl Drop for Folder {
    fn drop(&mut self) {
        let _ = fs::remove_dir_all(&self.path);
    }
}

/// What the command told.
#[derive(Debug)]
pub struct Told {
    pub status: i32,
    pub out: String,
    pub err: String,
}

impl Told {
    pub fn of(output: Output) -> Told {
        let told = Told {
            status: output.status.code().expect("no signal ends it"),
            out: String::from_utf8(output.stdout).unwrap(),
            err: String::from_utf8(output.stderr).unwrap(),
        };
        assert!(!told.err.contains("panicked"), "{told:?}");
        assert!(
            !told.out.contains('\x1b') && !told.err.contains('\x1b'),
            "colour: {told:?}"
        );
        told
    }

    pub fn json(&self) -> Value {
        json::parse(&self.out).unwrap_or_else(|| panic!("no JSON: {self:?}"))
    }
}
