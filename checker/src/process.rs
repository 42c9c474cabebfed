//! A program that is run as a process in a folder with its files.

use plain::handover::Printed;
use std::fs;
use std::io;
use std::path::{Path, PathBuf};
use std::process::{Command, Stdio};
use std::sync::atomic::{AtomicU64, Ordering};

/// A folder of its own for a program's files; it goes when this does.
pub struct Folder(PathBuf);

static COUNT: AtomicU64 = AtomicU64::new(0);

impl Folder {
    /// One with a table and a list of calls.
    pub fn with(table: &[u8], calls: &[u8]) -> io::Result<Folder> {
        Folder::holding(&[("table.txt", table), ("calls.txt", calls)])
    }

    pub fn holding(files: &[(&str, &[u8])]) -> io::Result<Folder> {
        let number = COUNT.fetch_add(1, Ordering::Relaxed);
        let name = format!("checker-{}-{number}", std::process::id());
        let path = std::env::temp_dir().join(name);
        fs::create_dir_all(&path)?;
        let folder = Folder(path);
        for (name, text) in files {
            fs::write(folder.0.join(name), text)?;
        }
        Ok(folder)
    }
}

impl Drop for Folder {
    fn drop(&mut self) {
        // A folder left behind in the temporary one does no harm.
        let _ = fs::remove_dir_all(&self.0);
    }
}

/// A program and the words it is started with.
pub struct Program {
    pub path: PathBuf,
    pub words: Vec<String>,
}

impl Program {
    /// The program at this path, from whichever folder it is run.
    pub fn at(path: &Path, words: &[&str]) -> io::Result<Program> {
        Ok(Program {
            path: path.canonicalize()?,
            words: words.iter().map(|word| word.to_string()).collect(),
        })
    }

    /// What it leaves in this folder; an error where it can't be run or ends with another status than 0.
    pub fn run_in(&self, folder: &Folder) -> io::Result<Printed> {
        let done = Command::new(&self.path)
            .args(&self.words)
            .current_dir(&folder.0)
            .stdin(Stdio::null())
            .output()?;
        if !done.status.success() {
            return Err(io::Error::other(format!("ended with {}", done.status)));
        }
        Ok(Printed {
            out: done.stdout,
            said: done.stderr,
        })
    }
}
