//! What the tests share: commands run in process, folders that go when their test ends.
#![allow(dead_code)]

pub mod bands;
pub mod offered;
pub mod pages;
pub mod paper;
pub mod ports;
pub mod runs;
pub mod slow;
pub mod tags;

use checker::simulate;
use course::folder::Folder;
use course::status::{Outcome, Status};
use halls::rng::Rng;
use std::fs;
use std::path::{Path, PathBuf};
use std::sync::atomic::{AtomicU64, Ordering};

pub fn course(words: &[&str]) -> Outcome {
    let words: Vec<String> = words.iter().map(|word| word.to_string()).collect();
    course::run(&words)
}

/// Mistakes in a line of the table, as `check` names their places.
pub fn places(line: usize, words: &[&str]) -> Vec<String> {
    let place = |words| format!("table.txt:{line}:{words}");
    words.iter().map(place).collect()
}

/// What `check` adds where a line ends in what seems a fixed delay with too few columns before it.
pub const HINT: &str = "; a best-effort frame stands behind it, in columns 44-48: write the fixed delay first, 0 where there is none";

pub fn root() -> PathBuf {
    Path::new(env!("CARGO_MANIFEST_DIR")).join("..")
}

pub fn hall() -> String {
    root().join("examples/hall").display().to_string()
}

/// A file or folder of the examples.
pub fn example(path: &str) -> String {
    root().join("examples").join(path).display().to_string()
}

/// A file of the examples.
pub fn example_text(path: &str) -> String {
    fs::read_to_string(example(path)).unwrap()
}

/// These lines of the example hall's orders.
pub fn hall_lines(numbers: &[usize]) -> String {
    let orders = example_text("hall/orders.txt");
    let lines: Vec<&str> = orders.lines().collect();
    let line = |&number: &usize| format!("{}\n", lines[number - 1]);
    numbers.iter().map(line).collect()
}

/// The plain version in the place of the proved library.
pub fn honest(table: &[u8], orders: &[u8], answers: &mut [u8]) -> (u32, u32) {
    let (code, line) = plain::programs::batch(table, orders, answers);
    (code as u32, line as u32)
}

pub fn hall_folder(table: &[u8], orders: &[u8]) -> Folder {
    Folder {
        path: PathBuf::from("hall"),
        table: table.to_vec(),
        orders: orders.to_vec(),
    }
}

/// A hall whose limits are the bounds of its flows; none where no short one was drawn.
pub fn tight_hall(rng: &mut Rng) -> Option<simulate::Hall> {
    simulate::Hall::random(rng).unwrap_or_else(|failure| panic!("{failure}"))
}

/// What `check` says of these two texts, without the count in its last line.
pub fn said(table: &[u8], orders: &[u8]) -> Vec<String> {
    let folder = Temporary::with(table, orders);
    let outcome = course(&["check", &folder.word()]);
    let mut lines: Vec<String> = outcome.printed.lines().map(str::to_string).collect();
    let last = lines.pop().unwrap();
    if last.starts_with("no typing mistake") {
        assert_eq!((outcome.status, lines.len()), (Status::Fine, 0));
    } else {
        assert_eq!(outcome.status, Status::Wrong);
        let word = if lines.len() == 1 {
            "mistake"
        } else {
            "mistakes"
        };
        assert_eq!(last, format!("{} {word}", lines.len()));
    }
    lines
}

/// A folder of its own; it goes when this does.
pub struct Temporary(pub PathBuf);

static COUNT: AtomicU64 = AtomicU64::new(0);

impl Temporary {
    pub fn new() -> Temporary {
        let number = COUNT.fetch_add(1, Ordering::Relaxed);
        let name = format!("course-{}-{number}", std::process::id());
        let path = std::env::temp_dir().join(name);
        fs::create_dir_all(&path).unwrap();
        Temporary(path)
    }

    pub fn with(table: &[u8], orders: &[u8]) -> Temporary {
        let folder = Temporary::new();
        folder.write("table.txt", table);
        folder.write("orders.txt", orders);
        folder
    }

    pub fn write(&self, name: &str, content: &[u8]) -> String {
        let path = self.0.join(name);
        fs::write(&path, content).unwrap();
        path.display().to_string()
    }

    pub fn word(&self) -> String {
        self.0.display().to_string()
    }
}

impl Drop for Temporary {
    fn drop(&mut self) {
        // A folder left behind in the temporary one does no harm.
        let _ = fs::remove_dir_all(&self.0);
    }
}
