//! What a till still has to send up: a file of its own, written before the book is. A line counts only once the books
//! bear it out, and is struck out when the office has answered.

use std::fs::{self, File};
use std::io::{self, Write};
use std::path::{Path, PathBuf};

use crate::bundles::BundleName;

pub const FILE: &str = "outbox";

#[derive(Clone, Copy, Debug, PartialEq, Eq)]
pub enum Line {
    Sale { sequence: u64, bundle: BundleName },
    Cancellation { sequence: u64 },
}

impl Line {
    pub fn sequence(self) -> u64 {
        match self {
            Line::Sale { sequence, .. } | Line::Cancellation { sequence } => sequence,
        }
    }

    pub fn is_sale(self) -> bool {
        matches!(self, Line::Sale { .. })
    }

    /// Whether both are the sale, or both the cancellation, of one number.
    fn is_about_the_same(self, other: Line) -> bool {
        self.is_sale() == other.is_sale() && self.sequence() == other.sequence()
    }

    fn text(self) -> String {
        match self {
            Line::Sale { sequence, bundle } => format!("sale {sequence} {}\n", bundle.0),
            Line::Cancellation { sequence } => format!("cancellation {sequence}\n"),
        }
    }

    fn of_text(text: &str) -> Option<Line> {
        match text.split(' ').collect::<Vec<_>>()[..] {
            ["sale", sequence, bundle] => {
                Some(Line::Sale { sequence: sequence.parse().ok()?, bundle: BundleName(bundle.parse().ok()?) })
            }
            ["cancellation", sequence] => Some(Line::Cancellation { sequence: sequence.parse().ok()? }),
            _ => None,
        }
    }
}

pub struct Outbox {
    path: PathBuf,
    lines: Vec<Line>,
}

impl Outbox {
    pub fn open(folder: &Path) -> Outbox {
        let path = folder.join(FILE);
        let text =
            if path.exists() { fs::read_to_string(&path).expect("an outbox can be read") } else { String::new() };
        let line = |text| Line::of_text(text).unwrap_or_else(|| panic!("{}: no line: {text}", path.display()));
        let lines = text.lines().map(line).collect();
        Outbox { path, lines }
    }

    pub fn lines(&self) -> &[Line] {
        &self.lines
    }

    pub fn note(&mut self, line: Line) {
        self.lines.retain(|kept| !kept.is_about_the_same(line));
        self.lines.push(line);
        self.store();
    }

    pub fn strike_out(&mut self, line: Line) {
        self.lines.retain(|kept| !kept.is_about_the_same(line));
        self.store();
    }

    fn store(&self) {
        let text: String = self.lines.iter().map(|line| line.text()).collect();
        replace(&self.path, text.as_bytes()).unwrap_or_else(|error| panic!("{}: {error}", self.path.display()));
    }
}

/// As a book is saved: a line has to stand before the sale that it is about.
fn replace(path: &Path, bytes: &[u8]) -> io::Result<()> {
    let fresh = path.with_extension("new");
    let mut file = File::create(&fresh)?;
    file.write_all(bytes)?;
    file.sync_all()?;
    fs::rename(&fresh, path)?;
    path.parent().map_or(Ok(()), |folder| File::open(folder)?.sync_all())
}
