//! Cuts a till or the office off. A cut within a save is a real one: the save runs in a process of its own, which is
//! killed by tests/cut.c.

use std::fs;
use std::io;
use std::path::{Path, PathBuf};
use std::process::Command;

use offers::{Book, BOOK_WORDS};
use second::generate::random::Random;

use crate::{outbox, shelf};

/// Where a process is cut off while it sells or cancels. An outbox only a till has.
#[derive(Clone, Copy, Debug, PartialEq, Eq)]
pub enum Cut {
    BeforeOutbox,
    BeforeSave,
    InSave(Blow),
    AfterSave,
}

#[derive(Clone, Copy, Debug, PartialEq, Eq)]
pub struct Blow {
    pub at: At,
    /// Takes with it what was not flushed to the disk.
    pub with_power: bool,
}

/// Steps count from 0.
#[derive(Clone, Copy, Debug, PartialEq, Eq)]
pub enum At {
    Step(usize),
    Bytes(usize),
    /// The process lives, but its save is refused at this step.
    DiskFull(usize),
}

/// The file of a book after a cut, as the simulation sees it. Whoever was cut off has to find out by loading its books.
#[derive(Clone, Copy, Debug, PartialEq, Eq)]
pub enum Landed {
    Old,
    New,
    Neither,
}

/// The process is gone, and all that it had in memory.
#[derive(Clone, Copy, Debug)]
pub struct CutOff {
    pub cut: Cut,
    pub landed: Landed,
    /// Whether the book was never saved before.
    pub book_is_new: bool,
    /// Whether a file that is no book was left in the folder.
    pub leaves_litter: bool,
}

impl CutOff {
    pub fn without_traces(cut: Cut, landed: Landed) -> CutOff {
        CutOff { cut, landed, book_is_new: false, leaves_litter: false }
    }

    /// By what the simulation saw in the file. Whoever is not cut off has saved.
    pub fn is_saved(cut_off: Option<CutOff>) -> bool {
        cut_off.is_none_or(|cut_off| cut_off.landed == Landed::New)
    }
}

/// Whether a save is cut off, and by what.
#[derive(Clone, Copy)]
pub struct Knife<'a> {
    pub cutter: &'a Cutter,
    pub cut: Option<Cut>,
}

pub struct Cutter {
    /// With a slash in it, as the loader asks for.
    shim: PathBuf,
    scratch: PathBuf,
    /// The call of each step of a save.
    steps: Vec<String>,
    stored_length: usize,
}

impl Cutter {
    /// Learns the steps of a save by one that is not cut.
    pub fn new(shim: &Path, scratch: &Path) -> io::Result<Cutter> {
        let trial = scratch.join("trial");
        fs::create_dir_all(&trial)?;
        let (path, log) = (trial.join("book"), scratch.join("steps"));
        let (shim, scratch) = (shim.to_path_buf(), scratch.to_path_buf());
        let mut cutter = Cutter { shim, scratch, steps: Vec::new(), stored_length: 0 };
        let mut saving = cutter.saving(&Book::new(), &path)?;
        if !saving.env("CUT_LOG", &log).status()?.success() {
            return Err(io::Error::other("a save that is not cut off fails"));
        }
        let steps = fs::read_to_string(&log).map_err(|_| io::Error::other("the shim sees no step of a save"))?;
        cutter.steps = steps.lines().map(call_of_step).collect();
        cutter.stored_length = fs::read(&path)?.len();
        Ok(cutter)
    }

    pub fn steps(&self) -> &[String] {
        &self.steps
    }

    pub fn drawn_at_till(&self, random: &mut Random) -> Cut {
        match random.one_in(16) {
            true => Cut::BeforeOutbox,
            false => self.drawn_about_save(random),
        }
    }

    pub fn drawn_about_save(&self, random: &mut Random) -> Cut {
        match random.below(15) {
            0 => Cut::BeforeSave,
            1 => Cut::AfterSave,
            _ => Cut::InSave(self.drawn_blow(random)),
        }
    }

    fn drawn_blow(&self, random: &mut Random) -> Blow {
        let at = match random.below(10) {
            0 => At::DiskFull(random.pick(&self.steps_that_can_fail())),
            1 | 2 => At::Bytes(random.place_in(self.stored_length + 1)),
            _ => At::Step(random.place_in(self.steps.len())),
        };
        Blow { at, with_power: random.one_in(2) }
    }

    /// Whether a close fails is never told.
    fn steps_that_can_fail(&self) -> Vec<usize> {
        (0..self.steps.len()).filter(|&step| !self.steps[step].starts_with("close")).collect()
    }

    /// Saves the book to the path and is cut off by the blow.
    pub fn save(&self, book: &Book, path: &Path, blow: Blow) -> io::Result<CutOff> {
        let old = fs::read(path).ok();
        let mut saving = self.saving(book, path)?;
        blow.order(&mut saving);
        if saving.status()?.success() {
            return Err(io::Error::other("a save that was to be cut off succeeds"));
        }
        let landed = match fs::read(path).ok() {
            found if found == old => Landed::Old,
            Some(found) if found == book.to_bytes() => Landed::New,
            _ => Landed::Neither,
        };
        Ok(CutOff { cut: Cut::InSave(blow), landed, book_is_new: old.is_none(), leaves_litter: has_litter(path)? })
    }

    /// This program, about to save the words of the book under the shim.
    fn saving(&self, book: &Book, path: &Path) -> io::Result<Command> {
        let words = self.scratch.join("words");
        let bytes: Vec<u8> = book.as_words().iter().flat_map(|word| word.to_le_bytes()).collect();
        fs::write(&words, bytes)?;
        let mut command = Command::new(std::env::current_exe()?);
        command.arg("save-words").arg(words).arg(path);
        command.env("LD_PRELOAD", &self.shim).env("CUT_FOLDER", folder_of(path));
        Ok(command)
    }
}

impl Blow {
    fn order(self, command: &mut Command) {
        match self.at {
            At::Step(step) => command.env("CUT_AT", (step + 1).to_string()),
            At::Bytes(bytes) => command.env("CUT_BYTES", bytes.to_string()),
            At::DiskFull(step) => command.env("CUT_AT", (step + 1).to_string()).env("CUT_ERROR", "ENOSPC"),
        };
        if self.with_power {
            command.env("CUT_POWER", "1");
        }
    }
}

/// What the process that is cut off does.
pub fn save_words(words: &Path, path: &Path) -> io::Result<()> {
    let bytes = fs::read(words)?;
    let words: Vec<u32> =
        bytes.chunks_exact(4).map(|word| u32::from_le_bytes([word[0], word[1], word[2], word[3]])).collect();
    assert_eq!(words.len(), BOOK_WORDS);
    Book::from_words(&words).map_err(io::Error::other)?.save(path)
}

/// A line of the log has the call and the names of files; the folder's name is a point.
fn call_of_step(line: &str) -> String {
    let words: Vec<&str> = line.split(' ').collect();
    match words[..] {
        [call, "."] => format!("{call} the folder"),
        [call, ..] => format!("{call} the file"),
        [] => String::new(),
    }
}

fn folder_of(path: &Path) -> &Path {
    path.parent().expect("a book lies in a folder")
}

fn has_litter(path: &Path) -> io::Result<bool> {
    for entry in fs::read_dir(folder_of(path))? {
        let name = entry?.file_name();
        if name != outbox::FILE && shelf::place_in_name(&name).is_none() {
            return Ok(true);
        }
    }
    Ok(false)
}
