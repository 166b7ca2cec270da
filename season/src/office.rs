//! The office: it has every bundle by its name and a series of books for each till. It saves before it answers.

use std::collections::BTreeMap;
use std::path::{Path, PathBuf};

use offers::{Receipt, Refusal};

use crate::bundles::Bundles;
use crate::cuts::{CutOff, Knife};
use crate::message::{Message, What};
use crate::rules::Rules;
use crate::shelf::{Change, Shelf};

pub struct Office {
    folder: PathBuf,
    rules: Rules,
    shelves: BTreeMap<u32, Shelf>,
}

pub struct Reply {
    /// None where the office was cut off first.
    pub answer: Option<Result<Receipt, Refusal>>,
    /// The office has to be started again.
    pub cut_off: Option<CutOff>,
    /// Whether the book that answered is the one that takes new sales.
    pub by_current_book: bool,
}

impl Office {
    pub fn start(folder: &Path, rules: Rules) -> Office {
        Office { folder: folder.to_path_buf(), rules, shelves: BTreeMap::new() }
    }

    pub fn folder_of(&self, till: u32) -> PathBuf {
        self.folder.join(format!("till-{till:05}"))
    }

    /// Books are loaded when they are first asked for.
    pub fn shelf(&mut self, till: u32) -> &mut Shelf {
        let folder = self.folder_of(till);
        let open =
            || Shelf::open(&folder, self.rules.office_asks_earlier_books).unwrap_or_else(|error| panic!("{error}"));
        self.shelves.entry(till).or_insert_with(open)
    }

    pub fn take(&mut self, message: &Message, bundles: &Bundles, knife: Knife<'_>) -> Reply {
        let rules = self.rules;
        let shelf = self.shelf(message.number.till);
        let change = match message.what {
            What::Sale { question, bundle } => shelf.sell(bundles.named(bundle).bytes, message.number, &question),
            What::Cancellation => shelf.cancel(message.number),
        };
        match change {
            Err(refusal) => Reply { answer: Some(Err(refusal)), cut_off: None, by_current_book: true },
            Ok(change) => finish(shelf, change, rules, knife),
        }
    }
}

fn finish(shelf: &Shelf, change: Change, rules: Rules, knife: Knife<'_>) -> Reply {
    let stored = if change.has_to_be_saved() { shelf.save(change.book, knife) } else { Ok(()) };
    let is_answered = stored.is_ok() || !rules.office_saves_before_it_answers;
    Reply {
        answer: is_answered.then_some(Ok(change.receipt)),
        cut_off: stored.err(),
        by_current_book: shelf.is_current(change.book),
    }
}
