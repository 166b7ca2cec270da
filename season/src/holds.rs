//! What is held to be so, and what was found not to be.

use std::fmt;

use crate::tally::Keeper;

#[derive(Clone, Copy, Debug, PartialEq, Eq, PartialOrd, Ord)]
pub enum Check {
    /// What a railway is owed over all books of a series, or over all series.
    Balance(Keeper),
    /// The total of a book is the sum of its balances, and who carried nobody is owed nothing.
    Total(Keeper),
    /// Each number that was given stands in one book, once.
    Numbers(Keeper),
    /// What the till told, or the office answered.
    Answer(Keeper),
    /// A refused call, or a call that answers from the book, leaves it as it was.
    Unchanged(Keeper),
    /// A save that is cut off leaves the old book or the new one.
    Landed(Keeper),
    /// A damaged book or bundle is refused.
    Damage,
    /// What has not come to the office is in the outbox.
    OnTheWay,
    /// Everything sold has come to the office in the end.
    Emptied,
}

impl fmt::Display for Check {
    fn fmt(&self, f: &mut fmt::Formatter) -> fmt::Result {
        match self {
            Check::Balance(keeper) => write!(f, "balance at {keeper}"),
            Check::Total(keeper) => write!(f, "total at {keeper}"),
            Check::Numbers(keeper) => write!(f, "numbers at {keeper}"),
            Check::Answer(keeper) => write!(f, "answer at {keeper}"),
            Check::Unchanged(keeper) => write!(f, "book left as it was at {keeper}"),
            Check::Landed(keeper) => write!(f, "save cut off at {keeper}"),
            Check::Damage => write!(f, "damage refused"),
            Check::OnTheWay => write!(f, "on the way"),
            Check::Emptied => write!(f, "outboxes emptied"),
        }
    }
}

pub struct Complaint {
    pub check: Check,
    pub text: String,
}

#[derive(Default)]
pub struct Holds {
    pub passed: u64,
    pub complaints: Vec<Complaint>,
}

impl Holds {
    pub fn hold(&mut self, is_so: bool, check: Check, text: impl FnOnce() -> String) {
        if is_so {
            self.passed += 1;
        } else {
            self.complaints.push(Complaint { check, text: text() });
        }
    }

    pub fn hold_equal<T: PartialEq + fmt::Debug>(&mut self, found: T, due: T, check: Check, of: impl fmt::Display) {
        self.hold(found == due, check, || format!("{of}: {found:?}, due: {due:?}"));
    }
}
