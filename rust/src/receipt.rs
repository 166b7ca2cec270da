//! What a sale or a cancellation answers, and the number that it goes by.
use crate::reason::check;
use crate::{raw, Refusal, MOST_LEGS};
use std::fmt;

/// The number of a sale, under which it is booked once at most. Numbers are in the order of their tills, and then of
/// their sequences.
#[derive(Clone, Copy, Debug, PartialEq, Eq, PartialOrd, Ord, Hash)]
pub struct SaleNumber {
    /// The till, 1 to 65,535.
    pub till: u32,
    /// The till's own count of its sales, 1 to 4,294,967,295.
    pub sequence: u64,
}

impl fmt::Display for SaleNumber {
    fn fmt(&self, f: &mut fmt::Formatter<'_>) -> fmt::Result {
        write!(f, "till {}, sequence {}", self.till, self.sequence)
    }
}

/// What came of a sale or a cancellation.
#[derive(Clone, Copy, Debug, PartialEq, Eq, Hash)]
pub enum Outcome {
    /// The sale is new, and is booked.
    Booked,
    /// The same sale is in the book already: nothing changed.
    AlreadyBooked {
        /// Whether it is cancelled.
        cancelled: bool,
    },
    /// The sale is cancelled now. Its number stays taken.
    Cancelled,
    /// The sale was cancelled before: nothing changed.
    AlreadyCancelled,
}

impl Outcome {
    /// Whether the book has changed, and so has to be saved.
    #[must_use]
    pub fn has_changed_the_book(self) -> bool {
        matches!(self, Outcome::Booked | Outcome::Cancelled)
    }
}

/// What a sale or a cancellation answers.
#[derive(Clone, Copy, Debug, PartialEq, Eq, Hash)]
pub struct Receipt {
    /// What came of it.
    pub outcome: Outcome,
    /// The part of each leg in cents, as priced when the sale was booked, and zeros after them.
    pub parts: [u32; MOST_LEGS],
}

impl Receipt {
    /// The sum of the parts: what the ticket costs, in cents.
    #[must_use]
    pub fn amount(&self) -> u64 {
        sum_of(&self.parts)
    }
}

pub(crate) fn sum_of(parts: &[u32]) -> u64 {
    parts.iter().copied().map(u64::from).sum()
}

pub(crate) fn receipt_of(receipt: &raw::Receipt) -> Result<Receipt, Refusal> {
    check(&receipt.head)?;
    let outcome = match receipt.outcome {
        1 => Outcome::Booked,
        2 => Outcome::AlreadyBooked { cancelled: receipt.cancelled != 0 },
        3 => Outcome::Cancelled,
        4 => Outcome::AlreadyCancelled,
        other => unreachable!("the engine has no outcome {other}"),
    };
    Ok(Receipt { outcome, parts: receipt.parts })
}
