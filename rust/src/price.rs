//! What a bundle answers: its verdict, and the fare of a ticket.
use crate::reason::{check, index};
use crate::{raw, Question, Refusal, MOST_LEGS};

/// What a ticket costs, in cents.
#[derive(Clone, Copy, Debug, PartialEq, Eq, Hash)]
pub struct Quote {
    /// The sum of the parts.
    pub fare: u64,
    /// The part of each leg, and zeros after them.
    pub parts: [u32; MOST_LEGS],
}

/// Judges a bundle: the count of its records.
///
/// # Errors
///
/// The first fault, by its number: 1 to 7.
pub fn judge(bundle: &[u8]) -> Result<usize, Refusal> {
    let judgement = raw::verdict(bundle);
    check(&judgement.head)?;
    Ok(index(judgement.records))
}

/// Prices a ticket from a bundle.
///
/// # Errors
///
/// The numbers of [`judge`], and 11 to 17.
pub fn fare(bundle: &[u8], question: &Question) -> Result<Quote, Refusal> {
    let quote = raw::fare(bundle, question);
    check(&quote.head)?;
    Ok(Quote { fare: quote.fare, parts: quote.parts })
}
