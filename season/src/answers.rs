//! What a call on a series of books has to answer, by how far the sale has come there.

use offers::{Outcome, Receipt, Refusal, MOST_LEGS};
use second::fare::Parts;
use second::refusal::Refusal as SecondRefusal;

use crate::tally::Standing;

/// An outcome with its parts, or the number, place and detail of a refusal.
pub type Answer = Result<(Outcome, [u32; MOST_LEGS]), (u64, u64, u64)>;

pub const SALE_UNKNOWN: Answer = Err((25, 0, 0));
pub const NUMBER_TAKEN: u64 = 23;

pub fn told(answer: Result<Receipt, Refusal>) -> Answer {
    answer
        .map(|receipt| (receipt.outcome, receipt.parts))
        .map_err(|refusal| (refusal.reason.number(), refusal.place as u64, refusal.detail as u64))
}

pub fn due_refusal(refusal: SecondRefusal) -> Answer {
    Err((u64::from(refusal.number), refusal.place, refusal.detail))
}

pub fn due_to_sale(standing: Standing, parts: &Parts) -> Answer {
    let outcome = match standing {
        Standing::Unknown => Outcome::Booked,
        Standing::Live => Outcome::AlreadyBooked { cancelled: false },
        Standing::Cancelled => Outcome::AlreadyBooked { cancelled: true },
    };
    Ok((outcome, parts.map(|part| part as u32)))
}

pub fn due_to_cancellation(standing: Standing, parts: &Parts) -> Answer {
    let outcome = match standing {
        Standing::Unknown => return SALE_UNKNOWN,
        Standing::Live => Outcome::Cancelled,
        Standing::Cancelled => Outcome::AlreadyCancelled,
    };
    Ok((outcome, parts.map(|part| part as u32)))
}
