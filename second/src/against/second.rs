//! Renders every section as one function: what the second program answers to a call.

use super::wire::{outcome, words_of, Answer, Call, Lent, Name};
use crate::book::words::{balance, cancel, count, entry, find, sale, total};
use crate::book::{Cancel, Count, Reading, Sale, Sum};
use crate::bundle::LONGEST_BUNDLE;
use crate::fare::{fare, Fare, Parts};
use crate::refusal::Refusal;
use crate::verdict::{verdict, Verdict};

/// The answer, and the book as it is left.
pub fn answer(call: &Call, lent: &Lent) -> (Answer, Vec<u32>) {
    if lent.bundle_more > 0 || lent.book_more > 0 {
        return (answer_to_overlong(call, lent), lent.book.to_vec());
    }
    let mut book = lent.book.to_vec();
    let (till, sequence) = call.sale_number();
    let answer = match call.name {
        Name::Verdict => of_verdict(&verdict(lent.bundle)),
        Name::Fare => of_fare(&fare(lent.bundle, &call.question)),
        Name::Sale => of_sale(&sale(
            &mut book,
            lent.bundle,
            till,
            sequence,
            &call.question,
        )),
        Name::Cancel => of_cancel(&cancel(&mut book, till, sequence)),
        Name::Balance => of_sum(&balance(&book, u64::from(call.railway))),
        Name::Total => of_sum(&total(&book)),
        Name::Count => of_count(&count(&book)),
        Name::Entry => of_reading(&entry(&book, call.entry)),
        Name::Find => of_reading(&find(&book, till, sequence)),
    };
    (answer, book)
}

/// What is too long is refused by its length alone: a book of one word and a bundle just over the limit stand in for it.
fn answer_to_overlong(call: &Call, lent: &Lent) -> Answer {
    let book = if lent.book_more > 0 { &[0] } else { lent.book };
    let over = vec![0; LONGEST_BUNDLE + 1];
    let bundle = if lent.bundle_more > 0 {
        &over
    } else {
        lent.bundle
    };
    answer(call, &Lent::of(bundle, book)).0
}

fn of_verdict(verdict: &Verdict) -> Answer {
    match *verdict {
        Verdict::Accepted(records) => Answer::of_value(records),
        Verdict::Refused {
            number,
            place,
            detail,
        } => Answer::of_refusal(&Refusal::new(number, place, detail)),
    }
}

fn of_fare(fare: &Fare) -> Answer {
    match fare {
        Fare::Priced { parts, total } => Answer {
            parts: words_of(parts),
            ..Answer::of_value(*total)
        },
        Fare::Refused(refusal) => Answer::of_refusal(refusal),
    }
}

fn of_sale(sale: &Sale) -> Answer {
    match sale {
        Sale::Booked { parts } => receipt(outcome::BOOKED, false, parts),
        Sale::AlreadyBooked { parts, cancelled } => {
            receipt(outcome::ALREADY_BOOKED, *cancelled, parts)
        }
        Sale::Refused(refusal) => Answer::of_refusal(refusal),
    }
}

fn of_cancel(cancel: &Cancel) -> Answer {
    match cancel {
        Cancel::Cancelled { parts } => receipt(outcome::CANCELLED, true, parts),
        Cancel::AlreadyCancelled { parts } => receipt(outcome::ALREADY_CANCELLED, true, parts),
        Cancel::Refused(refusal) => Answer::of_refusal(refusal),
    }
}

fn of_sum(sum: &Sum) -> Answer {
    match sum {
        Sum::Amount(amount) => Answer::of_value(*amount),
        Sum::Refused(refusal) => Answer::of_refusal(refusal),
    }
}

fn of_count(count: &Count) -> Answer {
    match count {
        Count::Entries(entries) => Answer::of_value(*entries),
        Count::Refused(refusal) => Answer::of_refusal(refusal),
    }
}

fn of_reading(reading: &Reading) -> Answer {
    match reading {
        Reading::Found { place, entry } => Answer::of_entry(*place, entry),
        Reading::Refused(refusal) => Answer::of_refusal(refusal),
    }
}

fn receipt(outcome: u32, cancelled: bool, parts: &Parts) -> Answer {
    Answer {
        outcome,
        cancelled: u32::from(cancelled),
        parts: words_of(parts),
        ..Answer::default()
    }
}
