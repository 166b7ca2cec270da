//! Renders no section: the dearest ticket of each number of cards.

use super::drafts::{assemble, Draft};
use crate::layout::{ar, co, re, Table};
use crate::question::{
    cards_of, Leg, Question, CARD_SLOTS, LARGEST_PLAIN_FARE, LEG_SLOTS, MOST_PERSONS,
};

/// Eight legs and 99 persons at 999,999, rounded up by 998, and then by 997 to 994 for each card in turn.
pub const GREATEST_PRICED: [u64; CARD_SLOTS + 1] = [
    8 * 99 * 1_000_994,
    8 * 99 * 1_001_985,
    8 * 99 * 1_002_972,
    8 * 99 * 1_003_955,
    8 * 99 * 1_004_934,
];

/// In rising rating.
const COSTLY_CARDS: [u64; CARD_SLOTS] = [10, 8, 9, 7];

/// All records round up by as much as there is.
pub fn costliest_offer() -> Vec<u8> {
    let conditions = Draft::plain(Table::Co).with(co::ADDITIONAL_DISCOUNTS, "Y");
    let mut drafts = vec![conditions.with(co::ROUNDING, "+").with(co::FACTOR, "998")];
    for (place, code) in (0..).zip(COSTLY_CARDS) {
        let mut kind = Draft::plain(Table::Re);
        kind.write_number(re::CODE, code);
        let mut additional = Draft::plain(Table::Ar)
            .with(ar::CUMULATIVE, "Y")
            .with(ar::ROUNDING, "+");
        additional.write_number(ar::CODE, code);
        additional.write_number(ar::RATING, 1 + place);
        additional.write_number(ar::FACTOR, 997 - place);
        drafts.extend([kind, additional]);
    }
    assemble(&drafts)
}

pub fn most_asked(cards: usize) -> Question {
    let leg = Leg {
        railway: 1185,
        fare: LARGEST_PLAIN_FARE,
    };
    Question {
        offer: 42,
        day: 20240615,
        persons: MOST_PERSONS,
        cards: cards_of(&COSTLY_CARDS[..cards]),
        leg_count: LEG_SLOTS as u64,
        legs: [leg; LEG_SLOTS],
    }
}

#[cfg(test)]
mod tests {
    use super::*;
    use crate::rounding::{Reduction, Rounding};

    fn rounded_up_the_most(amount: u64) -> u64 {
        let rounded_up = |factor| {
            let reduction = Reduction {
                discount: 0,
                rounding: Rounding::Up(factor),
            };
            reduction.apply(amount)
        };
        (1..=999).map(rounded_up).fold(amount, u64::max)
    }

    /// More never rounds up to less, so the most of each step leads to the most of all.
    #[test]
    fn no_record_makes_more_of_the_amount_than_the_costliest() {
        let mut amount = LARGEST_PLAIN_FARE;
        for greatest in GREATEST_PRICED {
            amount = rounded_up_the_most(amount);
            assert_eq!(LEG_SLOTS as u64 * MOST_PERSONS * amount, greatest);
        }
    }
}
