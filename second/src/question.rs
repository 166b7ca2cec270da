//! Renders the first paragraph of "Pricing", with the cards of R-1: a question and its limits.

use crate::calendar::is_real_day;

pub const LEG_SLOTS: usize = 8;
pub const CARD_SLOTS: usize = 4;
pub const LARGEST_OFFER: u64 = 99_999;
pub const MOST_PERSONS: u64 = 99;
pub const LARGEST_CARD: u64 = 999;
pub const LARGEST_RAILWAY: u64 = 9_999;
pub const LARGEST_PLAIN_FARE: u64 = 999_999;
pub const NO_CARD: u64 = 0;

/// Used slots come first.
pub type Cards = [u64; CARD_SLOTS];
pub const NO_CARDS: Cards = [NO_CARD; CARD_SLOTS];

#[derive(Clone, Copy, Debug, Default, PartialEq, Eq, Hash)]
pub struct Leg {
    pub railway: u64,
    pub fare: u64,
}

#[derive(Clone, Copy, Debug, Default, PartialEq, Eq, Hash)]
pub struct Question {
    pub offer: u64,
    pub day: u64,
    pub persons: u64,
    pub cards: Cards,
    pub leg_count: u64,
    pub legs: [Leg; LEG_SLOTS],
}

impl Question {
    /// In the order of their slots, which is part of the question.
    pub fn given_cards(&self) -> Vec<u64> {
        let is_given = |card: &u64| *card != NO_CARD;
        self.cards.iter().copied().filter(is_given).collect()
    }

    pub fn used_legs(&self) -> &[Leg] {
        &self.legs[..self.used_slots()]
    }

    pub fn used_slots(&self) -> usize {
        self.leg_count.min(LEG_SLOTS as u64) as usize
    }

    pub fn with_unused_slots_zero(&self) -> Question {
        let mut question = *self;
        question.legs[self.used_slots()..].fill(Leg::default());
        question
    }

    pub fn is_same_as(&self, other: &Question) -> bool {
        self.with_unused_slots_zero() == other.with_unused_slots_zero()
    }

    pub fn is_within_limits(&self) -> bool {
        (1..=LARGEST_OFFER).contains(&self.offer)
            && is_real_day(self.day)
            && (1..=MOST_PERSONS).contains(&self.persons)
            && are_within_limits(&self.cards)
            && (1..=LEG_SLOTS as u64).contains(&self.leg_count)
            && self.used_legs().iter().all(Leg::is_within_limits)
    }

    pub fn gives_a_card_twice(&self) -> bool {
        let cards = self.given_cards();
        (1..cards.len()).any(|place| cards[..place].contains(&cards[place]))
    }
}

fn are_within_limits(cards: &Cards) -> bool {
    let is_gap = |pair: &[u64]| pair[0] == NO_CARD && pair[1] != NO_CARD;
    cards.iter().all(|&card| card <= LARGEST_CARD) && !cards.windows(2).any(is_gap)
}

/// As many as there are slots, at most.
pub fn cards_of(given: &[u64]) -> Cards {
    let mut cards = NO_CARDS;
    cards[..given.len()].copy_from_slice(given);
    cards
}

impl Leg {
    fn is_within_limits(&self) -> bool {
        is_railway(self.railway) && self.fare <= LARGEST_PLAIN_FARE
    }
}

pub fn is_railway(number: u64) -> bool {
    (1..=LARGEST_RAILWAY).contains(&number)
}

/// Asks for offer 42 on a day of 2024, which the plain records serve.
pub fn asked(persons: u64, cards: &[u64], legs: &[(u64, u64)]) -> Question {
    let mut question = Question {
        offer: 42,
        day: 20240615,
        persons,
        cards: cards_of(cards),
        leg_count: legs.len() as u64,
        ..Question::default()
    };
    for (slot, &(railway, fare)) in question.legs.iter_mut().zip(legs) {
        *slot = Leg { railway, fare };
    }
    question
}

#[cfg(test)]
mod tests {
    use super::*;

    fn good() -> Question {
        asked(3, &[7, 5], &[(1185, 1010), (1181, 0)])
    }

    fn within(change: impl Fn(&mut Question)) -> bool {
        let mut question = good();
        change(&mut question);
        question.is_within_limits()
    }

    #[test]
    fn limits_of_each_value() {
        assert!(within(|_| ()));
        for (value, good) in [(0, false), (1, true), (99_999, true), (100_000, false)] {
            assert_eq!(within(|q| q.offer = value), good);
        }
        for (value, good) in [(0, false), (1, true), (99, true), (100, false)] {
            assert_eq!(within(|q| q.persons = value), good);
        }
        for (value, good) in [(0, false), (1, true), (9999, true), (10_000, false)] {
            assert_eq!(within(|q| q.legs[1].railway = value), good);
        }
        for (value, good) in [(0, true), (999_999, true), (1_000_000, false)] {
            assert_eq!(within(|q| q.legs[1].fare = value), good);
        }
        for (value, good) in [(0, false), (1, true), (2, true), (3, false), (9, false)] {
            assert_eq!(within(|q| q.leg_count = value), good);
        }
        for (value, good) in [(20240229, true), (20230229, false), (0, false)] {
            assert_eq!(within(|q| q.day = value), good);
        }
    }

    #[test]
    fn limits_of_each_card() {
        for slot in 0..CARD_SLOTS {
            for (value, good) in [(1, true), (999, true), (1000, false), (u64::MAX, false)] {
                let mut cards = [11, 12, 13, 14];
                cards[slot] = value;
                assert_eq!(within(|q| q.cards = cards), good, "{cards:?}");
            }
        }
    }

    #[test]
    fn used_slots_come_first() {
        for used in 0..1 << CARD_SLOTS {
            let card = |slot: u64| if used >> slot & 1 == 1 { 5 + slot } else { 0 };
            let cards = [card(0), card(1), card(2), card(3)];
            let good = [0b0000, 0b0001, 0b0011, 0b0111, 0b1111].contains(&used);
            assert_eq!(within(|q| q.cards = cards), good, "{cards:?}");
        }
    }

    #[test]
    fn a_card_given_twice_in_any_two_slots() {
        let twice = |cards| Question { cards, ..good() }.gives_a_card_twice();
        for (one, other) in [(0, 1), (0, 2), (0, 3), (1, 2), (1, 3), (2, 3)] {
            let mut cards = [11, 12, 13, 14];
            assert!(!twice(cards));
            cards[other] = cards[one];
            assert!(twice(cards), "{cards:?}");
            assert!(within(|q| q.cards = cards), "{cards:?}");
        }
        assert!(!twice(NO_CARDS) && !twice([5, 0, 0, 0]) && !twice([5, 7, 0, 0]));
    }

    #[test]
    fn eight_legs_are_the_most() {
        let eight = |count| {
            within(|q| {
                q.legs = [q.legs[0]; LEG_SLOTS];
                q.leg_count = count;
            })
        };
        assert!(eight(8));
        assert!(!eight(9));
        assert!(!eight(u64::MAX));
        assert!(!eight((1 << 32) + 8));
    }

    #[test]
    fn junk_beyond_the_leg_count_is_taken_as_zero() {
        let mut junk = good();
        junk.legs[2] = Leg {
            railway: u64::MAX,
            fare: u64::MAX,
        };
        assert!(junk.is_within_limits());
        assert!(junk.is_same_as(&good()));
        assert_eq!(junk.with_unused_slots_zero(), good());
    }

    #[test]
    fn order_of_legs_and_of_cards_make_another_question() {
        let mut swapped = good();
        swapped.legs.swap(0, 1);
        assert!(!swapped.is_same_as(&good()));
        for cards in [
            [5, 7, 0, 0],
            [7, 0, 0, 0],
            NO_CARDS,
            [7, 5, 9, 0],
            [7, 0, 5, 0],
        ] {
            assert!(!Question { cards, ..good() }.is_same_as(&good()));
        }
    }
}
