//! Renders the cards of R-1 as slots in and out of their limits.

use std::fmt;

use super::random::Random;
use super::valid::distinct;
use crate::question::{cards_of, Cards, CARD_SLOTS, LARGEST_CARD, NO_CARD};

/// Every two slots, the earlier first.
pub const PAIRS_OF_SLOTS: [(usize, usize); 6] = [(0, 1), (0, 2), (0, 3), (1, 2), (1, 3), (2, 3)];

pub fn drawn_cards(random: &mut Random, count: usize) -> Cards {
    cards_of(&distinct(random, count as u64, drawn_card))
}

fn drawn_card(random: &mut Random) -> u64 {
    random.between_with_ends(1, LARGEST_CARD)
}

/// Within its limits, and none of those given.
pub fn further_card(random: &mut Random, given: &[u64]) -> u64 {
    loop {
        let card = drawn_card(random);
        if !given.contains(&card) {
            return card;
        }
    }
}

/// Which slots are used, a bit for each.
#[derive(Clone, Copy, PartialEq, Eq)]
pub struct Slots(u8);

impl Slots {
    pub fn of(cards: &Cards) -> Slots {
        let bit = |slot: usize| u8::from(cards[slot] != NO_CARD) << slot;
        Slots((0..CARD_SLOTS).map(bit).sum())
    }

    /// Those with a used slot after an unused one.
    pub fn with_a_gap() -> Vec<Slots> {
        let all = (0..1 << CARD_SLOTS).map(Slots);
        all.filter(|slots| slots.have_a_gap()).collect()
    }

    pub fn have_a_gap(self) -> bool {
        !(self.0 + 1).is_power_of_two()
    }

    fn is_used(self, slot: usize) -> bool {
        self.0 >> slot & 1 == 1
    }

    /// Different cards in these slots.
    pub fn filled(self, random: &mut Random) -> Cards {
        let mut cards = drawn_cards(random, CARD_SLOTS);
        for (slot, card) in cards.iter_mut().enumerate() {
            if !self.is_used(slot) {
                *card = NO_CARD;
            }
        }
        cards
    }
}

impl fmt::Display for Slots {
    fn fmt(&self, out: &mut fmt::Formatter) -> fmt::Result {
        let letter = |slot| if self.is_used(slot) { 'c' } else { '-' };
        out.write_str(&(0..CARD_SLOTS).map(letter).collect::<String>())
    }
}

impl fmt::Debug for Slots {
    fn fmt(&self, out: &mut fmt::Formatter) -> fmt::Result {
        fmt::Display::fmt(self, out)
    }
}

/// All different but for two slots that hold the same card.
pub fn cards_with_one_twice(random: &mut Random, (one, other): (usize, usize)) -> Cards {
    let count = random.between(other as u64 + 1, CARD_SLOTS as u64);
    let mut cards = drawn_cards(random, count as usize);
    cards[other] = cards[one];
    cards
}

/// A used slot after an unused one; some of the cards may be the same.
pub fn cards_with_a_gap(random: &mut Random) -> Cards {
    let mut cards = random.pick(&Slots::with_a_gap()).filled(random);
    if random.one_in(3) {
        let same = drawn_card(random);
        for card in cards.iter_mut().filter(|card| **card != NO_CARD) {
            *card = same;
        }
    }
    cards
}

#[cfg(test)]
mod tests {
    use super::*;

    #[test]
    fn eleven_of_sixteen_have_a_gap() {
        let gaps = Slots::with_a_gap();
        assert_eq!(gaps.len(), 11);
        let words: Vec<String> = gaps.iter().map(Slots::to_string).collect();
        for word in ["-c--", "---c", "c-c-", "cc-c", "-ccc"] {
            assert!(words.contains(&word.to_string()), "{words:?}");
        }
        for word in ["----", "c---", "cc--", "ccc-", "cccc"] {
            assert!(!words.contains(&word.to_string()), "{words:?}");
        }
    }

    #[test]
    fn slots_are_filled_as_they_say() {
        let mut random = Random::from_seed(95);
        for slots in Slots::with_a_gap() {
            let cards = slots.filled(&mut random);
            assert_eq!(Slots::of(&cards), slots);
        }
    }
}
