//! Renders the repeats of "The sales book": a sale sent again with one thing changed.

use std::fmt;

use super::cards::further_card;
use super::questions::break_a_limit;
use super::random::Random;
use super::valid::drawn_day;
use crate::book::{LARGEST_SEQUENCE, LARGEST_TILL};
use crate::calendar;
use crate::question::{
    cards_of, Leg, Question, CARD_SLOTS, LARGEST_CARD, LARGEST_OFFER, LARGEST_PLAIN_FARE,
    LARGEST_RAILWAY, LEG_SLOTS, MOST_PERSONS,
};

/// Of a leg that may break its limits.
const LARGEST_VALUE: u64 = u32::MAX as u64;

#[derive(Clone, Copy, Debug, PartialEq, Eq)]
pub struct Sent {
    pub till: u64,
    pub sequence: u64,
    pub question: Question,
}

#[derive(Clone, Copy, Debug, PartialEq, Eq)]
pub enum Change {
    Nothing,
    EqualLegsSwapped,
    RailwayBehind,
    FareBehind,
    Offer,
    Day,
    Persons,
    Card(usize),
    CardDropped,
    CardAdded,
    CardsReordered,
    CardTwice,
    CardBehindAGap,
    LegDropped,
    LegAdded,
    LegsReordered,
    LimitBroken,
    Railway(usize),
    Fare(usize),
    Till,
    Sequence,
}

impl Change {
    /// They leave the question the same.
    pub const OF_NOTHING: [Change; 4] = [
        Change::Nothing,
        Change::EqualLegsSwapped,
        Change::RailwayBehind,
        Change::FareBehind,
    ];

    /// They make it another sale.
    pub const OF_NUMBER: [Change; 2] = [Change::Till, Change::Sequence];

    /// They make it another question.
    pub fn of_question() -> Vec<Change> {
        let of_all_legs = [
            Change::Offer,
            Change::Day,
            Change::Persons,
            Change::CardDropped,
            Change::CardAdded,
            Change::CardsReordered,
            Change::CardTwice,
            Change::CardBehindAGap,
            Change::LegDropped,
            Change::LegAdded,
            Change::LegsReordered,
            Change::LimitBroken,
        ];
        let cards = (0..CARD_SLOTS).map(Change::Card);
        let railways = (0..LEG_SLOTS).map(Change::Railway);
        let fares = (0..LEG_SLOTS).map(Change::Fare);
        of_all_legs
            .into_iter()
            .chain(cards)
            .chain(railways)
            .chain(fares)
            .collect()
    }

    pub fn all() -> Vec<Change> {
        let mut all = Change::of_question();
        all.extend(Change::OF_NOTHING);
        all.extend(Change::OF_NUMBER);
        all
    }

    /// None where the sale has no such thing to change.
    pub fn applied(self, random: &mut Random, sent: &Sent) -> Option<Sent> {
        let mut again = *sent;
        match self {
            Change::Till => again.till = another(random, sent.till, 1, LARGEST_TILL),
            Change::Sequence => {
                again.sequence = another(random, sent.sequence, 1, LARGEST_SEQUENCE)
            }
            _ => self.apply_to_question(random, &mut again.question)?,
        }
        Some(again)
    }

    fn apply_to_question(self, random: &mut Random, question: &mut Question) -> Option<()> {
        match self {
            Change::Offer => question.offer = another(random, question.offer, 1, LARGEST_OFFER),
            Change::Day => question.day = another_day(random, question.day),
            Change::Persons => {
                question.persons = another(random, question.persons, 1, MOST_PERSONS)
            }
            Change::LimitBroken => break_a_limit(random, question),
            Change::CardBehindAGap => move_behind_a_gap(question)?,
            Change::Card(_)
            | Change::CardDropped
            | Change::CardAdded
            | Change::CardsReordered
            | Change::CardTwice => {
                let mut cards = question.given_cards();
                self.apply_to_cards(random, &mut cards)?;
                question.cards = cards_of(&cards);
            }
            _ => return self.apply_to_legs(random, question),
        }
        Some(())
    }

    fn apply_to_cards(self, random: &mut Random, cards: &mut Vec<u64>) -> Option<()> {
        match self {
            Change::Card(slot) => change_card(random, cards, slot)?,
            Change::CardDropped => drop_card(random, cards)?,
            Change::CardAdded => {
                let card = further_card(random, cards);
                insert_card(random, cards, card)?;
            }
            Change::CardsReordered => reorder(random, cards)?,
            Change::CardTwice => {
                let card = *cards.first()?;
                insert_card(random, cards, card)?;
            }
            _ => (),
        }
        Some(())
    }

    fn apply_to_legs(self, random: &mut Random, question: &mut Question) -> Option<()> {
        match self {
            Change::LegDropped => drop_leg(question)?,
            Change::LegAdded => add_leg(random, question)?,
            Change::LegsReordered => reorder(random, used_legs(question))?,
            Change::EqualLegsSwapped => swap_equal(used_legs(question))?,
            Change::RailwayBehind => {
                let slot = slot_behind(random, question)?;
                slot.railway = another(random, slot.railway, 0, LARGEST_VALUE);
            }
            Change::FareBehind => {
                let slot = slot_behind(random, question)?;
                slot.fare = another(random, slot.fare, 0, LARGEST_VALUE);
            }
            Change::Railway(slot) => {
                let leg = used_legs(question).get_mut(slot)?;
                leg.railway = another(random, leg.railway, 1, LARGEST_RAILWAY);
            }
            Change::Fare(slot) => {
                let leg = used_legs(question).get_mut(slot)?;
                leg.fare = another(random, leg.fare, 0, LARGEST_PLAIN_FARE);
            }
            _ => (),
        }
        Some(())
    }
}

/// Some change that the sale has room for.
pub fn changed(random: &mut Random, sent: &Sent) -> Sent {
    loop {
        if let Some(again) = random.pick(&Change::all()).applied(random, sent) {
            return again;
        }
    }
}

impl fmt::Display for Change {
    fn fmt(&self, out: &mut fmt::Formatter) -> fmt::Result {
        let words = match self {
            Change::Nothing => "unchanged",
            Change::EqualLegsSwapped => "equal legs swapped",
            Change::RailwayBehind => "railway behind the legs",
            Change::FareBehind => "fare behind the legs",
            Change::Offer => "offer",
            Change::Day => "day",
            Change::Persons => "persons",
            Change::Card(slot) => return write!(out, "card in slot {slot}"),
            Change::CardDropped => "card dropped",
            Change::CardAdded => "card added",
            Change::CardsReordered => "cards reordered",
            Change::CardTwice => "card twice",
            Change::CardBehindAGap => "card behind a gap",
            Change::LegDropped => "leg dropped",
            Change::LegAdded => "leg added",
            Change::LegsReordered => "legs reordered",
            Change::LimitBroken => "limit broken",
            Change::Railway(leg) => return write!(out, "railway of leg {leg}"),
            Change::Fare(leg) => return write!(out, "fare of leg {leg}"),
            Change::Till => "till",
            Change::Sequence => "sequence",
        };
        out.write_str(words)
    }
}

/// Within the limits, and mostly different in a single bit.
fn another(random: &mut Random, number: u64, least: u64, most: u64) -> u64 {
    let bits = u64::from(most.ilog2()) + 1;
    loop {
        let drawn = match random.below(3) {
            0 => random.between_with_ends(least, most),
            _ => number ^ (1 << random.below(bits)),
        };
        if drawn != number && (least..=most).contains(&drawn) {
            return drawn;
        }
    }
}

fn another_day(random: &mut Random, day: u64) -> u64 {
    loop {
        let drawn = match random.below(3) {
            0 => drawn_day(random, calendar::FIRST_DAY, calendar::LAST_DAY),
            _ => day ^ (1 << random.below(24)),
        };
        if drawn != day && calendar::is_real_day(drawn) {
            return drawn;
        }
    }
}

fn change_card(random: &mut Random, cards: &mut [u64], slot: usize) -> Option<()> {
    let others = cards.to_vec();
    let card = cards.get_mut(slot)?;
    while others.contains(card) {
        *card = another(random, *card, 1, LARGEST_CARD);
    }
    Some(())
}

fn drop_card(random: &mut Random, cards: &mut Vec<u64>) -> Option<()> {
    if cards.is_empty() {
        return None;
    }
    cards.remove(random.place_in(cards.len()));
    Some(())
}

fn insert_card(random: &mut Random, cards: &mut Vec<u64>, card: u64) -> Option<()> {
    if cards.len() == CARD_SLOTS {
        return None;
    }
    cards.insert(random.place_in(cards.len() + 1), card);
    Some(())
}

/// The last of the cards moves one slot on.
fn move_behind_a_gap(question: &mut Question) -> Option<()> {
    let count = question.given_cards().len();
    if count == 0 || count == CARD_SLOTS {
        return None;
    }
    question.cards.swap(count - 1, count);
    Some(())
}

fn used_legs(question: &mut Question) -> &mut [Leg] {
    let used = question.used_slots();
    &mut question.legs[..used]
}

fn slot_behind<'a>(random: &mut Random, question: &'a mut Question) -> Option<&'a mut Leg> {
    let used = question.used_slots();
    let behind = &mut question.legs[used..];
    match behind.len() {
        0 => None,
        length => Some(&mut behind[random.place_in(length)]),
    }
}

/// The leg itself is left in its slot.
fn drop_leg(question: &mut Question) -> Option<()> {
    if question.used_slots() < 2 {
        return None;
    }
    question.leg_count -= 1;
    Some(())
}

/// It is a leg there was, or what its slot held.
fn add_leg(random: &mut Random, question: &mut Question) -> Option<()> {
    let slot = question.used_slots();
    if slot == LEG_SLOTS {
        return None;
    }
    if slot > 0 && random.one_in(2) {
        question.legs[slot] = random.pick(question.used_legs());
    }
    question.leg_count += 1;
    Some(())
}

fn reorder<T: Copy + PartialEq>(random: &mut Random, items: &mut [T]) -> Option<()> {
    let before = items.to_vec();
    if before.windows(2).all(|pair| pair[0] == pair[1]) {
        return None;
    }
    while items == before {
        if random.one_in(2) {
            random.shuffle(items);
        } else {
            items.swap(random.place_in(before.len()), random.place_in(before.len()));
        }
    }
    Some(())
}

fn swap_equal(legs: &mut [Leg]) -> Option<()> {
    let later = (1..legs.len()).find(|&slot| legs[..slot].contains(&legs[slot]))?;
    let earlier = legs.iter().position(|leg| *leg == legs[later])?;
    legs.swap(earlier, later);
    Some(())
}

#[cfg(test)]
mod tests {
    use super::*;
    use crate::generate::books::sound_entry;

    const ATTEMPTS: u64 = 20;

    fn drawn_sale(random: &mut Random) -> Sent {
        let entry = sound_entry(random);
        Sent {
            till: entry.till,
            sequence: entry.sequence,
            question: entry.question,
        }
    }

    /// Each change that the sale has room for, some times over, with what becomes of the sale.
    fn each(changes: &[Change], mut held: impl FnMut(Change, &Sent, &Sent)) {
        let mut random = Random::from_seed(81);
        for change in changes {
            let mut met = 0;
            while met < ATTEMPTS {
                let mut first = drawn_sale(&mut random);
                if *change == Change::EqualLegsSwapped {
                    first.question.legs[1] = first.question.legs[0];
                }
                if let Some(again) = change.applied(&mut random, &first) {
                    held(*change, &first, &again);
                    met += 1;
                }
            }
        }
    }

    fn number(sent: &Sent) -> (u64, u64) {
        (sent.till, sent.sequence)
    }

    fn changed_values(first: &Sent, again: &Sent) -> usize {
        let values = |sent: &Sent| {
            let asked = &sent.question;
            let legs = asked.legs.iter().flat_map(|leg| [leg.railway, leg.fare]);
            let head = [
                sent.till,
                sent.sequence,
                asked.offer,
                asked.day,
                asked.persons,
                asked.leg_count,
            ];
            head.into_iter()
                .chain(asked.cards)
                .chain(legs)
                .collect::<Vec<u64>>()
        };
        let pairs = values(first).into_iter().zip(values(again));
        pairs.filter(|(old, new)| old != new).count()
    }

    #[test]
    fn another_question_under_the_same_number() {
        each(&Change::of_question(), |change, first, again| {
            assert_eq!(number(first), number(again), "{change}");
            assert!(!first.question.is_same_as(&again.question), "{change}");
            let leaves = matches!(change, Change::LimitBroken | Change::CardBehindAGap);
            assert!(!leaves || !again.question.is_within_limits(), "{change}");
            let is_twice = again.question.gives_a_card_twice();
            assert!(leaves || is_twice == (change == Change::CardTwice));
        });
    }

    #[test]
    fn the_same_question_under_the_same_number() {
        each(&Change::OF_NOTHING, |change, first, again| {
            assert_eq!(number(first), number(again), "{change}");
            assert!(first.question.is_same_as(&again.question), "{change}");
            let is_behind = matches!(change, Change::RailwayBehind | Change::FareBehind);
            assert_eq!(changed_values(first, again), usize::from(is_behind));
        });
    }

    #[test]
    fn the_same_question_under_another_number() {
        each(&Change::OF_NUMBER, |change, first, again| {
            assert_eq!(first.question, again.question, "{change}");
            assert_eq!(changed_values(first, again), 1, "{change}");
        });
    }

    #[test]
    fn one_value_at_a_time() {
        let mut changes = Change::of_question();
        let of_several = [
            Change::LegAdded,
            Change::LegsReordered,
            Change::LimitBroken,
            Change::CardDropped,
            Change::CardAdded,
            Change::CardsReordered,
            Change::CardTwice,
            Change::CardBehindAGap,
        ];
        changes.retain(|change| !of_several.contains(change));
        each(&changes, |change, first, again| {
            assert_eq!(changed_values(first, again), 1, "{change}");
        });
    }

    #[test]
    fn reordered_legs_are_the_same_legs() {
        each(&[Change::LegsReordered], |_, first, again| {
            let sorted = |sent: &Sent| {
                let mut legs = sent.question.legs;
                legs.sort_by_key(|leg| (leg.railway, leg.fare));
                legs
            };
            assert_eq!(first.question.leg_count, again.question.leg_count);
            assert_eq!(sorted(first), sorted(again));
        });
    }

    #[test]
    fn reordered_cards_are_the_same_cards() {
        each(&[Change::CardsReordered], |_, first, again| {
            let sorted = |sent: &Sent| {
                let mut cards = sent.question.cards;
                cards.sort();
                cards
            };
            assert_eq!(sorted(first), sorted(again));
        });
    }

    #[test]
    fn no_card_and_four_cards_have_no_room_for_some_changes() {
        let mut random = Random::from_seed(83);
        let mut sale = drawn_sale(&mut random);
        let mut has_room = |cards: &[u64], change: Change| {
            sale.question.cards = cards_of(cards);
            change.applied(&mut random, &sale).is_some()
        };
        let four = [5, 6, 7, 8];
        for change in [Change::CardAdded, Change::CardTwice, Change::CardBehindAGap] {
            assert!(!has_room(&four, change) && has_room(&four[..3], change));
        }
        for change in [Change::CardDropped, Change::CardTwice, Change::Card(0)] {
            assert!(!has_room(&[], change) && has_room(&[5], change));
        }
        assert!(!has_room(&[5], Change::CardsReordered) && has_room(&four, Change::Card(3)));
    }

    #[test]
    fn one_leg_and_eight_legs_have_no_room_for_some_changes() {
        let mut random = Random::from_seed(82);
        let mut sale = drawn_sale(&mut random);
        let mut has_room = |count, change: Change| {
            sale.question.leg_count = count;
            change.applied(&mut random, &sale).is_some()
        };
        assert!(!has_room(1, Change::LegDropped) && has_room(2, Change::LegDropped));
        assert!(!has_room(1, Change::LegsReordered));
        assert!(!has_room(8, Change::LegAdded) && has_room(7, Change::LegAdded));
        assert!(!has_room(8, Change::FareBehind) && has_room(7, Change::RailwayBehind));
        assert!(!has_room(3, Change::Fare(3)) && has_room(4, Change::Railway(3)));
    }
}
