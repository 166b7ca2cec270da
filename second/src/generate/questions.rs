//! Renders the first paragraphs of "Pricing" as questions in and out of their limits.

use super::cards::{cards_with_a_gap, cards_with_one_twice, drawn_cards, PAIRS_OF_SLOTS};
use super::random::Random;
use super::valid::{distinct, drawn_day};
use crate::bundle::{readable_records, Record};
use crate::calendar;
use crate::layout::{ar, co, Table};
use crate::period::Period;
use crate::question::{cards_of, Cards, Leg, Question, CARD_SLOTS, LEG_SLOTS};

const AIMED_AT_A_CARD_ONE_IN: u64 = 4;

/// Mostly within its limits and near to what the bundle can price.
pub fn question(random: &mut Random, bundle: &[u8]) -> Question {
    match random.below(14) {
        0 | 1 => question_out_of_limits(random, bundle),
        2 => question_with_a_card_twice(random, bundle),
        _ => question_in_limits(random, bundle),
    }
}

pub fn question_with_a_card_twice(random: &mut Random, bundle: &[u8]) -> Question {
    let slots = random.pick(&PAIRS_OF_SLOTS);
    Question {
        cards: cards_with_one_twice(random, slots),
        ..question_in_limits(random, bundle)
    }
}

pub fn question_in_limits(random: &mut Random, bundle: &[u8]) -> Question {
    let records = readable_records(bundle);
    match Shelf::of_some_offer(random, &records) {
        Some(shelf) if !random.one_in(30) => aimed_question(random, &shelf),
        _ => unaimed_question(random),
    }
}

/// What a bundle holds about one offer.
struct Shelf<'a> {
    offer: u64,
    conditions: Vec<Record<'a>>,
    additional: Vec<Record<'a>>,
}

impl<'a> Shelf<'a> {
    fn of_some_offer(random: &mut Random, records: &[Record<'a>]) -> Option<Shelf<'a>> {
        let offers: Vec<u64> = records
            .iter()
            .filter(|record| record.table == Table::Co)
            .map(|record| known(record, co::OFFER))
            .collect();
        if offers.is_empty() {
            return None;
        }
        let offer = random.pick(&offers);
        let of_table = |table, field| -> Vec<Record<'a>> {
            records
                .iter()
                .filter(|record| record.table == table && known(record, field) == offer)
                .copied()
                .collect()
        };
        Some(Shelf {
            offer,
            conditions: of_table(Table::Co, co::OFFER),
            additional: of_table(Table::Ar, ar::OFFER),
        })
    }

    fn conditions_at(&self, railway: u64) -> Vec<&Record<'a>> {
        let is_there = |record: &&Record| known(record, co::RAILWAY) == railway;
        self.conditions.iter().filter(is_there).collect()
    }

    /// Of the railway, or else of 0000; where both have some, of either.
    fn conditions_for(&self, random: &mut Random, railway: u64) -> Vec<&Record<'a>> {
        let (own, default) = (self.conditions_at(railway), self.conditions_at(0));
        let is_by_default = own.is_empty() || !default.is_empty() && random.one_in(4);
        if is_by_default {
            default
        } else {
            own
        }
    }

    /// Of a card that is given, at the railway or at 0000.
    fn additional_for(&self, cards: &Cards, railway: u64) -> Vec<&Record<'a>> {
        let is_given = |record: &&Record| cards.contains(&known(record, ar::CODE));
        let is_there = |record: &&Record| [railway, 0].contains(&known(record, ar::RAILWAY));
        let given = self.additional.iter().filter(is_given);
        given.filter(is_there).collect()
    }

    fn drawn_railway(&self, random: &mut Random) -> u64 {
        let by_default = !self.conditions_at(0).is_empty() && !self.additional.is_empty();
        let railway = if by_default && random.one_in(2) {
            known(&random.pick(&self.additional), ar::RAILWAY)
        } else {
            known(&random.pick(&self.conditions), co::RAILWAY)
        };
        if railway == 0 || random.one_in(25) {
            random.between_with_ends(1, 9999)
        } else {
            railway
        }
    }

    fn drawn_cards(&self, random: &mut Random) -> Cards {
        let count = random.pick(&[0, 1, 1, 2, 2, 3, 4, 4]);
        cards_of(&distinct(random, count, |random| self.drawn_card(random)))
    }

    fn drawn_card(&self, random: &mut Random) -> u64 {
        if self.additional.is_empty() || random.one_in(8) {
            return random.between_with_ends(1, 999);
        }
        known(&random.pick(&self.additional), ar::CODE).clamp(1, 999)
    }
}

fn known(record: &Record, field: u8) -> u64 {
    record.number_or(field, 0)
}

pub fn unaimed_question(random: &mut Random) -> Question {
    let count = random.place_in(CARD_SLOTS + 1);
    let mut question = Question {
        offer: random.between_with_ends(1, 99_999),
        day: drawn_day(random, calendar::FIRST_DAY, calendar::LAST_DAY),
        persons: random.between_with_ends(1, 99),
        cards: drawn_cards(random, count),
        leg_count: random.between_with_ends(1, 8),
        ..Question::default()
    };
    for slot in 0..question.used_slots() {
        question.legs[slot] = Leg {
            railway: random.between_with_ends(1, 9999),
            fare: drawn_fare(random),
        };
    }
    fill_unused_slots(random, &mut question);
    question
}

fn aimed_question(random: &mut Random, shelf: &Shelf) -> Question {
    let mut question = Question {
        offer: shelf.offer.clamp(1, 99_999),
        cards: shelf.drawn_cards(random),
        leg_count: random.pick(&[1, 1, 1, 2, 2, 3, 4, 7, 8]),
        ..Question::default()
    };
    let mut window = Window::open();
    for slot in 0..question.used_slots() {
        let railway = shelf.drawn_railway(random);
        question.legs[slot] = Leg {
            railway,
            fare: drawn_fare(random),
        };
        let conditions = shelf.conditions_for(random, railway);
        window.narrow_to_one_of(random, &conditions);
        if random.one_in(AIMED_AT_A_CARD_ONE_IN) {
            let additional = shelf.additional_for(&question.cards, railway);
            window.narrow_to_days_of_one(random, &additional);
        }
    }
    question.day = window.drawn_day(random);
    question.persons = window.drawn_persons(random);
    fill_unused_slots(random, &mut question);
    question
}

/// Of so many legs, all on the railways of the first, so that it is priced where that is; often two of them are equal.
pub fn with_legs(random: &mut Random, first: &Question, count: usize) -> Question {
    let mut legs = [Leg::default(); LEG_SLOTS];
    for leg in &mut legs[..count] {
        leg.railway = random.pick(first.used_legs()).railway;
        leg.fare = drawn_fare(random);
    }
    if random.one_in(2) {
        legs[random.place_in(count)] = legs[random.place_in(count)];
    }
    Question {
        leg_count: count as u64,
        legs,
        ..*first
    }
}

/// Of so many cards, in any order: those given, as far as they go, and others.
pub fn with_cards(random: &mut Random, first: &Question, count: usize) -> Question {
    let mut cards = first.given_cards();
    let further = distinct(random, CARD_SLOTS as u64, |random| random.between(1, 999));
    cards.extend(further.iter().filter(|card| !first.cards.contains(card)));
    cards.truncate(count);
    random.shuffle(&mut cards);
    Question {
        cards: cards_of(&cards),
        ..*first
    }
}

fn drawn_fare(random: &mut Random) -> u64 {
    match random.below(4) {
        0 => random.pick(&[0, 1, 2, 5, 10, 760, 1010, 999_998, 999_999]),
        1 => random.between(0, 999_999),
        _ => random.between(0, 20_000),
    }
}

/// Days and persons that suit all legs so far.
struct Window {
    days: Period,
    least: u64,
    most: u64,
}

impl Window {
    fn open() -> Window {
        Window {
            days: Period::of(calendar::FIRST_DAY, calendar::LAST_DAY),
            least: 1,
            most: 99,
        }
    }

    fn narrow_to_one_of(&mut self, random: &mut Random, conditions: &[&Record]) {
        if let Some(record) = self.narrow_to_days_of_one(random, conditions) {
            self.least = self.least.max(known(record, co::LEAST_PERSONS));
            self.most = self.most.min(record.number_or(co::MOST_PERSONS, 99));
        }
    }

    /// One that has some of the days, if there is any.
    fn narrow_to_days_of_one<'a, 'b>(
        &mut self,
        random: &mut Random,
        records: &[&'b Record<'a>],
    ) -> Option<&'b Record<'a>> {
        let has_some = |record: &&&Record| record.period().shares_a_day_with(&self.days);
        let open: Vec<&Record> = records.iter().filter(has_some).copied().collect();
        if open.is_empty() {
            return None;
        }
        let record = random.pick(&open);
        let Period { first, last } = record.period();
        self.days = Period::of(self.days.first.max(first), self.days.last.min(last));
        Some(record)
    }

    fn drawn_day(&self, random: &mut Random) -> u64 {
        let Period { first, last } = self.days;
        let is_open = first <= last && calendar::is_real_day(first) && calendar::is_real_day(last);
        if !is_open {
            return drawn_day(random, calendar::FIRST_DAY, calendar::LAST_DAY);
        }
        let day = match random.below(14) {
            0..=2 => first,
            3..=5 => last,
            6 => calendar::day_before(first),
            7 => calendar::day_after(last),
            _ => drawn_day(random, first, last),
        };
        day.clamp(calendar::FIRST_DAY, calendar::LAST_DAY)
    }

    fn drawn_persons(&self, random: &mut Random) -> u64 {
        let (least, most) = (self.least, self.most);
        if least > most {
            return random.between_with_ends(1, 99);
        }
        let persons = match random.below(14) {
            0..=2 => least,
            3..=5 => most,
            6 => least - 1,
            7 => most + 1,
            _ => random.between(least, most),
        };
        persons.clamp(1, 99)
    }
}

fn fill_unused_slots(random: &mut Random, question: &mut Question) {
    if random.one_in(2) {
        return;
    }
    for slot in question.used_slots()..LEG_SLOTS {
        question.legs[slot] = Leg {
            railway: random.pick(&[0, 1, 1185, 10_000, u64::MAX]),
            fare: random.pick(&[0, 1, 999_999, 1_000_000, u64::MAX]),
        };
    }
}

pub fn question_out_of_limits(random: &mut Random, bundle: &[u8]) -> Question {
    let mut question = question_in_limits(random, bundle);
    for _ in 0..random.pick(&[1, 1, 1, 2]) {
        break_a_limit(random, &mut question);
    }
    question
}

/// Wide values are also such as look good once cut to 16 or 32 bits.
pub fn break_a_limit(random: &mut Random, question: &mut Question) {
    let wide = random.pick(&[1 << 16, 1 << 32, 1 << 48]);
    let slot = random.place_in(question.used_slots().max(1));
    match random.below(8) {
        0 => question.offer = random.pick(&[0, 100_000, u64::MAX, question.offer | (1 << 32)]),
        1 => {
            let days = [
                0,
                15_821_231,
                20_230_229,
                21_000_229,
                20_241_301,
                20_240_100,
                20_240_431,
                100_000_101,
                u64::MAX,
                question.day | (1 << 32),
            ];
            question.day = random.pick(&days);
        }
        2 => question.persons = random.pick(&[0, 100, 256, u64::MAX, question.persons | wide]),
        3 => {
            let slot = random.place_in(CARD_SLOTS.min(question.given_cards().len() + 1));
            let card = question.cards[slot];
            question.cards[slot] = random.pick(&[1000, 65_535, u64::MAX, card | wide]);
        }
        4 => question.leg_count = random.pick(&[0, 9, 16, u64::MAX, question.leg_count | wide]),
        5 => question.cards = cards_with_a_gap(random),
        6 => question.legs[slot].railway = random.pick(&[0, 10_000, u64::MAX, 1185 | wide]),
        _ => question.legs[slot].fare = random.pick(&[1_000_000, u64::MAX, 1010 | (1 << 32)]),
    }
}

#[cfg(test)]
mod tests {
    use super::*;
    use crate::fare::{fare, Fare};
    use crate::generate::corpus::Corpus;
    use crate::generate::valid::valid_bundle;
    use std::collections::BTreeMap;

    #[test]
    fn questions_keep_or_leave_their_limits() {
        let mut random = Random::from_seed(41);
        for _ in 0..300 {
            let bundle = valid_bundle(&mut random);
            assert!(question_in_limits(&mut random, &bundle).is_within_limits());
            assert!(!question_out_of_limits(&mut random, &bundle).is_within_limits());
            let twice = question_with_a_card_twice(&mut random, &bundle);
            assert!(twice.is_within_limits() && twice.gives_a_card_twice());
        }
    }

    #[test]
    fn as_many_cards_as_asked() {
        let mut random = Random::from_seed(45);
        for turn in 0..200 {
            let first = unaimed_question(&mut random);
            let count = turn % (CARD_SLOTS + 1);
            let other = with_cards(&mut random, &first, count);
            assert_eq!(other.given_cards().len(), count);
            assert!(other.is_within_limits() && !other.gives_a_card_twice());
        }
    }

    #[test]
    fn as_many_legs_as_asked_are_priced_where_the_first_are() {
        let mut random = Random::from_seed(44);
        for turn in 0..400 {
            let bundle = valid_bundle(&mut random);
            let first = question_in_limits(&mut random, &bundle);
            let count = 1 + turn % LEG_SLOTS;
            let other = with_legs(&mut random, &first, count);
            let is_priced = |asked| matches!(fare(&bundle, asked), Fare::Priced { .. });
            assert_eq!(other.used_slots(), count);
            assert!(!is_priced(&first) || is_priced(&other));
        }
    }

    #[test]
    fn any_bundle_can_be_asked_about() {
        let mut random = Random::from_seed(42);
        let corpus = Corpus::of_seed(42);
        for index in 0..490 {
            let bundle = corpus.bundle(index);
            assert!(question_in_limits(&mut random, &bundle).is_within_limits());
        }
    }

    #[test]
    fn questions_reach_every_answer_of_pricing() {
        let mut random = Random::from_seed(43);
        let mut reached: BTreeMap<(u8, u64), u64> = BTreeMap::new();
        for _ in 0..300 {
            let bundle = valid_bundle(&mut random);
            for _ in 0..10 {
                let asked = question(&mut random, &bundle);
                let outcome = match fare(&bundle, &asked) {
                    Fare::Priced { .. } => (0, 0),
                    Fare::Refused(refusal) => (refusal.number, refusal.detail),
                };
                *reached.entry(outcome).or_default() += 1;
            }
        }
        let expected: Vec<(u8, u64)> = [(0, 0), (11, 0), (12, 0), (13, 0), (14, 0)]
            .into_iter()
            .chain([27, 31, 32, 34, 35].map(|field| (15, field)))
            .chain([(17, 0)])
            .collect();
        assert_eq!(reached.keys().copied().collect::<Vec<_>>(), expected);
        assert!(reached[&(0, 0)] > 800, "{reached:?}");
    }
}
