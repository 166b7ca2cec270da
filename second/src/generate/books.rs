//! Renders the soundness of "The sales book" as books that have it and books that lack it.

use std::collections::HashSet;

use super::cards::{cards_with_one_twice, drawn_cards, Slots, PAIRS_OF_SLOTS};
use super::questions::unaimed_question;
use super::random::Random;
use crate::book::words::{empty_book, place, words_of_book, BOOK_WORDS, ENTRY_WORDS};
use crate::book::{Book, Entry, LARGEST_SEQUENCE, LARGEST_TILL, MOST_ENTRIES};
use crate::fare::largest_part;
use crate::question::{Cards, Leg, CARD_SLOTS, LEG_SLOTS};

pub fn sound_book(random: &mut Random) -> Book {
    let count = match random.below(5) {
        0 => random.pick(&[0, 1, 2, 255, 256]),
        1 => random.between(3, 256),
        _ => random.between(1, 12),
    };
    sound_book_of(random, count as usize)
}

pub fn full_book(random: &mut Random) -> Book {
    sound_book_of(random, MOST_ENTRIES)
}

pub fn sound_book_of(random: &mut Random, count: usize) -> Book {
    let mut numbers = HashSet::new();
    let mut entries = Vec::new();
    while entries.len() < count {
        let entry = sound_entry(random);
        if numbers.insert((entry.till, entry.sequence)) {
            entries.push(entry);
        }
    }
    Book { entries }
}

pub fn sound_entry(random: &mut Random) -> Entry {
    let question = unaimed_question(random).with_unused_slots_zero();
    let (till, sequence) = sale_number(random);
    let mut entry = Entry {
        till,
        sequence,
        question,
        cancelled: random.one_in(3),
        ..Entry::default()
    };
    for slot in 0..question.used_slots() {
        entry.parts[slot] = random.between_with_ends(0, entry.largest_part());
    }
    entry
}

/// Sound, with an entry of so many cards whose parts are all as large as they may be.
pub fn book_at_the_bound(random: &mut Random, cards: usize) -> Book {
    let mut book = sound_book_of(random, 12);
    let entry = &mut book.entries[random.place_in(12)];
    give_cards(entry, drawn_cards(random, cards));
    let used = entry.question.used_slots();
    entry.parts[..used].fill(largest_part(cards));
    book
}

/// The parts are held to the bound of these cards.
fn give_cards(entry: &mut Entry, cards: Cards) {
    entry.question.cards = cards;
    let largest = entry.largest_part();
    for part in &mut entry.parts {
        *part = largest.min(*part);
    }
}

pub fn sale_number(random: &mut Random) -> (u64, u64) {
    match random.below(3) {
        0 => (random.between(1, 3), random.between(1, 200)),
        _ => (
            random.between_with_ends(1, LARGEST_TILL),
            random.between_with_ends(1, LARGEST_SEQUENCE),
        ),
    }
}

/// An entry that far behind another looks like it to an engine that cuts its place, or that of its words, to fewer bits.
pub const POWERS_BEHIND: [u32; 6] = [8, 16, 26, 32, 58, 63];

/// Places in a book of so many entries, at its end and far behind it.
pub fn entry_places(random: &mut Random, count: u64) -> [u64; 8] {
    let inside = random.below(count.max(1));
    let far = (1 << random.pick(&POWERS_BEHIND)) + inside;
    let last = count.saturating_sub(1);
    [0, inside, last, count, 255, 256, far, u64::MAX]
}

#[derive(Clone, Copy, Debug, PartialEq, Eq)]
pub enum BookDefect {
    NoWords,
    OneWordShort,
    OneWordLong,
    CountOverLimit,
    CountHuge,
    CountOverEntries,
    CountUnderEntries,
    CountWithoutEntries,
    NumberRepeated,
    TillZero,
    TillTooLarge,
    SequenceZero,
    OfferZero,
    OfferTooLarge,
    NoSuchDay,
    CardTooLarge(usize),
    CardTwice(usize, usize),
    CardBehindAGap(Slots),
    NoLegs,
    NineLegs,
    OneLegMore,
    OneLegLess,
    CategorySet,
    NoPersons,
    TooManyPersons,
    FurtherPersons,
    RailwayZero,
    RailwayTooLarge,
    PlainFareTooLarge,
    StationSet,
    PartTooLarge,
    PartOverBoundOfCards(usize),
    UnusedLegSet,
    UnusedPartSet,
    MarkUnknown,
    ReturnedSet,
    ReserveSet,
    UnusedEntrySet,
    LastWordSet,
}

/// A place in an entry, and values for it.
type BadWord = (usize, &'static [u32]);

const NO_DAYS: [u32; 5] = [0, 15_821_231, 20_230_229, 20_241_301, 100_000_101];

impl BookDefect {
    const OF_ONE_KIND: [BookDefect; 35] = [
        BookDefect::NoWords,
        BookDefect::OneWordShort,
        BookDefect::OneWordLong,
        BookDefect::CountOverLimit,
        BookDefect::CountHuge,
        BookDefect::CountOverEntries,
        BookDefect::CountUnderEntries,
        BookDefect::CountWithoutEntries,
        BookDefect::NumberRepeated,
        BookDefect::TillZero,
        BookDefect::TillTooLarge,
        BookDefect::SequenceZero,
        BookDefect::OfferZero,
        BookDefect::OfferTooLarge,
        BookDefect::NoSuchDay,
        BookDefect::NoLegs,
        BookDefect::NineLegs,
        BookDefect::OneLegMore,
        BookDefect::OneLegLess,
        BookDefect::CategorySet,
        BookDefect::NoPersons,
        BookDefect::TooManyPersons,
        BookDefect::FurtherPersons,
        BookDefect::RailwayZero,
        BookDefect::RailwayTooLarge,
        BookDefect::PlainFareTooLarge,
        BookDefect::StationSet,
        BookDefect::PartTooLarge,
        BookDefect::UnusedLegSet,
        BookDefect::UnusedPartSet,
        BookDefect::MarkUnknown,
        BookDefect::ReturnedSet,
        BookDefect::ReserveSet,
        BookDefect::UnusedEntrySet,
        BookDefect::LastWordSet,
    ];

    pub fn all() -> Vec<BookDefect> {
        let mut all = BookDefect::OF_ONE_KIND.to_vec();
        all.extend((0..CARD_SLOTS).map(BookDefect::CardTooLarge));
        all.extend(PAIRS_OF_SLOTS.map(|(one, other)| BookDefect::CardTwice(one, other)));
        all.extend(
            Slots::with_a_gap()
                .into_iter()
                .map(BookDefect::CardBehindAGap),
        );
        all.extend((0..=CARD_SLOTS).map(BookDefect::PartOverBoundOfCards));
        all
    }

    /// The words of a book with this defect and no other.
    pub fn example(self, random: &mut Random) -> Vec<u32> {
        let count = random.between(2, 255) as usize;
        let mut book = sound_book_of(random, count);
        let victim = random.place_in(count);
        let entry = &mut book.entries[victim];
        shorten_question(random, entry);
        self.damage_cards(random, entry);
        let mut words = words_of_book(&book).expect("all values fit their words");
        let start = 1 + victim * ENTRY_WORDS;
        self.damage_words(random, &mut words, count, start);
        words
    }

    fn damage_cards(self, random: &mut Random, entry: &mut Entry) {
        match self {
            BookDefect::CardTooLarge(slot) => {
                let count = random.between(slot as u64 + 1, CARD_SLOTS as u64);
                give_cards(entry, drawn_cards(random, count as usize));
                entry.question.cards[slot] = random.pick(&[1000, 1000, u64::from(u32::MAX)]);
            }
            BookDefect::CardTwice(one, other) => {
                give_cards(entry, cards_with_one_twice(random, (one, other)));
            }
            BookDefect::CardBehindAGap(slots) => give_cards(entry, slots.filled(random)),
            BookDefect::PartOverBoundOfCards(count) => {
                give_cards(entry, drawn_cards(random, count));
                entry.parts[random.place_in(entry.question.used_slots())] = largest_part(count) + 1;
            }
            _ => (),
        }
    }

    fn damage_words(self, random: &mut Random, words: &mut Vec<u32>, count: usize, start: usize) {
        let used = words[start + place::LEG_COUNT] as usize;
        let (used_leg, unused_leg) = (
            random.place_in(used),
            used + random.place_in(LEG_SLOTS - used),
        );
        let bad_word = self
            .bad_word()
            .or_else(|| self.bad_word_of_leg(used_leg, unused_leg))
            .or_else(|| self.bad_word_at_a_drawn_place(random, unused_leg));
        if let Some((place, values)) = bad_word {
            words[start + place] = random.pick(values);
        }
        self.damage_counts(random, words, start);
        self.damage_book(random, words, count);
    }

    /// A word of the entry that stands at one place, and values that it may not have.
    fn bad_word(self) -> Option<BadWord> {
        let bad: BadWord = match self {
            BookDefect::TillZero => (place::TILL, &[0]),
            BookDefect::TillTooLarge => (place::TILL, &[65_536, u32::MAX]),
            BookDefect::SequenceZero => (place::SEQUENCE, &[0]),
            BookDefect::OfferZero => (place::OFFER, &[0]),
            BookDefect::OfferTooLarge => (place::OFFER, &[100_000, u32::MAX]),
            BookDefect::NoSuchDay => (place::DAY, &NO_DAYS),
            BookDefect::NoLegs => (place::LEG_COUNT, &[0]),
            BookDefect::NineLegs => (place::LEG_COUNT, &[9, 256, u32::MAX]),
            BookDefect::CategorySet => (place::CATEGORIES, &[1, 2, u32::MAX]),
            BookDefect::NoPersons => (place::PERSONS, &[0]),
            BookDefect::TooManyPersons => (place::PERSONS, &[100, u32::MAX]),
            BookDefect::MarkUnknown => (place::MARK, &[2, 3, 257, u32::MAX]),
            BookDefect::ReturnedSet => (place::RETURNED, &[1, u32::MAX]),
            BookDefect::ReserveSet => (place::RESERVE, &[1, u32::MAX]),
            _ => return None,
        };
        Some(bad)
    }

    fn bad_word_of_leg(self, used_leg: usize, unused_leg: usize) -> Option<BadWord> {
        let bad: BadWord = match self {
            BookDefect::RailwayZero => (place::railway(used_leg), &[0]),
            BookDefect::RailwayTooLarge => (place::railway(used_leg), &[10_000, u32::MAX]),
            BookDefect::PlainFareTooLarge => (place::fare(used_leg), &[1_000_000, u32::MAX]),
            BookDefect::PartTooLarge => (place::PARTS + used_leg, &[99_493_912, u32::MAX]),
            BookDefect::UnusedPartSet => (place::PARTS + unused_leg, &[1, 1500]),
            _ => return None,
        };
        Some(bad)
    }

    /// A word that has to be zero, one of several.
    fn bad_word_at_a_drawn_place(self, random: &mut Random, unused_leg: usize) -> Option<BadWord> {
        let bad: BadWord = match self {
            BookDefect::FurtherPersons => (place::PERSONS + 1 + random.place_in(10), &[1, 99]),
            BookDefect::StationSet => {
                let leg = random.place_in(LEG_SLOTS);
                (place::fare(leg) + 1 + random.place_in(2), &[1, u32::MAX])
            }
            BookDefect::UnusedLegSet => {
                let places = [place::railway(unused_leg), place::fare(unused_leg)];
                (random.pick(&places), &[1, 1185])
            }
            _ => return None,
        };
        Some(bad)
    }

    fn damage_counts(self, random: &mut Random, words: &mut [u32], start: usize) {
        match self {
            BookDefect::CountOverLimit => words[0] = 257,
            BookDefect::CountHuge => words[0] = random.pick(&[65_536, 1 << 31, u32::MAX]),
            BookDefect::CountOverEntries => words[0] += 1,
            BookDefect::CountUnderEntries => words[0] -= 1,
            BookDefect::OneLegMore => words[start + place::LEG_COUNT] += 1,
            BookDefect::OneLegLess => words[start + place::LEG_COUNT] -= 1,
            _ => (),
        }
    }

    fn damage_book(self, random: &mut Random, words: &mut Vec<u32>, count: usize) {
        match self {
            BookDefect::NoWords => words.clear(),
            BookDefect::OneWordShort => words.truncate(BOOK_WORDS - 1),
            BookDefect::OneWordLong => words.push(0),
            BookDefect::CountWithoutEntries => {
                *words = empty_book();
                words[0] = 1;
            }
            BookDefect::NumberRepeated => repeat_a_number(random, words, count),
            BookDefect::UnusedEntrySet => {
                let first = 1 + count * ENTRY_WORDS;
                words[first + random.place_in(BOOK_WORDS - first)] = 1;
            }
            BookDefect::LastWordSet => words[BOOK_WORDS - 1] = 1,
            _ => (),
        }
    }
}

/// At least one leg is left used and one unused, and the used ones are not all zero.
fn shorten_question(random: &mut Random, entry: &mut Entry) {
    let used = random.between(1, 7);
    entry.question.leg_count = used;
    for slot in 0..LEG_SLOTS {
        if (slot as u64) < used {
            entry.question.legs[slot].railway = random.between_with_ends(1, 9999);
        } else {
            entry.question.legs[slot] = Leg::default();
            entry.parts[slot] = 0;
        }
    }
}

fn repeat_a_number(random: &mut Random, words: &mut [u32], count: usize) {
    let from = random.place_in(count);
    let to = (from + 1 + random.place_in(count - 1)) % count;
    for word in [place::TILL, place::SEQUENCE] {
        words[1 + to * ENTRY_WORDS + word] = words[1 + from * ENTRY_WORDS + word];
    }
}

pub fn malformed_book(random: &mut Random) -> Vec<u32> {
    random.pick(&BookDefect::all()).example(random)
}

#[cfg(test)]
mod tests {
    use super::*;
    use crate::book::words::is_sound;

    #[test]
    fn sound_books_are_sound() {
        let mut random = Random::from_seed(51);
        for _ in 0..100 {
            let book = sound_book(&mut random);
            assert!(book.is_sound());
            assert!(is_sound(&words_of_book(&book).unwrap()));
        }
    }

    #[test]
    fn books_at_the_bound_are_sound_and_full_to_it() {
        let mut random = Random::from_seed(53);
        let bounds = [99_197_505, 99_197_505, 99_296_307, 99_395_109, 99_493_911];
        for (cards, bound) in bounds.into_iter().enumerate() {
            let book = book_at_the_bound(&mut random, cards);
            assert!(is_sound(&words_of_book(&book).unwrap()));
            let is_full = |entry: &Entry| {
                entry.question.given_cards().len() == cards && entry.parts[0] == bound
            };
            assert!(book.entries.iter().any(is_full), "{cards}");
        }
    }

    #[test]
    fn entry_places_are_inside_at_the_end_and_far_behind() {
        let mut random = Random::from_seed(54);
        for count in [0, 1, 2, 255, 256] {
            let places = entry_places(&mut random, count);
            let [first, inside, last, behind, .., far, greatest] = places;
            assert_eq!((first, behind, greatest), (0, count, u64::MAX));
            assert!(count == 0 || (inside < count && last + 1 == count));
            assert!(far >= 256);
        }
    }

    #[test]
    fn each_defect_makes_a_book_unsound() {
        let mut random = Random::from_seed(52);
        for defect in BookDefect::all() {
            for _ in 0..20 {
                assert!(!is_sound(&defect.example(&mut random)), "{defect:?}");
            }
        }
    }
}
