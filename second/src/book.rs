//! Renders "The sales book": its entries, its soundness and the calls on it. Those that read its sales go by the rules of the house.

pub mod words;

use std::collections::HashSet;

use crate::fare::{largest_part, priced_parts, Parts, Question};
use crate::question::is_railway;
use crate::refusal::Refusal;

pub const MOST_ENTRIES: usize = 256;
pub const LARGEST_TILL: u64 = 65_535;
pub const LARGEST_SEQUENCE: u64 = 4_294_967_295;

#[derive(Clone, Copy, Debug, Default, PartialEq, Eq)]
pub struct Entry {
    pub till: u64,
    pub sequence: u64,
    pub question: Question,
    pub parts: Parts,
    pub cancelled: bool,
}

#[derive(Clone, Debug, Default, PartialEq, Eq)]
pub struct Book {
    pub entries: Vec<Entry>,
}

#[derive(Clone, Copy, Debug, PartialEq, Eq)]
pub enum Sale {
    Booked { parts: Parts },
    AlreadyBooked { parts: Parts, cancelled: bool },
    Refused(Refusal),
}

#[derive(Clone, Copy, Debug, PartialEq, Eq)]
pub enum Cancel {
    Cancelled { parts: Parts },
    AlreadyCancelled { parts: Parts },
    Refused(Refusal),
}

#[derive(Clone, Copy, Debug, PartialEq, Eq)]
pub enum Sum {
    Amount(u64),
    Refused(Refusal),
}

#[derive(Clone, Copy, Debug, PartialEq, Eq)]
pub enum Count {
    Entries(u64),
    Refused(Refusal),
}

#[derive(Clone, Debug, PartialEq, Eq)]
pub enum Reading {
    Found { place: u64, entry: Box<Entry> },
    Refused(Refusal),
}

impl Entry {
    pub fn is_sound(&self) -> bool {
        is_sale_number(self.till, self.sequence)
            && self.question.is_within_limits()
            && !self.question.gives_a_card_twice()
            && self.question == self.question.with_unused_slots_zero()
            && self.parts.iter().all(|&part| part <= self.largest_part())
            && self.parts[self.question.used_slots()..]
                .iter()
                .all(|&part| part == 0)
    }

    pub fn largest_part(&self) -> u64 {
        largest_part(self.question.given_cards().len())
    }

    fn parts_of(&self, railway: u64) -> impl Iterator<Item = u64> + '_ {
        self.question
            .used_legs()
            .iter()
            .zip(&self.parts)
            .filter(move |(leg, _)| leg.railway == railway)
            .map(|(_, &part)| part)
    }
}

pub fn is_sale_number(till: u64, sequence: u64) -> bool {
    (1..=LARGEST_TILL).contains(&till) && (1..=LARGEST_SEQUENCE).contains(&sequence)
}

impl Book {
    pub fn is_sound(&self) -> bool {
        self.entries.len() <= MOST_ENTRIES
            && self.entries.iter().all(Entry::is_sound)
            && self.numbers_differ()
    }

    fn numbers_differ(&self) -> bool {
        let mut seen = HashSet::new();
        self.entries
            .iter()
            .all(|entry| seen.insert((entry.till, entry.sequence)))
    }

    pub fn place_of(&self, till: u64, sequence: u64) -> Option<usize> {
        self.entries
            .iter()
            .position(|entry| (entry.till, entry.sequence) == (till, sequence))
    }

    pub fn sale(&mut self, bundle: &[u8], till: u64, sequence: u64, question: &Question) -> Sale {
        self.try_sale(bundle, till, sequence, question)
            .unwrap_or_else(Sale::Refused)
    }

    fn try_sale(
        &mut self,
        bundle: &[u8],
        till: u64,
        sequence: u64,
        question: &Question,
    ) -> Result<Sale, Refusal> {
        self.check_sound()?;
        check_sale_number(till, sequence)?;
        if let Some(place) = self.place_of(till, sequence) {
            return self.answer_repeat(place, question);
        }
        if self.entries.len() == MOST_ENTRIES {
            return Err(Refusal::of_call(24));
        }
        let parts = priced_parts(bundle, question)?;
        self.entries.push(Entry {
            till,
            sequence,
            question: question.with_unused_slots_zero(),
            parts,
            cancelled: false,
        });
        Ok(Sale::Booked { parts })
    }

    fn answer_repeat(&self, place: usize, question: &Question) -> Result<Sale, Refusal> {
        let entry = &self.entries[place];
        if !entry.question.is_same_as(question) {
            return Err(Refusal::at(23, place));
        }
        Ok(Sale::AlreadyBooked {
            parts: entry.parts,
            cancelled: entry.cancelled,
        })
    }

    pub fn cancel(&mut self, till: u64, sequence: u64) -> Cancel {
        self.try_cancel(till, sequence)
            .unwrap_or_else(Cancel::Refused)
    }

    fn try_cancel(&mut self, till: u64, sequence: u64) -> Result<Cancel, Refusal> {
        self.check_sound()?;
        check_sale_number(till, sequence)?;
        let place = self.place_of(till, sequence).ok_or(unknown())?;
        let entry = &mut self.entries[place];
        let parts = entry.parts;
        if entry.cancelled {
            return Ok(Cancel::AlreadyCancelled { parts });
        }
        entry.cancelled = true;
        Ok(Cancel::Cancelled { parts })
    }

    pub fn balance(&self, railway: u64) -> Sum {
        if let Err(refusal) = self.check_sound() {
            return Sum::Refused(refusal);
        }
        if !is_railway(railway) {
            return Sum::Refused(Refusal::of_call(11));
        }
        let parts = self
            .live_entries()
            .flat_map(|entry| entry.parts_of(railway));
        Sum::Amount(parts.sum())
    }

    pub fn total(&self) -> Sum {
        match self.check_sound() {
            Err(refusal) => Sum::Refused(refusal),
            Ok(()) => Sum::Amount(self.live_entries().flat_map(|entry| entry.parts).sum()),
        }
    }

    pub fn count(&self) -> Count {
        match self.check_sound() {
            Err(refusal) => Count::Refused(refusal),
            Ok(()) => Count::Entries(self.entries.len() as u64),
        }
    }

    pub fn entry(&self, place: u64) -> Reading {
        match self.check_sound() {
            Err(refusal) => Reading::Refused(refusal),
            Ok(()) => self.reading_at(place),
        }
    }

    fn reading_at(&self, place: u64) -> Reading {
        match (0..).zip(&self.entries).find(|(own, _)| *own == place) {
            Some((place, entry)) => Reading::Found {
                place,
                entry: Box::new(*entry),
            },
            None => Reading::Refused(unknown()),
        }
    }

    pub fn find(&self, till: u64, sequence: u64) -> Reading {
        self.try_find(till, sequence)
            .unwrap_or_else(Reading::Refused)
    }

    fn try_find(&self, till: u64, sequence: u64) -> Result<Reading, Refusal> {
        self.check_sound()?;
        check_sale_number(till, sequence)?;
        let place = self.place_of(till, sequence).ok_or(unknown())?;
        Ok(self.reading_at(place as u64))
    }

    fn live_entries(&self) -> impl Iterator<Item = &Entry> {
        self.entries.iter().filter(|entry| !entry.cancelled)
    }

    fn check_sound(&self) -> Result<(), Refusal> {
        if self.is_sound() {
            Ok(())
        } else {
            Err(unsound())
        }
    }
}

fn unsound() -> Refusal {
    Refusal::of_call(21)
}

fn unknown() -> Refusal {
    Refusal::of_call(25)
}

fn check_sale_number(till: u64, sequence: u64) -> Result<(), Refusal> {
    if is_sale_number(till, sequence) {
        Ok(())
    } else {
        Err(Refusal::of_call(22))
    }
}

#[cfg(test)]
mod tests {
    use super::*;
    use crate::generate::drafts::{assemble, Draft};
    use crate::layout::{co, Table};
    use crate::question::{asked, cards_of, Cards};

    fn bundle() -> Vec<u8> {
        assemble(&[
            Draft::plain(Table::Co)
                .with(co::OFFER, "00042")
                .with(co::RAILWAY, "1185")
                .with(co::DISCOUNT, "025000"),
            Draft::plain(Table::Co)
                .with(co::OFFER, "00042")
                .with(co::RAILWAY, "1181"),
        ])
    }

    fn newer_bundle() -> Vec<u8> {
        assemble(&[Draft::plain(Table::Co).with(co::OFFER, "00042")])
    }

    fn two_legs() -> Question {
        asked(3, &[], &[(1185, 1010), (1181, 500)])
    }

    const PARTS: Parts = [2274, 1500, 0, 0, 0, 0, 0, 0];

    fn refused_sale(answer: Sale) -> (u8, u64, u64) {
        match answer {
            Sale::Refused(refusal) => (refusal.number, refusal.place, refusal.detail),
            other => panic!("{other:?}"),
        }
    }

    fn refused_cancel(answer: Cancel) -> (u8, u64, u64) {
        match answer {
            Cancel::Refused(refusal) => (refusal.number, refusal.place, refusal.detail),
            other => panic!("{other:?}"),
        }
    }

    fn one_sale() -> Book {
        let mut book = Book::default();
        let answer = book.sale(&bundle(), 1, 1, &two_legs());
        assert_eq!(answer, Sale::Booked { parts: PARTS });
        book
    }

    fn full_book() -> Book {
        let mut entries = vec![one_sale().entries[0]; MOST_ENTRIES];
        for (entry, sequence) in entries.iter_mut().zip(1..) {
            entry.sequence = sequence;
        }
        Book { entries }
    }

    fn already(cancelled: bool) -> Sale {
        Sale::AlreadyBooked {
            parts: PARTS,
            cancelled,
        }
    }

    #[test]
    fn the_history_of_the_document() {
        let mut book = one_sale();
        assert_eq!(book.total(), Sum::Amount(3774));
        assert_eq!(book.balance(1185), Sum::Amount(2274));
        assert_eq!(book.balance(1181), Sum::Amount(1500));
        assert_eq!(book.sale(&bundle(), 1, 1, &two_legs()), already(false));
        assert_eq!(book.total(), Sum::Amount(3774));
        assert_eq!(book.cancel(1, 1), Cancel::Cancelled { parts: PARTS });
        assert_eq!(book.balance(1185), Sum::Amount(0));
        assert_eq!(book.balance(1181), Sum::Amount(0));
        assert_eq!(book.sale(&bundle(), 1, 1, &two_legs()), already(true));
        assert_eq!(book.total(), Sum::Amount(0));
        assert_eq!(book.cancel(1, 1), Cancel::AlreadyCancelled { parts: PARTS });
        assert_eq!(book.entries.len(), 1);
    }

    #[test]
    fn a_repeat_is_not_priced_afresh() {
        let mut book = one_sale();
        assert_eq!(
            book.sale(&newer_bundle(), 1, 1, &two_legs()),
            already(false)
        );
        assert_eq!(book.sale(b"XX", 1, 1, &two_legs()), already(false));
        let oversize = vec![0; 1_048_577];
        assert_eq!(book.sale(&oversize, 1, 1, &two_legs()), already(false));
    }

    #[test]
    fn a_repeat_that_differs_in_unused_slots_is_a_repeat() {
        let mut book = one_sale();
        let mut question = two_legs();
        question.legs[7].fare = u64::MAX;
        assert_eq!(book.sale(&bundle(), 1, 1, &question), already(false));
    }

    #[test]
    fn unused_slots_are_stored_as_zero() {
        let mut question = two_legs();
        question.legs[2].railway = 77;
        let mut book = Book::default();
        book.sale(&bundle(), 1, 1, &question);
        assert_eq!(book, one_sale());
    }

    #[test]
    fn another_question_is_23_before_11_24_and_the_verdict() {
        let mut book = full_book();
        for leg_count in [0, 1, 3, 8, 9, u64::MAX] {
            let question = Question {
                leg_count,
                ..two_legs()
            };
            assert_eq!(
                refused_sale(book.sale(b"XX", 1, 5, &question)),
                (23, 4, 0),
                "{leg_count}"
            );
        }
        let other_card = Question {
            cards: cards_of(&[5]),
            ..two_legs()
        };
        assert_eq!(
            refused_sale(book.sale(&bundle(), 1, 256, &other_card)),
            (23, 255, 0)
        );
    }

    #[test]
    fn a_full_book_is_24_before_the_verdict_and_11() {
        let mut book = full_book();
        assert!(book.is_sound());
        assert_eq!(
            refused_sale(book.sale(b"XX", 2, 1, &Question::default())),
            (24, 0, 0)
        );
        assert_eq!(
            refused_sale(book.sale(b"XX", 0, 1, &Question::default())),
            (22, 0, 0)
        );
        for sequence in 1..=256 {
            assert_eq!(book.cancel(1, sequence), Cancel::Cancelled { parts: PARTS });
        }
        assert_eq!(
            refused_sale(book.sale(&bundle(), 2, 1, &two_legs())),
            (24, 0, 0)
        );
        assert_eq!(book.sale(&bundle(), 1, 7, &two_legs()), already(true));
    }

    #[test]
    fn the_verdict_then_11_then_the_legs() {
        let mut book = one_sale();
        let before = book.clone();
        let bad = Question::default();
        assert_eq!(refused_sale(book.sale(b"XX", 1, 2, &bad)), (2, 0, 0));
        assert_eq!(refused_sale(book.sale(&bundle(), 1, 2, &bad)), (11, 0, 0));
        let mut unknown = two_legs();
        unknown.legs[1].railway = 9;
        assert_eq!(
            refused_sale(book.sale(&bundle(), 1, 2, &unknown)),
            (12, 1, 0)
        );
        assert_eq!(book, before);
    }

    #[test]
    fn limits_of_the_sale_number() {
        let mut book = one_sale();
        for (till, sequence) in [
            (0, 1),
            (1, 0),
            (65_536, 1),
            (1, 4_294_967_296),
            (u64::MAX, u64::MAX),
            ((1 << 32) + 1, 1),
        ] {
            let answer = book.sale(&bundle(), till, sequence, &two_legs());
            assert_eq!(refused_sale(answer), (22, 0, 0));
            assert_eq!(refused_cancel(book.cancel(till, sequence)), (22, 0, 0));
        }
        let answer = book.sale(&bundle(), 65_535, 4_294_967_295, &two_legs());
        assert_eq!(answer, Sale::Booked { parts: PARTS });
    }

    #[test]
    fn the_same_sequence_at_two_tills() {
        let mut book = one_sale();
        let answer = book.sale(&bundle(), 2, 1, &two_legs());
        assert_eq!(answer, Sale::Booked { parts: PARTS });
        assert_eq!(book.total(), Sum::Amount(2 * 3774));
        assert_eq!(book.cancel(2, 1), Cancel::Cancelled { parts: PARTS });
        assert_eq!(book.total(), Sum::Amount(3774));
    }

    #[test]
    fn cancel_of_an_unknown_number_is_25() {
        assert_eq!(refused_cancel(one_sale().cancel(1, 2)), (25, 0, 0));
        assert_eq!(refused_cancel(Book::default().cancel(1, 1)), (25, 0, 0));
    }

    #[test]
    fn balances() {
        let book = one_sale();
        assert_eq!(book.balance(0), Sum::Refused(Refusal::of_call(11)));
        assert_eq!(book.balance(10_000), Sum::Refused(Refusal::of_call(11)));
        assert_eq!(book.balance(9_999), Sum::Amount(0));
        let mut twice = book;
        twice.entries[0].question.legs[1].railway = 1185;
        assert_eq!(twice.balance(1185), Sum::Amount(3774));
    }

    #[test]
    fn totals_may_exceed_32_bits() {
        let mut book = full_book();
        for entry in &mut book.entries {
            entry.question.leg_count = 8;
            entry.question.legs = [entry.question.legs[0]; 8];
            entry.question.cards = [1, 2, 3, 4];
            entry.parts = [largest_part(4); 8];
        }
        assert_eq!(book.total(), Sum::Amount(203_763_529_728));
        assert_eq!(book.balance(1185), Sum::Amount(203_763_529_728));
    }

    fn found(place: u64, entry: Entry) -> Reading {
        let entry = Box::new(entry);
        Reading::Found { place, entry }
    }

    fn refused_reading(number: u8) -> Reading {
        Reading::Refused(Refusal::new(number, 0, 0))
    }

    #[test]
    fn a_book_counts_its_entries_cancelled_ones_too() {
        assert_eq!(Book::default().count(), Count::Entries(0));
        let mut book = full_book();
        assert_eq!(book.count(), Count::Entries(256));
        book.cancel(1, 7);
        assert_eq!(book.count(), Count::Entries(256));
    }

    #[test]
    fn entries_are_read_in_the_order_of_booking() {
        let mut book = one_sale();
        book.sale(&newer_bundle(), 9, 4, &asked(1, &[], &[(1, 20)]));
        for (place, entry) in (0..).zip(book.entries.clone()) {
            assert_eq!(book.entry(place), found(place, entry));
            assert_eq!(book.find(entry.till, entry.sequence), found(place, entry));
        }
        for behind in [2, 3, 255, 256, 1 << 32, (1 << 32) + 1, u64::MAX] {
            assert_eq!(book.entry(behind), refused_reading(25), "{behind}");
        }
        assert_eq!(Book::default().entry(0), refused_reading(25));
        assert_eq!(full_book().entry(256), refused_reading(25));
    }

    #[test]
    fn a_sale_is_read_as_it_was_first_booked() {
        let mut book = Book::default();
        let mut question = two_legs();
        question.legs[2].fare = 77;
        book.sale(&bundle(), 1, 1, &question);
        let mut entry = Entry {
            till: 1,
            sequence: 1,
            question: two_legs(),
            parts: PARTS,
            cancelled: false,
        };
        book.sale(&newer_bundle(), 1, 1, &two_legs());
        assert_eq!(book.find(1, 1), found(0, entry));
        book.cancel(1, 1);
        book.sale(&newer_bundle(), 1, 1, &two_legs());
        entry.cancelled = true;
        assert_eq!(book.find(1, 1), found(0, entry));
        assert_eq!(book.entry(0), found(0, entry));
    }

    #[test]
    fn a_number_out_of_limits_is_22_and_an_unknown_one_25() {
        let book = full_book();
        for (till, sequence) in [(0, 1), (1, 0), (65_536, 1), (1, (1 << 32) + 1)] {
            assert_eq!(book.find(till, sequence), refused_reading(22));
        }
        for (till, sequence) in [(1, 257), (2, 1), (65_535, LARGEST_SEQUENCE)] {
            assert_eq!(book.find(till, sequence), refused_reading(25));
        }
    }

    fn is_unsound(change: impl Fn(&mut Book)) -> bool {
        let mut book = full_book();
        book.entries.truncate(3);
        assert!(book.is_sound());
        change(&mut book);
        let answers_21 = refused_sale(book.sale(b"XX", 0, 0, &two_legs())) == (21, 0, 0)
            && refused_cancel(book.cancel(0, 0)) == (21, 0, 0)
            && book.balance(0) == Sum::Refused(unsound())
            && book.total() == Sum::Refused(unsound())
            && book.count() == Count::Refused(unsound())
            && book.entry(u64::MAX) == Reading::Refused(unsound())
            && book.find(0, 0) == Reading::Refused(unsound());
        assert_eq!(answers_21, !book.is_sound());
        answers_21
    }

    #[test]
    fn the_cards_of_an_entry_are_within_limits_and_differ() {
        let with = |cards: Cards| is_unsound(|book| book.entries[1].question.cards = cards);
        for cards in [[0, 0, 0, 0], [7, 0, 0, 0], [7, 5, 0, 0], [999, 1, 2, 3]] {
            assert!(!with(cards), "{cards:?}");
        }
        for cards in [[1000, 0, 0, 0], [7, 1000, 0, 0], [1, 2, 3, 1000]] {
            assert!(with(cards), "{cards:?}");
        }
        for cards in [[0, 7, 0, 0], [7, 0, 5, 0], [7, 5, 0, 3], [0, 0, 0, 1]] {
            assert!(with(cards), "{cards:?}");
        }
        for cards in [[7, 7, 0, 0], [7, 5, 7, 0], [1, 2, 3, 2], [0, 7, 7, 0]] {
            assert!(with(cards), "{cards:?}");
        }
    }

    #[test]
    fn the_bound_on_a_part_goes_by_the_entrys_own_cards() {
        let bounds = [99_197_505, 99_197_505, 99_296_307, 99_395_109, 99_493_911];
        for (cards, bound) in bounds.into_iter().enumerate() {
            let with = |part| {
                is_unsound(|book| {
                    book.entries[1].question.cards = cards_of(&[4, 3, 2, 1][..cards]);
                    book.entries[1].parts[1] = part;
                })
            };
            assert!(!with(bound), "{cards}");
            assert!(with(bound + 1), "{cards}");
        }
    }

    #[test]
    fn a_repeat_gives_the_same_cards_in_the_same_order() {
        let with = |cards: &[u64]| Question {
            cards: cards_of(cards),
            ..two_legs()
        };
        let mut book = Book::default();
        book.sale(&bundle(), 1, 1, &with(&[5, 7]));
        for turn in 0..2 {
            for other in [
                &[7, 5][..],
                &[5],
                &[7],
                &[],
                &[5, 7, 9],
                &[5, 8],
                &[5, 7, 7],
                &[1000],
            ] {
                let answer = book.sale(&bundle(), 1, 1, &with(other));
                assert_eq!(refused_sale(answer), (23, 0, 0), "{other:?}");
            }
            assert_eq!(book.sale(b"XX", 1, 1, &with(&[5, 7])), already(turn == 1));
            book.cancel(1, 1);
        }
        assert_eq!(book.entries.len(), 1);
    }

    #[test]
    fn a_card_twice_is_17_after_24_the_verdict_and_11() {
        let mut twice = two_legs();
        twice.cards = [7, 5, 7, 0];
        let mut full = full_book();
        assert_eq!(refused_sale(full.sale(b"XX", 2, 1, &twice)), (24, 0, 0));
        let mut book = one_sale();
        assert_eq!(refused_sale(book.sale(b"XX", 2, 1, &twice)), (2, 0, 0));
        assert_eq!(refused_sale(book.sale(&bundle(), 2, 1, &twice)), (17, 0, 0));
        twice.legs[0].railway = 9;
        assert_eq!(refused_sale(book.sale(&bundle(), 2, 1, &twice)), (17, 0, 0));
        twice.persons = 0;
        assert_eq!(refused_sale(book.sale(&bundle(), 2, 1, &twice)), (11, 0, 0));
        assert_eq!(book, one_sale());
    }

    #[test]
    fn each_way_to_be_unsound() {
        assert!(is_unsound(|book| book.entries[2].sequence = 1));
        assert!(is_unsound(|book| book.entries[1].till = 0));
        assert!(is_unsound(|book| book.entries[1].till = 65_536));
        assert!(is_unsound(|book| book.entries[1].sequence = 0));
        assert!(is_unsound(|book| book.entries[1].sequence = 1 << 32));
        assert!(is_unsound(|book| book.entries[0].question.day = 20230229));
        assert!(is_unsound(|book| book.entries[0].question.leg_count = 0));
        assert!(is_unsound(|book| book.entries[0].question.leg_count = 9));
        assert!(is_unsound(|book| book.entries[0].question.leg_count = 1));
        assert!(is_unsound(|book| book.entries[0].question.legs[3].fare = 1));
        assert!(is_unsound(|book| book.entries[0].parts[2] = 1));
        assert!(is_unsound(
            |book| book.entries[0].parts[1] = largest_part(0) + 1
        ));
        assert!(is_unsound(|book| *book = Book {
            entries: [full_book().entries, vec![one_sale().entries[0]]].concat()
        }));
    }
}
