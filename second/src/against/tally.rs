//! Renders demand 3: what a history of sales and cancels comes to, kept from its calls alone.

use std::collections::{BTreeMap, BTreeSet};

use super::wire::{Answer, Call, Name};
use crate::book::{is_sale_number, Book, Entry, MOST_ENTRIES};
use crate::fare::{fare, Fare, Parts};
use crate::question::{is_railway, Question};
use crate::refusal::Refusal;

pub type Number = (u64, u64);

#[derive(Default)]
pub struct Tally {
    /// By their first bookings, and in their order.
    sales: Vec<Entry>,
    places: BTreeMap<Number, usize>,
    owed: BTreeMap<u64, u64>,
}

impl Tally {
    pub fn of(book: &Book) -> Tally {
        let mut tally = Tally::default();
        for entry in &book.entries {
            let number = (entry.till, entry.sequence);
            tally.book(number, &entry.question, &entry.parts);
            if entry.cancelled {
                tally.cancel(number);
            }
        }
        tally
    }

    pub fn note(&mut self, call: &Call, bundle: &[u8]) {
        match call.name {
            Name::Sale => self.sell(call.sale_number(), &call.question, bundle),
            Name::Cancel => self.cancel(call.sale_number()),
            _ => (),
        }
    }

    fn sell(&mut self, number: Number, question: &Question, bundle: &[u8]) {
        let is_new = is_sale_number(number.0, number.1) && !self.places.contains_key(&number);
        if !is_new || self.sales.len() == MOST_ENTRIES {
            return;
        }
        if let Fare::Priced { parts, .. } = fare(bundle, question) {
            self.book(number, question, &parts);
        }
    }

    fn book(&mut self, number: Number, question: &Question, parts: &Parts) {
        for (railway, part) in shares(question, parts) {
            *self.owed.entry(railway).or_default() += part;
        }
        self.places.insert(number, self.sales.len());
        self.sales.push(Entry {
            till: number.0,
            sequence: number.1,
            question: question.with_unused_slots_zero(),
            parts: *parts,
            cancelled: false,
        });
    }

    fn cancel(&mut self, number: Number) {
        let Some(&place) = self.places.get(&number) else {
            return;
        };
        let sale = &mut self.sales[place];
        if sale.cancelled {
            return;
        }
        sale.cancelled = true;
        for (railway, part) in shares(&sale.question, &sale.parts) {
            *self.owed.entry(railway).or_default() -= part;
        }
    }

    pub fn is_cancelled(&self, number: Number) -> bool {
        let place = self.places.get(&number);
        place.is_some_and(|&place| self.sales[place].cancelled)
    }

    /// In the order of their bookings.
    pub fn cancelled(&self) -> Vec<Number> {
        let cancelled = self.sales.iter().filter(|sale| sale.cancelled);
        cancelled.map(|sale| (sale.till, sale.sequence)).collect()
    }

    /// What the history says to a call that only reads, and asks within the limits.
    pub fn answer(&self, call: &Call) -> Option<Answer> {
        let number = call.sale_number();
        let railway = u64::from(call.railway);
        match call.name {
            Name::Total => Some(Answer::of_value(self.total())),
            Name::Balance if is_railway(railway) => Some(Answer::of_value(self.balance(railway))),
            Name::Count => Some(Answer::of_value(self.count())),
            Name::Entry => Some(self.reading(usize::try_from(call.entry).ok())),
            Name::Find if is_sale_number(number.0, number.1) => {
                Some(self.reading(self.places.get(&number).copied()))
            }
            _ => None,
        }
    }

    fn reading(&self, place: Option<usize>) -> Answer {
        let sale = place.and_then(|place| Some((place, self.sales.get(place)?)));
        match sale {
            Some((place, sale)) => Answer::of_entry(place as u64, sale),
            None => Answer::of_refusal(&Refusal::of_call(25)),
        }
    }

    pub fn count(&self) -> u64 {
        self.sales.len() as u64
    }

    /// Those ever booked, and those asked for.
    pub fn railways(&self, asked: &Question) -> BTreeSet<u64> {
        let asked = asked.used_legs().iter().map(|leg| leg.railway);
        let booked = self.owed.keys().copied();
        booked
            .chain(asked.filter(|&number| is_railway(number)))
            .collect()
    }

    fn balance(&self, railway: u64) -> u64 {
        self.owed.get(&railway).copied().unwrap_or(0)
    }

    fn total(&self) -> u64 {
        self.owed.values().sum()
    }
}

fn shares(question: &Question, parts: &Parts) -> Vec<(u64, u64)> {
    let railways = question.used_legs().iter().map(|leg| leg.railway);
    railways.zip(*parts).collect()
}

#[cfg(test)]
mod tests {
    use super::*;
    use crate::generate::books::sound_book_of;
    use crate::generate::drafts::{assemble, Draft};
    use crate::generate::random::Random;
    use crate::layout::{co, Table};
    use crate::question::asked;

    fn bundle() -> Vec<u8> {
        let reduced = Draft::plain(Table::Co).with(co::RAILWAY, "1185");
        assemble(&[
            reduced.with(co::DISCOUNT, "025000"),
            Draft::plain(Table::Co).with(co::RAILWAY, "1181"),
        ])
    }

    fn newer_bundle() -> Vec<u8> {
        assemble(&[Draft::plain(Table::Co)])
    }

    fn two_legs() -> Question {
        asked(3, &[], &[(1185, 1010), (1181, 500)])
    }

    fn sale(sequence: u64) -> Call {
        Call::sale(1, sequence, &two_legs())
    }

    fn one_sale() -> Tally {
        let mut tally = Tally::default();
        tally.note(&sale(1), &bundle());
        tally
    }

    fn told(tally: &Tally) -> [u64; 3] {
        [tally.balance(1185), tally.balance(1181), tally.total()]
    }

    #[test]
    fn the_history_of_the_document() {
        let mut tally = one_sale();
        assert_eq!(told(&tally), [2274, 1500, 3774]);
        tally.note(&sale(1), &bundle());
        assert_eq!(told(&tally), [2274, 1500, 3774]);
        assert!(!tally.is_cancelled((1, 1)));
        for call in [Call::cancel(1, 1), sale(1), Call::cancel(1, 1)] {
            tally.note(&call, &bundle());
            assert_eq!(told(&tally), [0, 0, 0]);
            assert!(tally.is_cancelled((1, 1)));
        }
        assert_eq!(tally.railways(&Question::default()).len(), 2);
    }

    #[test]
    fn only_the_first_booking_of_a_number_counts() {
        let mut tally = one_sale();
        let other = asked(3, &[], &[(1181, 500), (1185, 1010)]);
        tally.note(&sale(1), &newer_bundle());
        tally.note(&Call::sale(1, 1, &other), &newer_bundle());
        assert_eq!(told(&tally), [2274, 1500, 3774]);
        tally.note(&sale(2), &newer_bundle());
        assert_eq!(told(&tally), [2274 + 3030, 3000, 3774 + 4530]);
        tally.note(&Call::cancel(1, 1), &[]);
        assert_eq!(told(&tally), [3030, 1500, 4530]);
    }

    #[test]
    fn what_is_refused_counts_for_nothing() {
        let mut tally = one_sale();
        let unserved = asked(3, &[], &[(1185, 1010), (1182, 500), (0, 0)]);
        tally.note(&Call::sale(1, 2, &unserved), &bundle());
        tally.note(&sale(2), b"XX");
        tally.note(&sale(0), &bundle());
        tally.note(&Call::sale(65_536, 1, &two_legs()), &bundle());
        tally.note(&Call::cancel(1, 2), &[]);
        assert_eq!(told(&tally), [2274, 1500, 3774]);
        let railways: Vec<u64> = tally.railways(&unserved).into_iter().collect();
        assert_eq!(railways, [1181, 1182, 1185]);
    }

    fn read(tally: &Tally, call: &Call) -> Answer {
        tally.answer(call).unwrap()
    }

    #[test]
    fn a_sale_is_told_as_first_booked_and_whether_it_was_cancelled_since() {
        let mut tally = one_sale();
        let mut filled = two_legs();
        filled.legs[5].fare = 9;
        tally.note(&Call::sale(7, 2, &filled), &newer_bundle());
        let mut due = Entry {
            till: 7,
            sequence: 2,
            question: two_legs(),
            parts: [3030, 1500, 0, 0, 0, 0, 0, 0],
            cancelled: false,
        };
        for call in [Call::entry(1), Call::find(7, 2)] {
            assert_eq!(read(&tally, &call), Answer::of_entry(1, &due));
        }
        tally.note(&Call::sale(7, 2, &two_legs()), &bundle());
        tally.note(&Call::cancel(7, 2), &[]);
        tally.note(&Call::sale(7, 2, &two_legs()), &bundle());
        due.cancelled = true;
        assert_eq!(read(&tally, &Call::find(7, 2)), Answer::of_entry(1, &due));
        assert_eq!(tally.cancelled(), [(7, 2)]);
        assert_eq!(read(&tally, &Call::of(Name::Count)), Answer::of_value(2));
    }

    #[test]
    fn what_was_never_booked_is_25_and_limits_are_not_the_historys() {
        let tally = one_sale();
        let unknown = Answer::of_refusal(&Refusal::of_call(25));
        for call in [Call::entry(1), Call::entry(u64::MAX), Call::find(1, 2)] {
            assert_eq!(read(&tally, &call), unknown);
        }
        for call in [Call::find(0, 1), Call::balance(0), Call::cancel(1, 1)] {
            assert_eq!(tally.answer(&call), None);
        }
    }

    #[test]
    fn a_full_history_books_no_more() {
        let mut tally = Tally::default();
        for sequence in 1..=257 {
            tally.note(&sale(sequence), &bundle());
        }
        assert_eq!(tally.total(), 256 * 3774);
        tally.note(&Call::cancel(1, 256), &[]);
        tally.note(&sale(258), &bundle());
        assert_eq!(tally.total(), 255 * 3774);
        assert_eq!(tally.count(), 256);
    }

    #[test]
    fn a_history_may_start_from_a_book() {
        let book = sound_book_of(&mut Random::from_seed(91), 20);
        let live = book.entries.iter().filter(|entry| !entry.cancelled);
        let total: u64 = live.flat_map(|entry| entry.parts).sum();
        let tally = Tally::of(&book);
        assert_eq!(tally.total(), total);
        for entry in &book.entries {
            let number = (entry.till, entry.sequence);
            assert_eq!(tally.is_cancelled(number), entry.cancelled);
        }
    }
}
