//! Renders the rules of the house for reading a book as a table of what has been read.

use super::{group, outcome_of, Coverage, Group};
use super::{EDGES_OF_SEQUENCE, EDGES_OF_TILL, OUTCOMES, REFUSED};
use crate::against::wire::{outcome, status, Answer, Call, Lent, Name};
use crate::generate::books::POWERS_BEHIND;
use crate::question::{CARD_SLOTS, LEG_SLOTS};

const COUNT_TOLD: &str = "count told";
const ENTRY_ASKED: &str = "entry asked";
const FIRST: &str = "first";
const INSIDE: &str = "inside";
const LAST: &str = "last";
const JUST_BEHIND: &str = "just behind";
const GREATEST: &str = "greatest";
const FIND_TILL: &str = "find, till";
const FIND_SEQUENCE: &str = "find, sequence";
const FOUND_MIDWAY: &str = "found midway";
const LIVE: &str = "live";
const CANCELLED: &str = "cancelled";
const UNKNOWN: &str = "unknown";
const UNUSED_READ: &str = "unused legs read";
const SENT_AS_ZEROS: &str = "sent as zeros";
const SENT_FILLED: &str = "sent filled";
const LAST_OF_A_FULL_BOOK: u64 = 255;

impl Coverage {
    pub(super) fn note_reading(&mut self, call: &Call, lent: &Lent, answer: &Answer) {
        match call.name {
            Name::Find => {
                self.meet(FIND_TILL, call.till);
                self.meet(FIND_SEQUENCE, call.sequence);
            }
            Name::Entry if answer.number != 21 => {
                self.note_entry_asked(call.entry, u64::from(lent.book[0]));
            }
            Name::Count if answer.number == 0 => self.meet(COUNT_TOLD, answer.value),
            _ => (),
        }
        if Name::READING_A_SALE.contains(&call.name) && answer.number == 0 {
            self.note_sale_read(call.name, answer);
        }
    }

    fn note_entry_asked(&mut self, entry: u64, count: u64) {
        let is_there = entry < count;
        for (is_met, item) in [
            (is_there && entry == 0, FIRST),
            (is_there && entry > 0 && entry + 1 < count, INSIDE),
            (is_there && entry > 0 && entry + 1 == count, LAST),
            (entry == count, JUST_BEHIND),
            (entry == u64::MAX, GREATEST),
        ] {
            if is_met {
                self.meet(ENTRY_ASKED, item);
            }
        }
        if entry == LAST_OF_A_FULL_BOOK {
            self.meet(ENTRY_ASKED, last_of_a_full_book(is_there));
        }
        for power in POWERS_BEHIND {
            let looks_there = |behind: u64| behind < count;
            if entry.checked_sub(1 << power).is_some_and(looks_there) {
                self.meet(ENTRY_ASKED, looks_there_after(power));
            }
        }
    }

    fn note_sale_read(&mut self, name: Name, answer: &Answer) {
        self.meet(&read_by(name, "status"), status_of(answer));
        let cards = answer.question.given_cards().len();
        self.meet(&read_by(name, "cards"), cards);
        self.meet(&read_by(name, "legs"), answer.question.leg_count);
    }

    /// The book was read after a step of a history.
    pub fn note_read_after(&mut self, step: &Call, done: &Answer, call: &Call, read: &Answer) {
        let after = outcome_of(done).unwrap_or(REFUSED);
        self.meet(&read_after(call.name), after);
        if call.name == Name::Find {
            self.meet(FOUND_MIDWAY, status_of(read));
        }
        let is_of_the_step = (u64::from(read.till), read.sequence) == step.sale_number();
        if !is_of_the_step || done.outcome != outcome::BOOKED {
            return;
        }
        if step.question != step.question.with_unused_slots_zero() {
            self.meet(UNUSED_READ, SENT_FILLED);
        } else if step.question.used_slots() < LEG_SLOTS {
            self.meet(UNUSED_READ, SENT_AS_ZEROS);
        }
    }
}

fn status_of(answer: &Answer) -> &'static str {
    match (answer.number, answer.status) {
        (0, status::LIVE) => LIVE,
        (0, _) => CANCELLED,
        (25, _) => UNKNOWN,
        _ => REFUSED,
    }
}

fn read_by(name: Name, what: &str) -> String {
    format!("{}, {what}", name.word())
}

fn read_after(name: Name) -> String {
    format!("{} after", name.word())
}

fn last_of_a_full_book(is_there: bool) -> String {
    let there = if is_there { "there" } else { "behind" };
    format!("{LAST_OF_A_FULL_BOOK}, {there}")
}

fn looks_there_after(power: u32) -> String {
    format!("2^{power} behind one")
}

pub fn groups() -> Vec<Group> {
    let mut groups = vec![group(COUNT_TOLD, &[0, 1, 255, 256])];
    groups.extend(groups_of_entries_asked());
    groups.push(group(FIND_TILL, &EDGES_OF_TILL));
    groups.push(group(FIND_SEQUENCE, &EDGES_OF_SEQUENCE));
    for name in Name::READING_A_SALE {
        let cards: Vec<usize> = (0..=CARD_SLOTS).collect();
        let legs: Vec<usize> = (1..=LEG_SLOTS).collect();
        groups.push(group(&read_by(name, "status"), &[LIVE, CANCELLED]));
        groups.push(group(&read_by(name, "cards"), &cards));
        groups.push(group(&read_by(name, "legs"), &legs));
    }
    for name in [Name::Count, Name::Entry, Name::Find] {
        groups.push(group(&read_after(name), &OUTCOMES));
        groups.push(group(&read_after(name), &[REFUSED]));
    }
    groups.push(group(FOUND_MIDWAY, &[LIVE, CANCELLED, UNKNOWN]));
    groups.push(group(UNUSED_READ, &[SENT_AS_ZEROS, SENT_FILLED]));
    groups
}

fn groups_of_entries_asked() -> [Group; 3] {
    let last = [true, false].map(last_of_a_full_book);
    let places = [FIRST, INSIDE, LAST, JUST_BEHIND, GREATEST];
    [
        group(ENTRY_ASKED, &places),
        group(ENTRY_ASKED, &last),
        group(ENTRY_ASKED, &POWERS_BEHIND.map(looks_there_after)),
    ]
}

#[cfg(test)]
mod tests {
    use super::*;
    use crate::book::words::empty_book;
    use crate::book::Entry;
    use crate::question::asked;
    use crate::refusal::Refusal;

    fn gaps_after(notes: impl Fn(&mut Coverage)) -> impl Fn(&str) -> bool {
        let mut coverage = Coverage::default();
        notes(&mut coverage);
        let gaps = coverage.gaps();
        move |words| gaps.contains(&words.to_string())
    }

    fn read() -> Answer {
        let entry = Entry {
            till: 1,
            sequence: 2,
            question: asked(1, &[7, 5], &[(1, 20); 3]),
            cancelled: true,
            ..Entry::default()
        };
        Answer::of_entry(0, &entry)
    }

    #[test]
    fn a_sale_read_is_met_by_the_call_its_status_its_cards_and_its_legs() {
        let lent = Lent::of(&[], &[]);
        let is_gap = gaps_after(|coverage| coverage.note(&Call::find(1, 2), &lent, &read()));
        assert!(!is_gap("find: answered") && is_gap("entry: answered"));
        assert!(!is_gap("find, status: cancelled") && is_gap("find, status: live"));
        assert!(!is_gap("find, cards: 2") && is_gap("find, cards: 0"));
        assert!(!is_gap("find, legs: 3") && is_gap("entry, legs: 3"));
    }

    #[test]
    fn an_entry_is_met_by_its_place_in_the_book() {
        let mut book = empty_book();
        book[0] = 3;
        let unknown = Answer::of_refusal(&Refusal::of_call(25));
        let is_gap = gaps_after(|coverage| {
            for place in [2, 3, 255, (1 << 32) + 2, (1 << 16) + 3] {
                coverage.note(&Call::entry(place), &Lent::of(&[], &book), &unknown);
            }
        });
        assert!(!is_gap("entry asked: last") && is_gap("entry asked: first"));
        assert!(!is_gap("entry asked: just behind") && is_gap("entry asked: inside"));
        assert!(!is_gap("entry asked: 255, behind") && is_gap("entry asked: 255, there"));
        assert!(!is_gap("entry asked: 2^32 behind one"));
        assert!(is_gap("entry asked: 2^16 behind one") && is_gap("entry asked: greatest"));
    }

    #[test]
    fn a_reading_in_a_history_is_met_by_the_step_before_it_and_by_what_was_sent() {
        let booked = Answer {
            outcome: outcome::BOOKED,
            ..Answer::default()
        };
        let mut question = read().question;
        question.legs[6].fare = 4;
        let sale = Call::sale(1, 2, &question);
        let other = Call::sale(1, 3, &read().question);
        let is_gap = gaps_after(|coverage| {
            coverage.note_read_after(&sale, &booked, &Call::entry(0), &read());
            coverage.note_read_after(&other, &Answer::default(), &Call::find(1, 2), &read());
        });
        assert!(!is_gap("entry after: booked") && is_gap("find after: booked"));
        assert!(!is_gap("found midway: cancelled") && is_gap("found midway: live"));
        assert!(!is_gap("unused legs read: sent filled"));
        assert!(is_gap("unused legs read: sent as zeros"));
    }
}
