//! Renders "The sales book" as histories of calls, with repeats, cancels and full books.

use super::books::{entry_places, malformed_book, sale_number, sound_book_of};
use super::corpus::Corpus;
use super::damage::{with_relation_fault, RelationFault};
use super::questions::question;
use super::random::Random;
use super::resent::{changed, Sent};
use super::valid::{valid_bundle, valid_bundle_with_cards};
use crate::book::words::{
    balance, book_of_words, cancel, count, empty_book, entry, find, sale, total, words_of_book,
};
use crate::book::{Book, Cancel, Count, Reading, Sale, Sum};
use crate::bundle::LONGEST_BUNDLE;
use crate::question::LEG_SLOTS;

#[derive(Clone, Copy, Debug, PartialEq, Eq)]
pub enum Step {
    Sale { bundle: usize, sent: Sent },
    Cancel { till: u64, sequence: u64 },
    Balance { railway: u64 },
    Total,
    Count,
    Entry { place: u64 },
    Find { till: u64, sequence: u64 },
}

#[derive(Clone, Debug, PartialEq, Eq)]
pub enum Answer {
    Sale(Sale),
    Cancel(Cancel),
    Sum(Sum),
    Count(Count),
    Reading(Reading),
}

#[derive(Clone, Debug)]
pub struct History {
    pub book: Vec<u32>,
    pub bundles: Vec<Vec<u8>>,
    pub steps: Vec<Step>,
}

pub fn perform(step: &Step, words: &mut [u32], bundles: &[Vec<u8>]) -> Answer {
    match *step {
        Step::Sale { bundle, ref sent } => Answer::Sale(sale(
            words,
            &bundles[bundle],
            sent.till,
            sent.sequence,
            &sent.question,
        )),
        Step::Cancel { till, sequence } => Answer::Cancel(cancel(words, till, sequence)),
        Step::Balance { railway } => Answer::Sum(balance(words, railway)),
        Step::Total => Answer::Sum(total(words)),
        Step::Count => Answer::Count(count(words)),
        Step::Entry { place } => Answer::Reading(entry(words, place)),
        Step::Find { till, sequence } => Answer::Reading(find(words, till, sequence)),
    }
}

pub fn history(random: &mut Random, length: usize) -> History {
    let bundles = drawn_bundles(random);
    let book = starting_book(random);
    let mut words = book.clone();
    let mut steps = Vec::new();
    for _ in 0..length {
        let known = book_of_words(&words).unwrap_or_default();
        let step = drawn_step(random, &known, &bundles);
        perform(&step, &mut words, &bundles);
        steps.push(step);
    }
    History {
        book,
        bundles,
        steps,
    }
}

/// Two good bundles, perhaps empty ones, and one of any kind.
pub fn drawn_bundles(random: &mut Random) -> Vec<Vec<u8>> {
    let first = match random.below(2) {
        0 => valid_bundle(random),
        _ => valid_bundle_with_cards(random),
    };
    vec![first, valid_bundle(random), any_bundle(random)]
}

pub fn any_bundle(random: &mut Random) -> Vec<u8> {
    if random.one_in(30) {
        return vec![b'X'; LONGEST_BUNDLE + 1];
    }
    if random.one_in(4) {
        let fault = random.pick(&RelationFault::ALL);
        return with_relation_fault(random, fault);
    }
    let seed = random.draw();
    Corpus::of_seed(seed).bundle(random.below(499))
}

pub fn starting_book(random: &mut Random) -> Vec<u32> {
    let count = match random.below(12) {
        0 => return malformed_book(random),
        1 => random.between(1, 12),
        2 => 256,
        3 | 4 => random.between(250, 255),
        _ => return empty_book(),
    };
    let book = book_of_few_railways(random, count as usize);
    words_of_book(&book).expect("a sound book fits its words")
}

/// Few, so that every balance can be asked after each step.
fn book_of_few_railways(random: &mut Random, count: usize) -> Book {
    let railways = [1, 9999, random.between(1, 9999), random.between(1, 9999)];
    let mut book = sound_book_of(random, count);
    for entry in &mut book.entries {
        let used = entry.question.used_slots();
        for leg in &mut entry.question.legs[..used] {
            leg.railway = random.pick(&railways);
        }
    }
    book
}

pub fn drawn_step(random: &mut Random, known: &Book, bundles: &[Vec<u8>]) -> Step {
    match random.below(22) {
        0..=6 => new_sale(random, bundles),
        7..=9 => repeated_sale(random, known, bundles),
        10 | 11 => changed_repeat(random, known, bundles),
        12 => sale_out_of_limits(random, bundles),
        13 | 14 => cancel_of_known(random, known),
        15 => drawn_cancel(random),
        16 | 17 => Step::Balance {
            railway: drawn_railway(random, known),
        },
        18 | 19 => Step::Total,
        _ => reading_step(random, known),
    }
}

fn reading_step(random: &mut Random, known: &Book) -> Step {
    match random.below(5) {
        0 => Step::Count,
        1 | 2 => {
            let places = entry_places(random, known.entries.len() as u64);
            let place = random.pick(&places);
            Step::Entry { place }
        }
        _ => {
            let (till, sequence) = number_to_find(random, known);
            Step::Find { till, sequence }
        }
    }
}

fn number_to_find(random: &mut Random, known: &Book) -> (u64, u64) {
    match random.below(5) {
        0 => number_out_of_limits(random),
        1 => sale_number(random),
        _ if known.entries.is_empty() => sale_number(random),
        _ => {
            let entry = random.pick(&known.entries);
            (entry.till, entry.sequence)
        }
    }
}

fn new_sale(random: &mut Random, bundles: &[Vec<u8>]) -> Step {
    let (till, sequence) = sale_number(random);
    let bundle = drawn_bundle(random, bundles);
    let sent = Sent {
        till,
        sequence,
        question: question(random, &bundles[bundle]),
    };
    Step::Sale { bundle, sent }
}

fn drawn_bundle(random: &mut Random, bundles: &[Vec<u8>]) -> usize {
    if random.one_in(8) {
        bundles.len() - 1
    } else {
        random.place_in(bundles.len() - 1)
    }
}

fn repeated_sale(random: &mut Random, known: &Book, bundles: &[Vec<u8>]) -> Step {
    if known.entries.is_empty() {
        return new_sale(random, bundles);
    }
    let entry = random.pick(&known.entries);
    let mut sent = Sent {
        till: entry.till,
        sequence: entry.sequence,
        question: entry.question,
    };
    for slot in sent.question.used_slots()..LEG_SLOTS {
        sent.question.legs[slot].fare = random.pick(&[0, 0, 7, u64::MAX]);
    }
    let bundle = random.place_in(bundles.len());
    Step::Sale { bundle, sent }
}

fn changed_repeat(random: &mut Random, known: &Book, bundles: &[Vec<u8>]) -> Step {
    let mut step = repeated_sale(random, known, bundles);
    if let Step::Sale { sent, .. } = &mut step {
        *sent = changed(random, sent);
    }
    step
}

fn sale_out_of_limits(random: &mut Random, bundles: &[Vec<u8>]) -> Step {
    let mut step = new_sale(random, bundles);
    if let Step::Sale { sent, .. } = &mut step {
        (sent.till, sent.sequence) = number_out_of_limits(random);
    }
    step
}

fn number_out_of_limits(random: &mut Random) -> (u64, u64) {
    let (till, sequence) = sale_number(random);
    match random.below(4) {
        0 => (0, sequence),
        1 => (till, 0),
        2 => (
            random.pick(&[65_536, till | (1 << 16), till | (1 << 32), u64::MAX]),
            sequence,
        ),
        _ => (
            till,
            random.pick(&[1 << 32, sequence | (1 << 32), u64::MAX]),
        ),
    }
}

fn cancel_of_known(random: &mut Random, known: &Book) -> Step {
    if known.entries.is_empty() {
        return drawn_cancel(random);
    }
    let entry = random.pick(&known.entries);
    Step::Cancel {
        till: entry.till,
        sequence: entry.sequence,
    }
}

fn drawn_cancel(random: &mut Random) -> Step {
    let (till, sequence) = if random.one_in(3) {
        number_out_of_limits(random)
    } else {
        sale_number(random)
    };
    Step::Cancel { till, sequence }
}

fn drawn_railway(random: &mut Random, known: &Book) -> u64 {
    match random.below(6) {
        0 => random.pick(&[0, 10_000, u64::MAX, (1 << 32) + 1]),
        1 => random.between_with_ends(1, 9999),
        _ if known.entries.is_empty() => random.between(1, 9999),
        _ => {
            let entry = random.pick(&known.entries);
            random.pick(&entry.question.legs).railway
        }
    }
}

#[cfg(test)]
mod tests {
    use super::*;
    use crate::book::words::is_sound;
    use std::collections::BTreeSet;

    fn outcome(answer: &Answer) -> u8 {
        match answer {
            Answer::Sale(Sale::Refused(refusal))
            | Answer::Cancel(Cancel::Refused(refusal))
            | Answer::Sum(Sum::Refused(refusal))
            | Answer::Count(Count::Refused(refusal))
            | Answer::Reading(Reading::Refused(refusal)) => refusal.number,
            Answer::Sale(Sale::Booked { .. }) => 101,
            Answer::Sale(Sale::AlreadyBooked {
                cancelled: false, ..
            }) => 102,
            Answer::Sale(Sale::AlreadyBooked {
                cancelled: true, ..
            }) => 103,
            Answer::Cancel(Cancel::Cancelled { .. }) => 104,
            Answer::Cancel(Cancel::AlreadyCancelled { .. }) => 105,
            Answer::Sum(Sum::Amount(_)) => 106,
            Answer::Count(Count::Entries(_)) => 107,
            Answer::Reading(Reading::Found { .. }) => 108,
        }
    }

    fn may_change_the_book(answer: &Answer) -> bool {
        matches!(outcome(answer), 101 | 104)
    }

    #[test]
    fn histories_reach_every_answer_and_change_the_book_only_when_told() {
        let mut random = Random::from_seed(61);
        let mut reached = BTreeSet::new();
        for _ in 0..300 {
            let history = history(&mut random, 30);
            let mut words = history.book.clone();
            let was_sound = is_sound(&words);
            for step in &history.steps {
                let before = words.clone();
                let answer = perform(step, &mut words, &history.bundles);
                assert_eq!(words != before, may_change_the_book(&answer), "{step:?}");
                assert_eq!(is_sound(&words), was_sound);
                reached.insert(outcome(&answer));
            }
        }
        let calls = (11..=15).chain([17]).chain(21..=25);
        for number in (1..=7).chain(calls).chain(101..=108) {
            assert!(reached.contains(&number), "{number} in {reached:?}");
        }
    }

    #[test]
    fn totals_are_the_sum_of_balances() {
        let mut random = Random::from_seed(62);
        for _ in 0..40 {
            let history = history(&mut random, 40);
            let mut words = history.book.clone();
            for step in &history.steps {
                perform(step, &mut words, &history.bundles);
            }
            if is_sound(&words) {
                assert_eq!(total(&words), Sum::Amount(sum_of_balances(&words)));
            }
        }
    }

    fn sum_of_balances(words: &[u32]) -> u64 {
        let book = book_of_words(words).unwrap();
        let railways: BTreeSet<u64> = book
            .entries
            .iter()
            .flat_map(|entry| entry.question.used_legs().iter().map(|leg| leg.railway))
            .collect();
        railways
            .into_iter()
            .map(|railway| match book.balance(railway) {
                Sum::Amount(amount) => amount,
                Sum::Refused(refusal) => panic!("{refusal:?}"),
            })
            .sum()
    }
}
