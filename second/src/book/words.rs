//! Renders "The sales book" as lent words: the codec and the calls on such a book.

use super::{unsound, Book, Cancel, Count, Entry, Reading, Sale, Sum, MOST_ENTRIES};
use crate::fare::Question;
use crate::question::LEG_SLOTS;

pub const ENTRY_WORDS: usize = 64;
pub const BOOK_WORDS: usize = 1 + MOST_ENTRIES * ENTRY_WORDS;

/// Places of the words inside one entry.
pub mod place {
    pub const TILL: usize = 0;
    pub const SEQUENCE: usize = 1;
    pub const OFFER: usize = 2;
    pub const DAY: usize = 3;
    pub const CARDS: usize = 4;
    pub const LEG_COUNT: usize = 8;
    pub const CATEGORIES: usize = 9;
    pub const PERSONS: usize = 10;
    pub const LEGS: usize = 21;
    pub const WORDS_PER_LEG: usize = 4;
    pub const PARTS: usize = 53;
    pub const MARK: usize = 61;
    pub const RETURNED: usize = 62;
    pub const RESERVE: usize = 63;

    pub fn railway(leg: usize) -> usize {
        LEGS + leg * WORDS_PER_LEG
    }

    pub fn fare(leg: usize) -> usize {
        railway(leg) + 1
    }
}

pub fn empty_book() -> Vec<u32> {
    vec![0; BOOK_WORDS]
}

/// None where the words hold what no list of entries can hold.
pub fn book_of_words(words: &[u32]) -> Option<Book> {
    if words.len() != BOOK_WORDS {
        return None;
    }
    let count = usize::try_from(words[0])
        .ok()
        .filter(|&count| count <= MOST_ENTRIES)?;
    let (used, unused) = words[1..].split_at(count * ENTRY_WORDS);
    if unused.iter().any(|&word| word != 0) {
        return None;
    }
    let entries: Option<Vec<Entry>> = used.chunks(ENTRY_WORDS).map(entry_of_words).collect();
    Some(Book { entries: entries? })
}

/// None where a value is too wide for its word or there are too many entries.
pub fn words_of_book(book: &Book) -> Option<Vec<u32>> {
    if book.entries.len() > MOST_ENTRIES {
        return None;
    }
    let mut words = vec![u32::try_from(book.entries.len()).ok()?];
    for entry in &book.entries {
        words.extend(words_of_entry(entry)?);
    }
    words.resize(BOOK_WORDS, 0);
    Some(words)
}

/// Written back, the entry must give the same words: so no word it does not know is set.
fn entry_of_words(words: &[u32]) -> Option<Entry> {
    let number = |place: usize| u64::from(words[place]);
    let mut entry = Entry {
        till: number(place::TILL),
        sequence: number(place::SEQUENCE),
        question: Question {
            offer: number(place::OFFER),
            day: number(place::DAY),
            persons: number(place::PERSONS),
            cards: std::array::from_fn(|slot| number(place::CARDS + slot)),
            leg_count: number(place::LEG_COUNT),
            ..Question::default()
        },
        cancelled: words[place::MARK] == 1,
        ..Entry::default()
    };
    for leg in 0..LEG_SLOTS {
        entry.question.legs[leg].railway = number(place::railway(leg));
        entry.question.legs[leg].fare = number(place::fare(leg));
        entry.parts[leg] = number(place::PARTS + leg);
    }
    (words_of_entry(&entry)? == words).then_some(entry)
}

fn words_of_entry(entry: &Entry) -> Option<[u32; ENTRY_WORDS]> {
    let mut words = [0; ENTRY_WORDS];
    let question = &entry.question;
    let mut put = |place: usize, number: u64| {
        words[place] = u32::try_from(number).ok()?;
        Some(())
    };
    put(place::TILL, entry.till)?;
    put(place::SEQUENCE, entry.sequence)?;
    put(place::OFFER, question.offer)?;
    put(place::DAY, question.day)?;
    put(place::LEG_COUNT, question.leg_count)?;
    put(place::PERSONS, question.persons)?;
    for (slot, card) in question.cards.into_iter().enumerate() {
        put(place::CARDS + slot, card)?;
    }
    for (leg, asked) in question.legs.iter().enumerate() {
        put(place::railway(leg), asked.railway)?;
        put(place::fare(leg), asked.fare)?;
        put(place::PARTS + leg, entry.parts[leg])?;
    }
    put(place::MARK, u64::from(entry.cancelled))?;
    Some(words)
}

pub fn is_sound(words: &[u32]) -> bool {
    book_of_words(words).is_some_and(|book| book.is_sound())
}

pub fn sale(
    words: &mut [u32],
    bundle: &[u8],
    till: u64,
    sequence: u64,
    question: &Question,
) -> Sale {
    let Some(mut book) = book_of_words(words) else {
        return Sale::Refused(unsound());
    };
    let answer = book.sale(bundle, till, sequence, question);
    if matches!(answer, Sale::Booked { .. }) {
        write_back(words, &book);
    }
    answer
}

pub fn cancel(words: &mut [u32], till: u64, sequence: u64) -> Cancel {
    let Some(mut book) = book_of_words(words) else {
        return Cancel::Refused(unsound());
    };
    let answer = book.cancel(till, sequence);
    if matches!(answer, Cancel::Cancelled { .. }) {
        write_back(words, &book);
    }
    answer
}

pub fn balance(words: &[u32], railway: u64) -> Sum {
    match book_of_words(words) {
        Some(book) => book.balance(railway),
        None => Sum::Refused(unsound()),
    }
}

pub fn total(words: &[u32]) -> Sum {
    match book_of_words(words) {
        Some(book) => book.total(),
        None => Sum::Refused(unsound()),
    }
}

pub fn count(words: &[u32]) -> Count {
    match book_of_words(words) {
        Some(book) => book.count(),
        None => Count::Refused(unsound()),
    }
}

pub fn entry(words: &[u32], place: u64) -> Reading {
    match book_of_words(words) {
        Some(book) => book.entry(place),
        None => Reading::Refused(unsound()),
    }
}

pub fn find(words: &[u32], till: u64, sequence: u64) -> Reading {
    match book_of_words(words) {
        Some(book) => book.find(till, sequence),
        None => Reading::Refused(unsound()),
    }
}

fn write_back(words: &mut [u32], book: &Book) {
    words.copy_from_slice(&words_of_book(book).expect("a sound book fits its words"));
}

#[cfg(test)]
mod tests {
    use super::*;
    use crate::generate::books::{full_book, sound_book, sound_book_of, BookDefect};
    use crate::generate::drafts::{assemble, Draft};
    use crate::generate::random::Random;
    use crate::layout::Table;
    use crate::question::{asked, CARD_SLOTS};
    use crate::refusal::Refusal;

    #[test]
    fn the_size_of_a_book() {
        assert_eq!(BOOK_WORDS, 16_385);
        assert!(is_sound(&empty_book()));
        for length in [0, 1, 64, 65, BOOK_WORDS - 1, BOOK_WORDS + 1] {
            assert_eq!(
                total(&vec![0; length]),
                Sum::Refused(Refusal::of_call(21)),
                "{length}"
            );
        }
    }

    #[test]
    fn places_end_with_the_entry() {
        assert_eq!(place::CARDS + CARD_SLOTS, place::LEG_COUNT);
        assert_eq!(place::CATEGORIES + 12, place::LEGS);
        assert_eq!(place::LEGS + 32, place::PARTS);
        assert_eq!(place::PARTS + 8, place::MARK);
        assert_eq!(place::RESERVE + 1, ENTRY_WORDS);
    }

    #[test]
    fn books_survive_the_codec() {
        let mut random = Random::from_seed(5);
        for _ in 0..50 {
            let book = sound_book(&mut random);
            let words = words_of_book(&book).unwrap();
            assert!(is_sound(&words));
            assert_eq!(book_of_words(&words), Some(book));
        }
    }

    #[test]
    fn only_the_used_words_may_be_set() {
        let mut random = Random::from_seed(6);
        let mut book = full_book(&mut random);
        book.entries.truncate(2);
        let words = words_of_book(&book).unwrap();
        for place in [9].into_iter().chain(11..21).chain([62, 63]) {
            let mut set = words.clone();
            set[1 + ENTRY_WORDS + place] = 1;
            assert!(!is_sound(&set), "{place}");
        }
        for leg in 0..8 {
            for place in [place::fare(leg) + 1, place::fare(leg) + 2] {
                let mut set = words.clone();
                set[1 + place] = 1;
                assert!(!is_sound(&set), "{place}");
            }
        }
    }

    #[test]
    fn an_unsound_book_refuses_every_call_and_stays() {
        let mut random = Random::from_seed(7);
        for defect in BookDefect::all() {
            let mut words = defect.example(&mut random);
            let before = words.clone();
            let refusal = Refusal::of_call(21);
            assert_eq!(
                sale(&mut words, b"", 0, 0, &Question::default()),
                Sale::Refused(refusal),
                "{defect:?}"
            );
            assert_eq!(cancel(&mut words, 0, 0), Cancel::Refused(refusal));
            assert_eq!(balance(&words, 0), Sum::Refused(refusal));
            assert_eq!(total(&words), Sum::Refused(refusal));
            assert_eq!(count(&words), Count::Refused(refusal));
            assert_eq!(entry(&words, u64::MAX), Reading::Refused(refusal));
            assert_eq!(find(&words, 0, 0), Reading::Refused(refusal));
            assert_eq!(words, before);
        }
    }

    fn changed_words(before: &[u32], after: &[u32]) -> Vec<usize> {
        (0..BOOK_WORDS)
            .filter(|&place| before[place] != after[place])
            .collect()
    }

    #[test]
    fn a_new_sale_adds_one_entry_at_the_end() {
        let mut random = Random::from_seed(9);
        let book = sound_book_of(&mut random, 254);
        let before = words_of_book(&book).unwrap();
        let mut words = before.clone();
        let bundle = assemble(&[Draft::plain(Table::Co)]);
        let mut question = asked(3, &[999, 4, 17, 8], &[(1185, 500)]);
        question.legs = [question.legs[0]; LEG_SLOTS];
        let sequence = (1..)
            .find(|&free| book.place_of(2, free).is_none())
            .unwrap();
        let answer = sale(&mut words, &bundle, 2, sequence, &question);
        let parts = [1500, 0, 0, 0, 0, 0, 0, 0];
        assert_eq!(answer, Sale::Booked { parts });
        let start = 1 + 254 * ENTRY_WORDS;
        let expected = [
            (0, 255),
            (start, 2),
            (start + 1, sequence as u32),
            (start + 2, 42),
            (start + 3, 20240615),
            (start + 4, 999),
            (start + 5, 4),
            (start + 6, 17),
            (start + 7, 8),
            (start + 8, 1),
            (start + 10, 3),
            (start + 21, 1185),
            (start + 22, 500),
            (start + 53, 1500),
        ];
        assert_eq!(
            changed_words(&before, &words),
            expected.map(|(place, _)| place)
        );
        assert!(expected.iter().all(|&(place, word)| words[place] == word));
        let repeated = sale(&mut words, b"XX", 2, sequence, &question);
        let cancelled = false;
        assert_eq!(repeated, Sale::AlreadyBooked { parts, cancelled });
    }

    #[test]
    fn a_first_cancel_sets_one_word() {
        let mut random = Random::from_seed(8);
        let mut book = full_book(&mut random);
        book.entries[17].cancelled = false;
        let before = words_of_book(&book).unwrap();
        let mut words = before.clone();
        let entry = &book.entries[17];
        let answer = cancel(&mut words, entry.till, entry.sequence);
        assert_eq!(answer, Cancel::Cancelled { parts: entry.parts });
        let changed = changed_words(&before, &words);
        assert_eq!(changed, [1 + 17 * ENTRY_WORDS + place::MARK]);
        assert_eq!(words[changed[0]], 1);
    }
}
