//! A day at a till, and what is turned away.
mod common;

use common::{question, question_with, BUNDLE, NUMBER, PARTS, RAILCARD, TICKET};
use offers::{fare, judge, Book, Outcome, Question, Reason, SaleNumber, Ticket, BOOK_WORDS, MOST_BUNDLE_BYTES};

const FAMILY_BUNDLE: &[u8] = include_bytes!("../../examples/family.bundle");
const MEMBERS_CARD: u32 = 21;

fn owed(book: &Book) -> [u64; 3] {
    [book.balance(1185).unwrap(), book.balance(1181).unwrap(), book.total().unwrap()]
}

#[test]
fn a_sale_sent_again_is_booked_once() {
    let mut book = Book::new();
    let sold = book.sale(BUNDLE, NUMBER, &question()).unwrap();
    assert_eq!((sold.outcome, sold.parts, sold.amount()), (Outcome::Booked, PARTS, 2625));
    assert_eq!(owed(&book), [1125, 1500, 2625]);
    let booked = book.clone();
    let again = book.sale(b"", NUMBER, &question()).unwrap();
    assert_eq!((again.outcome, again.parts), (Outcome::AlreadyBooked { cancelled: false }, PARTS));
    assert_eq!(book, booked);
    let cancelled = book.cancel(NUMBER).unwrap();
    assert_eq!((cancelled.outcome, cancelled.parts), (Outcome::Cancelled, PARTS));
    assert_eq!(owed(&book), [0, 0, 0]);
    assert_eq!(book.cancel(NUMBER).unwrap().outcome, Outcome::AlreadyCancelled);
    let late = book.sale(BUNDLE, NUMBER, &question()).unwrap();
    assert_eq!((late.outcome, late.parts), (Outcome::AlreadyBooked { cancelled: true }, PARTS));
    assert_eq!(Book::from_words(book.as_words()), Ok(book));
}

#[test]
fn a_changed_book_is_told_apart() {
    let changing = [Outcome::Booked, Outcome::Cancelled];
    let kept = [Outcome::AlreadyBooked { cancelled: false }, Outcome::AlreadyCancelled];
    assert!(changing.into_iter().all(Outcome::has_changed_the_book));
    assert!(!kept.into_iter().any(Outcome::has_changed_the_book));
}

#[test]
fn a_bundle_is_judged_and_a_ticket_priced() {
    assert_eq!(judge(BUNDLE), Ok(10));
    let quote = fare(BUNDLE, &question()).unwrap();
    assert_eq!((quote.fare, quote.parts), (2625, PARTS));
}

#[test]
fn refusals_say_why_and_where() {
    let link = judge(b"AR1185000420000007030000Y001N+050202401010120241231").unwrap_err();
    assert_eq!((link.reason, link.place, link.detail), (Reason::LinkMissing, 0, 1));
    assert_eq!(judge(&vec![b' '; MOST_BUNDLE_BYTES + 1]).unwrap_err().reason, Reason::BundleTooLong);
    assert_eq!(fare(b"", &question()).unwrap_err().reason, Reason::NoConditions);
    let nowhere = Question::new(&Ticket { legs: &[], ..TICKET }).unwrap();
    assert_eq!(fare(b"", &nowhere).unwrap_err().reason, Reason::OutsideLimits);
    let mut book = Book::new();
    assert_eq!(book.cancel(NUMBER).unwrap_err().reason, Reason::SaleUnknown);
    assert_eq!(book.cancel(SaleNumber { till: 0, sequence: 1 }).unwrap_err().reason, Reason::NumberOutside);
    assert_eq!(book.balance(0).unwrap_err().reason, Reason::OutsideLimits);
    book.sale(BUNDLE, NUMBER, &question()).unwrap();
    let other = Question::new(&Ticket { day: TICKET.day + 1, ..TICKET }).unwrap();
    assert_eq!(book.sale(BUNDLE, NUMBER, &other).unwrap_err().reason, Reason::NumberTaken);
}

/// On the first leg both cards reduce, on the second the members' card alone.
#[test]
fn a_family_shows_two_cards() {
    let parts_with = |cards| fare(FAMILY_BUNDLE, &question_with(cards)).unwrap().parts[..2].to_vec();
    assert_eq!(parts_with(&[]), [2274, 1125]);
    assert_eq!(parts_with(&[RAILCARD]), [1650, 900]);
    assert_eq!(parts_with(&[MEMBERS_CARD]), [2046, 843]);
    assert_eq!(parts_with(&[RAILCARD, MEMBERS_CARD]), [1500, 843]);
}

#[test]
fn the_order_of_the_cards_is_part_of_the_question() {
    let (asked, turned) = (question_with(&[RAILCARD, MEMBERS_CARD]), question_with(&[MEMBERS_CARD, RAILCARD]));
    assert_eq!(fare(FAMILY_BUNDLE, &asked), fare(FAMILY_BUNDLE, &turned));
    let mut book = Book::new();
    book.sale(FAMILY_BUNDLE, NUMBER, &asked).unwrap();
    assert_eq!(book.sale(FAMILY_BUNDLE, NUMBER, &turned).unwrap_err().reason, Reason::NumberTaken);
    let again = book.sale(FAMILY_BUNDLE, NUMBER, &asked).unwrap();
    assert_eq!(again.outcome, Outcome::AlreadyBooked { cancelled: false });
}

#[test]
fn cards_are_within_their_limits_and_differ() {
    let refusal_of = |cards| fare(FAMILY_BUNDLE, &question_with(cards)).unwrap_err();
    let twice = refusal_of(&[RAILCARD, MEMBERS_CARD, RAILCARD]);
    assert_eq!((twice.reason, twice.reason.number(), twice.place, twice.detail), (Reason::CardTwice, 17, 0, 0));
    assert_eq!(refusal_of(&[RAILCARD, RAILCARD, 1000]).reason, Reason::OutsideLimits);
    assert_eq!(refusal_of(&[0, RAILCARD]).reason, Reason::OutsideLimits);
}

#[test]
fn a_book_is_taken_back_only_if_it_is_sound() {
    let mut words = vec![0; BOOK_WORDS];
    assert_eq!(Book::from_words(&words), Ok(Book::new()));
    assert_eq!(Book::from_words(&words[1..]).unwrap_err().reason, Reason::BookUnsound);
    words[0] = 1;
    assert_eq!(Book::from_words(&words).unwrap_err().reason, Reason::BookUnsound);
}
