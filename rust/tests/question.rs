//! What a question is made of, and what it gives back.
mod common;

use common::{question, question_with, TICKET};
use offers::{Question, Ticket, TooMany, MOST_CARDS, MOST_LEGS};

#[test]
fn it_gives_back_what_was_asked() {
    let asked = question();
    assert_eq!((asked.offer(), asked.day(), asked.persons()), (TICKET.offer, TICKET.day, TICKET.persons));
    assert_eq!((asked.cards(), asked.legs()), (TICKET.cards, TICKET.legs));
    assert_eq!(asked.ticket(), TICKET);
    assert_eq!(Question::new(&asked.ticket()), Ok(asked));
}

/// A 0 is no card. One before another card is the engine's to refuse, so it is kept.
#[test]
fn only_the_cards_that_are_given_are_told() {
    assert_eq!(question_with(&[]).cards(), []);
    assert_eq!(question_with(&[7, 0]).cards(), [7]);
    assert_eq!(question_with(&[0, 7]).cards(), [0, 7]);
    assert_eq!(question_with(&[1, 2, 3, 4]).cards(), [1, 2, 3, 4]);
}

#[test]
fn it_has_eight_legs_at_most() {
    let legs = [TICKET.legs[0]; MOST_LEGS + 1];
    assert_eq!(Question::new(&Ticket { legs: &legs[..MOST_LEGS], ..TICKET }).unwrap().legs(), &legs[..MOST_LEGS]);
    let too_many = Question::new(&Ticket { legs: &legs, ..TICKET }).unwrap_err();
    assert_eq!(too_many, TooMany::Legs(9));
    assert_eq!(too_many.to_string(), "a ticket has 8 legs at most, and not 9");
}

#[test]
fn it_has_four_cards_at_most() {
    let too_many = Question::new(&Ticket { cards: &[1; MOST_CARDS + 1], ..TICKET }).unwrap_err();
    assert_eq!(too_many, TooMany::Cards(5));
    assert_eq!(too_many.to_string(), "a ticket has 4 cards at most, and not 5");
}

#[test]
fn it_is_shown_without_empty_slots() {
    let shown = "Question { offer: 42, day: 20240615, persons: 3, cards: [7], \
                 legs: [Leg { railway: 1185, fare: 1010 }, Leg { railway: 1181, fare: 500 }] }";
    assert_eq!(format!("{:?}", question()), shown);
}
