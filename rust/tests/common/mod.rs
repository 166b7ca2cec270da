//! A ticket and the bundles that it is sold from.
#![allow(dead_code)] // each test takes what it needs
use offers::{Book, Leg, Question, SaleNumber, Ticket};

pub const BUNDLE: &[u8] = include_bytes!("../../../examples/sample.bundle");
pub const PARTS: [u32; 8] = [1125, 1500, 0, 0, 0, 0, 0, 0];
pub const AMOUNT: u64 = 2625;
pub const RAILCARD: u32 = 7;
pub const NUMBER: SaleNumber = SaleNumber { till: 1, sequence: 1 };

pub const TICKET: Ticket = Ticket {
    offer: 42,
    day: 20_240_615,
    persons: 3,
    cards: &[RAILCARD],
    legs: &[Leg { railway: 1185, fare: 1010 }, Leg { railway: 1181, fare: 500 }],
};

pub fn question() -> Question {
    Question::new(&TICKET).unwrap()
}

pub fn question_with(cards: &[u32]) -> Question {
    Question::new(&Ticket { cards, ..TICKET }).unwrap()
}

/// A book with so many sales of one till, numbered from 1.
pub fn book_of(sales: u64) -> Book {
    let mut book = Book::new();
    for sequence in 1..=sales {
        book.sale(BUNDLE, SaleNumber { till: 1, sequence }, &question()).unwrap();
    }
    book
}
